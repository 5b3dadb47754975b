//! CUPS raster files, version 3: what a printer filter reads.

use printbox::gdi::row_bytes;

/// A page of a raster: one bit for each dot, black is 1.
pub struct Page {
    pub width: usize,
    pub rows: Vec<Vec<u8>>,
    pub tray: u32,
    pub paper_type: u32,
}

/// A little-endian raster file of these pages: a word that tells the version, then of each page its
/// head of 1,796 bytes (`cups_page_header2_t`) and its rows, not compressed.
pub fn raster(pages: &[Page]) -> Vec<u8> {
    let mut file = b"3SaR".to_vec();
    for page in pages {
        file.extend_from_slice(&head(page));
        for row in &page.rows {
            assert_eq!(row.len(), row_bytes(page.width), "the bytes of a row");
            file.extend_from_slice(row);
        }
    }
    file
}

fn head(page: &Page) -> [u8; 1796] {
    let mut head = [0; 1796];
    for (at, number) in [
        (276, 600), // HWResolution
        (280, 600),
        (324, page.tray), // MediaPosition
        (340, 1),         // NumCopies
        (352, 595),       // PageSize, in points
        (356, 842),
        (372, page.width as u32),            // cupsWidth
        (376, page.rows.len() as u32),       // cupsHeight
        (380, page.paper_type),              // cupsMediaType
        (384, 1),                            // cupsBitsPerColor
        (388, 1),                            // cupsBitsPerPixel
        (392, row_bytes(page.width) as u32), // cupsBytesPerLine
        (396, 0),                            // cupsColorOrder: chunky
        (400, 3),                            // cupsColorSpace: black
        (420, 1),                            // cupsNumColors
    ] {
        head[at..at + 4].copy_from_slice(&number.to_le_bytes());
    }
    head[1732..1734].copy_from_slice(b"A4"); // cupsPageSizeName
    head
}
