/*
 * printbox.h: the print box's library, for C and C++ programs.
 *
 * Link with libprintbox.a, which `./staticlib` builds. It draws tolerance films from
 * sheets of masks, checks, reads and writes Sagem GDI jobs, and receives what a pocket gauge sends
 * to its strip printer. What each entry answers is proved for every input.
 *
 * What a caller owes. The proofs assume it, and no entry can test it:
 *
 * - No pointer is null, at length 0 too.
 * - A pointer with a length has that many bytes behind it.
 * - `answer` is aligned room for three uint64_t, and `record` an aligned struct strip_record.
 * - What an entry writes (buffer, row of the line reader, output, answer, record, bands, dots)
 *   overlaps nothing else that is lent to it.
 * - Nobody writes what is lent during the call.
 *
 * Nothing else is asked. Lengths, page, band, offset, left, width, every byte of an input and every
 * number of a record may be anything. No entry relies on an earlier check, and none keeps anything
 * between calls but in the record.
 *
 * What an entry answers. It sets all three numbers of `answer`: a kind, a and b; strip_receive
 * returns a struct strip_answer.
 *
 *   PRINTBOX_DONE      Done. What a and b are is said at the entry; where it says one number, that
 *                      is a, and b is 0.
 *   PRINTBOX_REFUSED   Refused. a is the number of the refusal, b its place; of strip_receive
 *                      they are `number` and `place`.
 *   PRINTBOX_PAGE_END  gdi_read_line only: the page end stands where a line would start. a and b
 *                      are the next place.
 *
 * The refusals that are named at an entry are all that it gives; that is proved.
 *
 * A refused call changes no byte of buffer, row, output, bands or dots. A call that is done writes
 * their first bytes, and those beyond what is written stay. The bytes of an input always stay.
 *
 * The numbers of refusals, with their places. A place is a word of the sheet or a byte of the job,
 * counted from 0.
 *
 *    1  sheet or load of an odd length; sheet, load or job too long: 0
 *    2  sheet under 12 words: 0; wrong password: 0; wrong version: 1
 *    3  imageSSize, imageFSize, bandSSize or copies outside its range: that word;
 *       band bytes over their limit: 7
 *    4  the load has no whole count, its count is not its length, or is over maxLoadWords: 8
 *    5  page count 0, or a wrong count of bands: that word
 *    6  a count word is missing: the sheet's words; a band past the sheet: its count word;
 *       a command past its band: its code word
 *    7  unknown code: the code word
 *    8  priority over its limit: its high word; priority that falls: its low word
 *    9  tile, sample array or run group past the load, tile with a side of 0: the code word
 *   10  words after the last page: the first of them
 *   11  no such page or band: 0
 *   12  buffer shorter than the band's rows: 0
 *   13  tile mode not 0 or 1: the mode
 *   15  a padding bit set in a sample array or a tile: the code word
 *   21  the job's head differs: the first byte that does
 *   22  a page head with other fixed bytes, or width, height or toner outside its range: its first
 *       byte; 0 from the writer
 *   23  a group of bytes that may not come next: its first byte
 *   24  the job ends where bytes are needed: the job's length; a command's second byte past its
 *       block: the command
 *   25  a page end inside a line or before all lines: the page end; a command after all lines: the
 *       command
 *   26  bytes after the document end: the first of them
 *   27  width outside its range, row of another length, row with a spare bit set (writer), output
 *       too short: 0
 *   31  a packet's checksum is not the sum of its header and body: 0
 *   32  a packet of an unknown command: 0
 *   33  an indicator or a length that does not fit the packet's command: 0
 *   34  a tenth band: 0
 *   35  a packet's body that does not expand to 640 bytes: 0
 *   36  bands or dots shorter than PRINTBOX_STRIP_BYTES, or a record of over nine bands or 648 body
 *       bytes: 0
 */

#ifndef PRINTBOX_H
#define PRINTBOX_H

#include <stddef.h>
#include <stdint.h>

#ifdef __cplusplus
extern "C" {
#endif

/* The kinds of answers: answer[0]. */
#define PRINTBOX_DONE 0
#define PRINTBOX_REFUSED 1
#define PRINTBOX_PAGE_END 2

/* The greatest length of a sheet, a load or a job, in bytes. */
#define PRINTBOX_FILE_BYTES 16777216

/* The greatest number of bytes of a band's rows: a buffer of this length is always enough. */
#define PRINTBOX_BAND_BYTES 65536

/* The greatest width of a line of a job, in dots. The least is 1. */
#define PRINTBOX_GDI_WIDTH 16383

/* The bytes of a job's head, of a page head, and of a page end or document end. */
#define PRINTBOX_GDI_HEAD_BYTES 86
#define PRINTBOX_GDI_PAGE_HEAD_BYTES 21
#define PRINTBOX_GDI_END_BYTES 6

/*
 * The bytes of a row of a film, two for each 16 dots, and of a row of a job's line, one for each 8;
 * rounded up. The high bit of the first byte is dot 0. Spare bits are 0.
 */
#define PRINTBOX_FILM_ROW_BYTES(dots) (((size_t)(dots) + 15) / 16 * 2)
#define PRINTBOX_GDI_ROW_BYTES(width) (((size_t)(width) + 7) / 8)

/*
 * A length of output that is enough for gdi_write_row on any row of an admitted width, which is
 * proved: a byte for each dot, and the six bytes of a block's head for each 255 of them, rounded
 * up.
 */
#define PRINTBOX_GDI_ROW_ROOM(width) ((size_t)(width) + 6 * (((size_t)(width) + 254) / 255))

/*
 * Checks a sheet with its load.
 * Done: the number of pages.
 * Refusals: 1 to 10, 13, 15.
 */
void film_check(const uint8_t *sheet, size_t sheet_length,
                const uint8_t *load, size_t load_length,
                uint64_t answer[3]);

/*
 * Draws a band of a page, both counted from 0. Its rows stand in the buffer from the first byte on;
 * what the buffer held does not matter. On a sheet that the check passes, no page and band that it
 * has are refused to a buffer of at least the band's bytes.
 * Done: a is the number of rows, b the number of one bits in them.
 * Refusals: 1 to 9, 11 to 13, 15.
 */
void film_draw(const uint8_t *sheet, size_t sheet_length,
               const uint8_t *load, size_t load_length,
               size_t page, size_t band,
               uint8_t *buffer, size_t buffer_length,
               uint64_t answer[3]);

/*
 * Checks a job.
 * Done: the number of pages.
 * Refusals: 1, 21 to 26.
 */
void gdi_check(const uint8_t *job, size_t job_length, uint64_t answer[3]);

/*
 * Reads the line that starts at a place: a byte of the job, and the bytes that are left of the
 * block which holds it, 0 between blocks. The row has exactly PRINTBOX_GDI_ROW_BYTES(width); a
 * black dot is 1. Heads are not looked at, and lines are not counted. On a job that the check
 * passes, start after a page head with left 0 and go on at each place that was answered, with the
 * head's width: as many lines are read as its height says, then the page end, and none is refused.
 * Done: the row is written; a and b are the next place, offset and left.
 * Page end: the row stays; a and b are the place after the page end.
 * Refusals: 1, 23, 24, 25, 27.
 */
void gdi_read_line(const uint8_t *job, size_t job_length,
                   size_t offset, size_t left, size_t width,
                   uint8_t *row, size_t row_length,
                   uint64_t answer[3]);

/*
 * Writes the head of a job.
 * Done: the bytes written, PRINTBOX_GDI_HEAD_BYTES.
 * Refusals: 27.
 */
void gdi_write_head(uint8_t *output, size_t output_length, uint64_t answer[3]);

/*
 * Writes a page head. Width is 1 to 16,383, height 1 to 65,535, toner 0 or 1; the others may be any
 * numbers. The format of A4 is 0, of Letter 1, of A5 4, of Monarch 8.
 * Done: the bytes written, PRINTBOX_GDI_PAGE_HEAD_BYTES.
 * Refusals: 22, 27.
 */
void gdi_write_page_head(uint32_t tray, uint16_t width, uint16_t height,
                         uint8_t format, uint8_t paper_type, uint8_t copies, uint8_t toner,
                         uint8_t *output, size_t output_length,
                         uint64_t answer[3]);

/*
 * Writes a row as a line, in blocks of its own. The row has exactly PRINTBOX_GDI_ROW_BYTES(width).
 * Done: the bytes written, at most PRINTBOX_GDI_ROW_ROOM(width); an output of fewer bytes than that
 * costs a second look at the row.
 * Refusals: 27.
 */
void gdi_write_row(size_t width,
                   const uint8_t *row, size_t row_length,
                   uint8_t *output, size_t output_length,
                   uint64_t answer[3]);

/*
 * Writes a page end.
 * Done: the bytes written, PRINTBOX_GDI_END_BYTES.
 * Refusals: 27.
 */
void gdi_write_page_end(uint8_t *output, size_t output_length, uint64_t answer[3]);

/*
 * Writes a document end.
 * Done: the bytes written, PRINTBOX_GDI_END_BYTES.
 * Refusals: 27.
 */
void gdi_write_document_end(uint8_t *output, size_t output_length, uint64_t answer[3]);

/*
 * The linefill of a width: the two-byte command for a line that is all white.
 * Done: the linefill, its first byte in the high eight bits, as 9A4A hex for width 4762.
 * Refusals: 27.
 */
void gdi_linefill(size_t width, uint64_t answer[3]);

/* ---- the strip printer of a pocket gauge (GB Printer) ---- */

/* The dots of a row, the bytes of a printed row, the rows of a band, and the bytes of a band. */
#define PRINTBOX_STRIP_WIDTH 160
#define PRINTBOX_STRIP_ROW_BYTES 40
#define PRINTBOX_STRIP_BAND_ROWS 16
#define PRINTBOX_STRIP_BAND_BYTES 640

/* The greatest number of bands that wait, and the least length of bands and dots. */
#define PRINTBOX_STRIP_BANDS 9
#define PRINTBOX_STRIP_BYTES 5760

/* The greatest number of bytes of a packet's body. */
#define PRINTBOX_STRIP_BODY_BYTES 648

/* What a packet did, at its last byte: strip_answer.event. */
#define PRINTBOX_STRIP_NOTHING 0
#define PRINTBOX_STRIP_INITIALIZE 1 /* no band waits any more */
#define PRINTBOX_STRIP_BAND 2       /* Data: one more band waits */
#define PRINTBOX_STRIP_PAGE_END 3   /* Data with no body */
#define PRINTBOX_STRIP_INQUIRY 4
#define PRINTBOX_STRIP_PRINT 5 /* the rows of the waiting bands were written */

/*
 * The record of a receiver. Any numbers may stand in it. Begin with strip_new, and let nobody else
 * write it or the waiting bands: then, for every stream of bytes, receiver and waiting bands are
 * those of a plain reading of the packets, which is proved.
 */
struct strip_record {
    uint8_t phase;     /* the byte that is awaited: 1 a mark's second, 2 to 5 the header's, 6 one of
                          the body, 7 and 8 the checksum's, 9 and 10 the clock bytes; 0, and any
                          other number, a mark's first */
    uint8_t command;   /* of the packet */
    uint8_t indicator; /* of the packet: 1 for a run-coded body */
    uint16_t size;     /* the length of its body */
    uint16_t have;     /* the bytes of the body that have come */
    uint16_t sum;      /* of header and body so far; carried past 65,535 it starts again at 0 */
    uint8_t low;       /* the low byte of the length, and then of the checksum */
    uint8_t status;    /* that the host has set */
    uint8_t bands;     /* how many bands wait */
    uint8_t body[PRINTBOX_STRIP_BODY_BYTES];
};

/* What a byte is answered. What is not named for a kind or an event is 0. */
struct strip_answer {
    uint8_t kind;    /* PRINTBOX_DONE or PRINTBOX_REFUSED */
    uint8_t reply;   /* the byte on the line */
    uint8_t event;   /* done: what the packet did that this byte ends */
    uint8_t bands;   /* BAND: how many wait now; PRINT: how many were printed */
    uint8_t margins; /* PRINT: before the page in the high four bits, after it in the low ones */
    uint8_t density; /* PRINT: of the ink */
    uint8_t number;  /* refused: the number */
    size_t place;    /* refused: the place, which is always 0 */
};

/* A record before the first byte: it searches for a mark, no band waits, and the status is 0. */
struct strip_record strip_new(void);

/*
 * Takes one byte. The waiting bands stand in `bands` from its first byte on, as they came: 40 tiles
 * of 16 bytes each. Print writes their rows into `dots` from its first byte on: 16 rows of 40 bytes
 * for each band, four dots in a byte, the leftmost in the highest two bits, 0 for white to 3 for
 * black.
 * Done: the byte that is answered on the line, and what the packet did that it ends.
 * A byte that is refused with 36 is not taken: record, bands and dots stay. Any other refused byte
 * is taken and answered 0, bands and dots stay, and the search for a mark goes on at the next byte.
 * From a new record, with both buffers long enough, 36 is never given.
 * Refusals: 31 to 36.
 */
struct strip_answer strip_receive(struct strip_record *record, uint8_t byte,
                                  uint8_t *bands, size_t bands_length,
                                  uint8_t *dots, size_t dots_length);

/* Sets the status that a packet's second clock byte is answered. All else stays. */
void strip_set_status(struct strip_record *record, uint8_t status);

#ifdef __cplusplus
}
#endif

#endif
