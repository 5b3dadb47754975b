/*
 * Draws the two bands of the listing sheet, gets a refusal, and calls every other entry of the
 * library. Each call prints the entry with its answer, and where it wrote bytes, these; before them
 * the header's sizes are printed.
 */

#include <printbox.h>

#include <stdio.h>
#include <string.h>

/* 4 scan lines of 16 dots in bands of 2, one page; in both bands the rectangle 1, 2, 1, 3. */
static const uint8_t sheet[] = {
    /* the herald */
    0xAA, 0xAA, 0, 1, 0, 0, 2, 0x58, 2, 0x58, 0, 4, 0, 16, 0, 2, 0, 0, 0, 0, 0, 1,
    /* one page of two bands */
    0, 1, 0, 2,
    /* band 0: five words */
    0, 5, 0, 5, 0, 1, 0, 2, 0, 1, 0, 3,
    /* band 1 */
    0, 5, 0, 5, 0, 1, 0, 2, 0, 1, 0, 3,
};

/* The empty load: the count 0 alone. */
static const uint8_t load[] = {0, 0, 0, 0};

/* Prints the limits, and the bytes of rows and of room at widths where they change. */
static void print_sizes(void)
{
    printf("limits: %d %d %d\n", PRINTBOX_FILE_BYTES, PRINTBOX_BAND_BYTES, PRINTBOX_GDI_WIDTH);
    printf("film rows: %zu %zu %zu\n", PRINTBOX_FILM_ROW_BYTES(1), PRINTBOX_FILM_ROW_BYTES(16),
           PRINTBOX_FILM_ROW_BYTES(17));
    printf("job parts: %d %d %d\n", PRINTBOX_GDI_HEAD_BYTES, PRINTBOX_GDI_PAGE_HEAD_BYTES,
           PRINTBOX_GDI_END_BYTES);
    printf("job rows: %zu %zu %zu\n", PRINTBOX_GDI_ROW_BYTES(1), PRINTBOX_GDI_ROW_BYTES(8),
           PRINTBOX_GDI_ROW_BYTES(9));
    printf("room: %zu %zu %zu\n", PRINTBOX_GDI_ROW_ROOM(1), PRINTBOX_GDI_ROW_ROOM(255),
           PRINTBOX_GDI_ROW_ROOM(256));
}

static void print_answer(const char *entry, const uint64_t answer[3])
{
    const char *kind = "no kind";
    unsigned long long a = answer[1];
    unsigned long long b = answer[2];

    if (answer[0] == PRINTBOX_DONE)
        kind = "done";
    else if (answer[0] == PRINTBOX_REFUSED)
        kind = "refused";
    else if (answer[0] == PRINTBOX_PAGE_END)
        kind = "page end";
    printf("%s: %s %llu %llu\n", entry, kind, a, b);
}

static void print_bytes(const uint8_t *bytes, size_t length)
{
    size_t i;

    for (i = 0; i < length; i++)
        printf("%02X", bytes[i]);
    printf("\n");
}

/* Draws a band into a buffer that held EE in every byte, and prints the whole buffer. */
static void draw(size_t page, size_t band)
{
    uint8_t buffer[2 * PRINTBOX_FILM_ROW_BYTES(16) + 2];
    uint64_t answer[3];

    memset(buffer, 0xEE, sizeof buffer);
    film_draw(sheet, sizeof sheet, load, sizeof load, page, band, buffer, sizeof buffer, answer);
    print_answer("film_draw", answer);
    print_bytes(buffer, sizeof buffer);
}

/* Writes a job of one page with one row and reads it back: A5, the row's first half black. */
static void write_and_read(void)
{
    enum { WIDTH = 3298 };
    static uint8_t row[PRINTBOX_GDI_ROW_BYTES(WIDTH)];
    static uint8_t read[PRINTBOX_GDI_ROW_BYTES(WIDTH)];
    static uint8_t job[PRINTBOX_GDI_HEAD_BYTES + PRINTBOX_GDI_PAGE_HEAD_BYTES
                       + PRINTBOX_GDI_ROW_ROOM(WIDTH) + 2 * PRINTBOX_GDI_END_BYTES];
    uint64_t answer[3];
    size_t end = 0;
    size_t line;

    memset(row, 0xFF, 1649 / 8);
    row[1649 / 8] = 0x80;

    gdi_write_head(job, sizeof job, answer);
    print_answer("gdi_write_head", answer);
    end += (size_t)answer[1];

    gdi_write_page_head(0x01020304, WIDTH, 1, 4, 3, 2, 1, job + end, sizeof job - end, answer);
    print_answer("gdi_write_page_head", answer);
    print_bytes(job + end, (size_t)answer[1]);
    end += (size_t)answer[1];
    line = end;

    gdi_write_row(WIDTH, row, sizeof row, job + end, sizeof job - end, answer);
    print_answer("gdi_write_row", answer);
    print_bytes(job + end, (size_t)answer[1]);
    end += (size_t)answer[1];

    gdi_write_page_end(job + end, sizeof job - end, answer);
    print_answer("gdi_write_page_end", answer);
    print_bytes(job + end, (size_t)answer[1]);
    end += (size_t)answer[1];

    gdi_write_document_end(job + end, sizeof job - end, answer);
    print_answer("gdi_write_document_end", answer);
    print_bytes(job + end, (size_t)answer[1]);
    end += (size_t)answer[1];

    gdi_check(job, end, answer);
    print_answer("gdi_check", answer);

    gdi_read_line(job, end, line, 0, WIDTH, read, sizeof read, answer);
    print_answer("gdi_read_line", answer);
    if (memcmp(row, read, sizeof row) == 0)
        printf("the row read is the row written\n");
    else
        printf("the rows differ\n");

    gdi_read_line(job, end, (size_t)answer[1], (size_t)answer[2], WIDTH, read, sizeof read, answer);
    print_answer("gdi_read_line", answer);
}

/* Writes the row that needs most room: the widest, its dots black and white in turn. */
static void write_longest(void)
{
    static uint8_t row[PRINTBOX_GDI_ROW_BYTES(PRINTBOX_GDI_WIDTH)];
    static uint8_t output[PRINTBOX_GDI_ROW_ROOM(PRINTBOX_GDI_WIDTH)];
    uint64_t answer[3];

    memset(row, 0xAA, sizeof row);
    gdi_write_row(PRINTBOX_GDI_WIDTH, row, sizeof row, output, sizeof output, answer);
    print_answer("gdi_write_row", answer);
    gdi_write_row(PRINTBOX_GDI_WIDTH, row, sizeof row, output, sizeof output - 1, answer);
    print_answer("gdi_write_row", answer);
}

int main(void)
{
    uint64_t answer[3];

    print_sizes();
    film_check(sheet, sizeof sheet, load, sizeof load, answer);
    print_answer("film_check", answer);
    draw(0, 0);
    draw(0, 1);
    draw(0, 2);
    write_and_read();
    write_longest();
    gdi_linefill(4762, answer);
    print_answer("gdi_linefill", answer);
    return 0;
}
