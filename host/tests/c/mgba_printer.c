/*
 * The GB Printer of mGBA, a byte at a time.
 *
 * Standard input has a stream on each line, in hexadecimal; each goes to a printer before its first
 * byte. Standard output has mGBA's version on the first line, and then a line for each stream: the
 * reply to each byte in hexadecimal, and between blanks ROWS:DOTS for each page, in front of the
 * reply to the byte at which it was printed. A row has 40 bytes, as mGBA hands them out.
 */

#include <mgba/flags.h> /* how the library was built: before its other headers */

#include <mgba/core/version.h>
#include <mgba/internal/gb/sio.h>
#include <mgba/internal/gb/sio/printer.h>

#include <stdio.h>

#define ROW_BYTES 40
#define START_TRANSFER 0x81 /* in SC: start, by the own clock */

static void write_page(struct GBPrinter *printer, int rows, const uint8_t *dots)
{
    (void)printer;
    printf(" %d:", rows);
    for (int i = 0; i < ROW_BYTES * rows; i++) {
        printf("%02X", dots[i]);
    }
    putchar(' ');
}

static uint8_t reply(struct GBPrinter *printer, uint8_t byte)
{
    printer->d.writeSB(&printer->d, byte);
    printer->d.writeSC(&printer->d, START_TRANSFER);
    return printer->d.p->pendingSB;
}

int main(void)
{
    struct GBSIO port = {0};
    struct GBPrinter printer = {0};
    GBPrinterCreate(&printer);
    printer.print = write_page;
    GBSIOSetDriver(&port, &printer.d);

    puts(projectVersion);
    for (int next; (next = getchar()) != EOF;) {
        if (next == '\n') {
            putchar('\n');
            GBSIOSetDriver(&port, &printer.d); /* ends the printer and starts it anew */
            continue;
        }
        ungetc(next, stdin);
        unsigned byte;
        if (scanf("%2x", &byte) != 1) {
            fputs("standard input is not in hexadecimal\n", stderr);
            return 1;
        }
        printf("%02X", reply(&printer, (uint8_t)byte));
    }
    GBSIOSetDriver(&port, NULL);
    return 0;
}
