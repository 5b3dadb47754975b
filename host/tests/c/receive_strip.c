/*
 * The strip printer's receiver in a C program: a gauge sends a band and has it printed. Of each
 * byte that is not answered a plain 0 the program prints what it was answered.
 */
#include <printbox.h>

#include <stdio.h>
#include <string.h>

/* A receiver, and the two buffers that it is lent at each byte. */
static struct strip_record record;
static uint8_t bands[PRINTBOX_STRIP_BYTES];
static uint8_t dots[PRINTBOX_STRIP_BYTES + 2];

static void print_answer(struct strip_answer answer)
{
    if (answer.kind == PRINTBOX_REFUSED) {
        printf("refused %u at %zu\n", answer.number, answer.place);
        return;
    }
    switch (answer.event) {
    case PRINTBOX_STRIP_NOTHING:
        if (answer.reply != 0)
            printf("reply %02X\n", answer.reply);
        break;
    case PRINTBOX_STRIP_INITIALIZE:
        printf("initialize\n");
        break;
    case PRINTBOX_STRIP_BAND:
        printf("band %u\n", answer.bands);
        break;
    case PRINTBOX_STRIP_PAGE_END:
        printf("page end\n");
        break;
    case PRINTBOX_STRIP_INQUIRY:
        printf("inquiry\n");
        break;
    case PRINTBOX_STRIP_PRINT:
        printf("print %u %02X %02X\n", answer.bands, answer.margins, answer.density);
        break;
    default:
        printf("no event has the number %u\n", answer.event);
    }
}

static void send(uint8_t byte)
{
    print_answer(strip_receive(&record, byte, bands, sizeof bands, dots, sizeof dots));
}

/* Sends a packet with its checksum, `off` more than it should be, and two clock bytes. */
static void send_packet(uint8_t command, uint8_t indicator, const uint8_t *body, uint16_t size,
                        uint16_t off)
{
    uint16_t sum = (uint16_t)(command + indicator + size % 256 + size / 256 + off);
    uint16_t i;

    send(0x88);
    send(0x33);
    send(command);
    send(indicator);
    send(size % 256);
    send(size / 256);
    for (i = 0; i < size; i++) {
        send(body[i]);
        sum = (uint16_t)(sum + body[i]);
    }
    send(sum % 256);
    send(sum / 256);
    send(0x00);
    send(0x00);
}

int main(void)
{
    /* Five runs: 4 times 129 bytes and 124 bytes. 0F in both bytes of a tile's row: four dots of
       index 0, and four of index 3. */
    static const uint8_t coded[10] = {0xFF, 0x0F, 0xFF, 0x0F, 0xFF, 0x0F, 0xFF, 0x0F, 0xFA, 0x0F};
    static const uint8_t print[4] = {0x01, 0x13, 0xE4, 0x40};
    struct strip_record before;
    int i;

    printf("sizes: %d %d %d %d %d %d %d\n", PRINTBOX_STRIP_WIDTH, PRINTBOX_STRIP_ROW_BYTES,
           PRINTBOX_STRIP_BAND_ROWS, PRINTBOX_STRIP_BAND_BYTES, PRINTBOX_STRIP_BANDS,
           PRINTBOX_STRIP_BYTES, PRINTBOX_STRIP_BODY_BYTES);
    memset(bands, 0xBB, sizeof bands);
    memset(dots, 0xDD, sizeof dots);
    record = strip_new();
    strip_set_status(&record, 0x02);

    send_packet(0x01, 0, NULL, 0, 0);
    send_packet(0x04, 1, coded, sizeof coded, 0);
    send_packet(0x04, 0, NULL, 0, 0);
    send_packet(0x02, 0, print, sizeof print, 0);
    for (i = 0; i < PRINTBOX_STRIP_BAND_BYTES + 2; i += 40)
        printf("%02X%02X ", dots[i], dots[i + 1]);
    printf("\n");
    printf("bands %02X%02X\n", bands[639], bands[640]);

    /* A wrong checksum, an unknown command, a Print of five bytes, half a band. */
    send_packet(0x0F, 0, NULL, 0, 1);
    send_packet(0x07, 0, NULL, 0, 0);
    send_packet(0x02, 0, coded, 5, 0);
    send_packet(0x04, 1, coded, 4, 0);
    for (i = 0; i < 9; i++)
        send_packet(0x04, 1, coded, sizeof coded, 0);

    /* A buffer that is a byte too short, in the middle of a packet: the byte is not taken. */
    send(0x88);
    before = record;
    print_answer(strip_receive(&record, 0x33, bands, sizeof bands - 1, dots, sizeof dots));
    printf("%s\n", memcmp(&before, &record, sizeof record) == 0 ? "the record stays" : "it changed");
    send(0x33);
    send(0x0F);
    send(0x00);
    send(0x00);
    send(0x00);
    send(0x0F);
    send(0x00);
    return 0;
}
