/*
 * The journey of a loan: three cases report their humidity on one bus, each into a queue of four.
 * The bus fails twice on the way. At each stop the sheet is drained and printed. What arrives is
 * printed too, so each number of a line can be worked out from the lines above it:
 *
 *   0 3 480 470 470 480 0 1
 *
 * says that of case 0 three values were drained since the loading bay, the first 480, the last 470,
 * the least 470, the greatest 480; none was lost, and at one stop the bus had failed before it.
 * Where nothing was drained, the four values are -.
 *
 *   cc -std=c99 -Iinclude examples/sheet.c target/staticlib/libexports.a -o sheet
 */
#include <stdio.h>

#include "birnenschloss.h"

enum { BUS, CASES = 3 }; /* the one I-PDU; objects 0, 1 and 2 are the cases */

static const uint8_t table[128] = {
    /* 1 I-PDU, 3 message objects, records at 16 and 32, 128 bytes in all */
    1, 0, CASES, 0, 16, 0, 32, 0, 128, 0, 0, 0, 0, 0, 0, 0,
    /* the bus: received, 6 bytes, no deadline */
    2, 6, 0, 0, 0, 0, 0, 0, 0, 0, 0, 0, 0, 0, 0, 0,
    /* humidity in permille: 16 bits from bit 0, 16 and 32 on, little, queues of four. Filter 3 with
     * mask hex FFFF and x hex FFFF drops the value of a case that has nothing to report. */
    2, BUS, 255, 0, 16, 0, 0, 4, 3, 0, 0, 0, 0, 0, 0, 0,
    255, 255, 0, 0, 255, 255, 0, 0, 0, 0, 0, 0, 0, 0, 0, 0,
    2, BUS, 255, 16, 16, 0, 0, 4, 3, 0, 0, 0, 0, 0, 0, 0,
    255, 255, 0, 0, 255, 255, 0, 0, 0, 0, 0, 0, 0, 0, 0, 0,
    2, BUS, 255, 32, 16, 0, 0, 4, 3, 0, 0, 0, 0, 0, 0, 0,
    255, 255, 0, 0, 255, 255, 0, 0, 0, 0, 0, 0, 0, 0, 0, 0,
};

enum { SILENT = 65535 };

static uint8_t memory[BIRNENSCHLOSS_MEMORY_SIZE], sheet[BIRNENSCHLOSS_SHEET_SIZE];

#define LENT table, sizeof table, memory, sizeof memory

/* Every call should answer 0 here. */
static birnenschloss_answer done(birnenschloss_answer a)
{
    if (a.number != E_OK)
        printf("refused: %s\n", birnenschloss_number_text(a.number));
    return a;
}

/* A frame has arrived, with a value of each case or SILENT. */
static void frame(unsigned first, unsigned second, unsigned third)
{
    const unsigned values[CASES] = {first, second, third};
    uint8_t bytes[2 * CASES];
    int i;
    printf("frame:");
    for (i = 0; i < CASES; i++) {
        bytes[2 * i] = (uint8_t)values[i];
        bytes[2 * i + 1] = (uint8_t)(values[i] >> 8);
        if (values[i] != SILENT)
            printf("  case %d %u", i, values[i]);
    }
    printf("\n");
    done(birnenschloss_indication(LENT, BUS, 1, bytes, sizeof bytes));
}

/* The bus reports an error: no bytes, and a mark on each case. The drain at the next stop counts
 * the mark and clears it: several errors between two stops count once. */
static void bus_fails(void)
{
    printf("the bus fails\n");
    done(birnenschloss_indication(LENT, BUS, 0, table, 0));
}

/* Drains the sheet and prints it: a line for each case. */
static void stop_at(const char *place)
{
    static uint8_t text[BIRNENSCHLOSS_SHEET_TEXT_SIZE];
    birnenschloss_answer a;
    printf("-- %s\n", place);
    a = done(birnenschloss_sheet_drain(LENT, sheet, sizeof sheet, text, sizeof text));
    fwrite(text, 1, a.value, stdout);
}

int main(void)
{
    static const uint32_t order[] = {2, 0, 1}; /* case 2 holds the most delicate panel */
    done(birnenschloss_start(LENT));
    done(birnenschloss_sheet_begin(LENT, sheet, sizeof sheet, order, CASES));
    printf("object drained first last least greatest overflows errors\n");
    stop_at("loading bay");
    frame(480, 455, SILENT);
    frame(476, SILENT, SILENT);
    bus_fails();
    frame(470, 460, SILENT);
    stop_at("first stop (case 2 is silent)");
    frame(471, 452, 502);
    frame(484, SILENT, 498);
    bus_fails();
    stop_at("second stop");
    frame(473, SILENT, SILENT);
    frame(474, SILENT, SILENT);
    frame(475, SILENT, SILENT);
    frame(477, SILENT, SILENT);
    frame(999, SILENT, SILENT);
    stop_at("museum (the queue of case 0 has four places: 999 was lost)");
    return 0;
}
