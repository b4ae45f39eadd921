/*
 * A case of climate readings, sent at once: humidity, temperature and door. Prints the status of
 * each pair, and the frames that are to go out.
 *
 *   cc -std=c99 -Iinclude examples/group.c target/staticlib/libexports.a -o group
 */
#include <stdio.h>

#include "birnenschloss.h"

enum { CLIMATE, DOORS, IPDUS };
enum { HUMIDITY, TEMPERATURE, DOOR }; /* message objects */

static const uint8_t table[144] = {
    /* 2 I-PDUs, 3 message objects, records at 16 and 48, 144 bytes in all */
    2, 0, 3, 0, 16, 0, 48, 0, 144, 0, 0, 0, 0, 0, 0, 0,
    /* climate: sent, 4 bytes, direct, deadline 4; doors: the same with 1 byte */
    1, 4, 0, 0, 0, 0, 0, 0, 0, 0, 4, 0, 0, 0, 0, 0,
    1, 1, 0, 0, 0, 0, 0, 0, 0, 0, 4, 0, 0, 0, 0, 0,
    /* humidity in permille: sent in climate, bit 0, 10 bits, little, pending */
    1, 0, 255, 0, 10, 0, 1, 0, 0, 0, 0, 0, 0, 0, 0, 0,
    0, 0, 0, 0, 0, 0, 0, 0, 0, 0, 0, 0, 0, 0, 0, 0,
    /* temperature in tenths: sent in climate, bit 16, 12 bits, little, triggered */
    1, 0, 255, 16, 12, 0, 0, 0, 0, 0, 0, 0, 0, 0, 0, 0,
    0, 0, 0, 0, 0, 0, 0, 0, 0, 0, 0, 0, 0, 0, 0, 0,
    /* door: sent in doors, bit 0, 1 bit, triggered; filter 5, a new value differs from the old */
    1, 1, 255, 0, 1, 0, 0, 0, 5,
};

static uint8_t memory[BIRNENSCHLOSS_MEMORY_SIZE], area[BIRNENSCHLOSS_AREA_SIZE];

/* The pending humidity goes out with the temperature if it is sent before it. */
static const birnenschloss_pair readings[] = {{HUMIDITY, 463}, {TEMPERATURE, 215}, {DOOR, 1}};
enum { COUNT = sizeof readings / sizeof readings[0] };

int main(void)
{
    uint8_t statuses[COUNT] = {0};
    birnenschloss_answer sent;
    uint32_t i, k, length;
    birnenschloss_start(table, sizeof table, memory, sizeof memory);
    sent = birnenschloss_send_records(table, sizeof table, memory, sizeof memory,
                                      area, sizeof area, readings, COUNT, statuses, COUNT);
    printf("group: %s\n", birnenschloss_number_text(sent.number));
    for (i = 0; sent.number == E_OK && i < COUNT; i++)
        printf("object %u, value %u: status %u\n", (unsigned)readings[i].object,
               (unsigned)readings[i].value, (unsigned)statuses[i]);
    for (k = 0; k < IPDUS; k++) {
        if (!birnenschloss_is_requested(sent.value, k))
            continue;
        length = birnenschloss_ipdu_length(table, sizeof table, k);
        printf("I-PDU %u goes out:", (unsigned)k);
        for (i = 0; i < length; i++)
            printf(" %02X", (unsigned)area[k * BIRNENSCHLOSS_SLOT_SIZE + i]);
        printf("\n");
    }
    return sent.number != E_OK;
}
