/* For signed.c and signed_filters.c: their table, the places and filters of its objects. */
#ifndef SIGNED_H
#define SIGNED_H

#include "checks.h"

enum { OUT, IN }; /* I-PDUs */
enum { SENT, OTHER, RECEIVED, INSIDE, QUEUE, PLAIN, LOOSE, DEEP, WORDS, OBJECTS };
enum { LITTLE, BIG, SIGNED_LITTLE, SIGNED_BIG };

#define TABLE_SIZE 336

static const uint8_t right_table[TABLE_SIZE] = {
    /* 2 I-PDUs, 9 message objects, records at 16 and 48, 336 bytes */
    2, 0, 9, 0, 16, 0, 48, 0, 80, 1, 0, 0, 0, 0, 0, 0,
    /* out: sent direct, 8 bytes, no minimum delay, deadline 10 */
    1, 8, 0, 0, 0, 0, 0, 0, 0, 0, 10, 0, 0, 0, 0, 0,
    /* in: received, 8 bytes, no deadline */
    2, 8, 0, 0, 0, 0, 0, 0, 0, 0, 0, 0, 0, 0, 0, 0,
    /* sent: in out, 8 bits, signed little, triggered, filter 0 */
    1, OUT, 255, 0, 8, SIGNED_LITTLE, 0, 0, 0, 0, 0, 0, 0, 0, 0, 0,
    0, 0, 0, 0, 0, 0, 0, 0, 0, 0, 0, 0, 0, 0, 0, 0,
    /* other: sent in out, bit 56, 8 bits, little, triggered, filter 0 */
    1, OUT, 255, 56, 8, LITTLE, 0, 0, 0, 0, 0, 0, 0, 0, 0, 0,
    0, 0, 0, 0, 0, 0, 0, 0, 0, 0, 0, 0, 0, 0, 0, 0,
    /* received: in in, 8 bits, signed little, unqueued, filter 0 */
    2, IN, 255, 0, 8, SIGNED_LITTLE, 0, 0, 0, 0, 0, 0, 0, 0, 0, 0,
    0, 0, 0, 0, 0, 0, 0, 0, 0, 0, 0, 0, 0, 0, 0, 0,
    /* inside: receives what sent sends, signed little, unqueued, filter 0 */
    2, 255, SENT, 0, 32, SIGNED_LITTLE, 0, 0, 0, 0, 0, 0, 0, 0, 0, 0,
    0, 0, 0, 0, 0, 0, 0, 0, 0, 0, 0, 0, 0, 0, 0, 0,
    /* queue: received in in, bit 28, 12 bits, signed big, depth 4 */
    2, IN, 255, 28, 12, SIGNED_BIG, 0, 4, 0, 0, 0, 0, 0, 0, 0, 0,
    0, 0, 0, 0, 0, 0, 0, 0, 0, 0, 0, 0, 0, 0, 0, 0,
    /* plain: the same, but big */
    2, IN, 255, 28, 12, BIG, 0, 4, 0, 0, 0, 0, 0, 0, 0, 0,
    0, 0, 0, 0, 0, 0, 0, 0, 0, 0, 0, 0, 0, 0, 0, 0,
    /* loose: sent, has no I-PDU, little */
    1, 255, 255, 0, 32, LITTLE, 0, 0, 0, 0, 0, 0, 0, 0, 0, 0,
    0, 0, 0, 0, 0, 0, 0, 0, 0, 0, 0, 0, 0, 0, 0, 0,
    /* deep: receives what loose sends, signed little, depth 16 */
    2, 255, LOOSE, 0, 32, SIGNED_LITTLE, 0, 16, 0, 0, 0, 0, 0, 0, 0, 0,
    0, 0, 0, 0, 0, 0, 0, 0, 0, 0, 0, 0, 0, 0, 0, 0,
    /* words: receives what sent sends, little, depth 2 */
    2, 255, SENT, 0, 32, LITTLE, 0, 2, 0, 0, 0, 0, 0, 0, 0, 0,
    0, 0, 0, 0, 0, 0, 0, 0, 0, 0, 0, 0, 0, 0, 0, 0,
};

#include "lent.h"

#define OBJECT(object) (lent.table + 48 + 32 * (object))
#define SEND(object, value) birnenschloss_send(LENT, AREA, object, value)
#define INDICATE(frame) birnenschloss_indication(LENT, IN, 1, frame, 8)
#define RECEIVE(object) birnenschloss_receive(LENT, object)
#define CONFIRM() ANSWERS(birnenschloss_confirm(LENT, OUT, 1), 0, 0)

/* The table as it stands above. */
static void fresh(void)
{
    memcpy(lent.table, right_table, TABLE_SIZE);
}

/* A start, over memory that held something else. */
static void start(void)
{
    memset(lent.memory, 0xA5, MEMORY_LENT);
    memset(lent.area, 0xC3, AREA_LENT);
    ANSWERS(birnenschloss_start(LENT), 0, 0);
}

static void place(int object, int order, int start_bit, int size)
{
    OBJECT(object)[3] = (uint8_t)start_bit;
    OBJECT(object)[4] = (uint8_t)size;
    OBJECT(object)[5] = (uint8_t)order;
}

static void put_four(uint8_t *bytes, uint32_t number)
{
    int i;
    for (i = 0; i < 4; i++)
        bytes[i] = (uint8_t)(number >> 8 * i);
}

/* The memory's and the area's ends, and the slots of no I-PDU, stay. */
static void ends_stay(void)
{
    int i;
    for (i = BIRNENSCHLOSS_MEMORY_SIZE; i < MEMORY_LENT; i++)
        REQUIRE(lent.memory[i] == 0xA5);
    for (i = BIRNENSCHLOSS_SLOT_SIZE; i < AREA_LENT; i++)
        REQUIRE(lent.area[i] == 0xC3);
}

#endif
