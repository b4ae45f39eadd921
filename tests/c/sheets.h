/* For sheets.c and sheets_refused.c: their table, what they lend, begins and drains of any length. */
#ifndef SHEETS_H
#define SHEETS_H

#include "checks.h"

enum { CASES, TIMED_IPDU, IPDUS };
/* From MANY on, objects with a queue of one that gets nothing: one more than a sheet follows. */
enum { SENT, INSIDE, CLIMATE, LAST, TIMED, MANY, OBJECTS = MANY + 17 };

#define MOST BIRNENSCHLOSS_MOST_FOLLOWED
#define SHEET_SIZE BIRNENSCHLOSS_SHEET_SIZE
#define TEXT_SIZE BIRNENSCHLOSS_SHEET_TEXT_SIZE
#define RECORDS (16 + 16 * IPDUS)
#define TABLE_SIZE (RECORDS + 32 * OBJECTS)

static const uint8_t first_records[RECORDS] = {
    /* 2 I-PDUs, 22 message objects, records at 16 and 48, 752 bytes */
    IPDUS, 0, OBJECTS, 0, 16, 0, RECORDS, 0, TABLE_SIZE % 256, TABLE_SIZE / 256, 0, 0, 0, 0, 0, 0,
    /* cases: received, 8 bytes, no deadline */
    2, 8, 0, 0, 0, 0, 0, 0, 0, 0, 0, 0, 0, 0, 0, 0,
    /* timed: received, 1 byte, deadline 3 */
    2, 1, 0, 0, 0, 0, 0, 0, 0, 0, 3, 0, 0, 0, 0, 0,
};

/* The first eight bytes of an object's record; the others are 0. */
static const uint8_t objects[MANY + 1][8] = {
    {1, 255, 255, 0, 32},                /* sent: has no I-PDU */
    {2, 255, SENT, 0, 32, 0, 0, 16},     /* inside: receives what sent sends, depth 16 */
    {2, CASES, 255, 0, 32, 0, 0, 3},     /* climate: received in cases, 32 bits, depth 3 */
    {2, CASES, 255, 0, 8},               /* last: received in cases, unqueued */
    {2, TIMED_IPDU, 255, 0, 8, 0, 0, 2}, /* timed: received in timed, 8 bits, depth 2 */
    {2, 255, 255, 0, 32, 0, 0, 1},
};

/* All but the table is longer than needed, and bytes stand behind what is lent of it. */
#define MEMORY_LENT (BIRNENSCHLOSS_MEMORY_SIZE + 5)
#define SHEET_LENT (SHEET_SIZE + 7)
#define TEXT_LENT (TEXT_SIZE + 9)
#define ROOM 320
#define FILLING '#' /* of a text before a drain */

static struct lent {
    uint8_t table[TABLE_SIZE];
    uint8_t memory[MEMORY_LENT + 4];
    uint8_t sheet[SHEET_LENT + 4];
    uint8_t text[TEXT_LENT + 4];
    uint32_t objects[ROOM];
} lent, before;

#define LENT lent.table, TABLE_SIZE, lent.memory, MEMORY_LENT
#define LENT_SHEET lent.sheet, SHEET_LENT
#define LENT_TEXT lent.text, TEXT_LENT
#define MARKS(object, sum) ANSWERS(birnenschloss_marks(LENT, object), 0, sum)
#define SEND(value) ANSWERS(send_inside(value), 0, 0)
#define ARRIVE(value) ANSWERS(arrive(value), 0, 0)
#define FAIL(ipdu) ANSWERS(birnenschloss_indication(LENT, ipdu, 0, lent.table, 0), 0, 0)
#define TICK() ANSWERS(birnenschloss_tick(LENT, area, sizeof area), 0, 0)

static uint8_t area[BIRNENSCHLOSS_AREA_SIZE];

static birnenschloss_answer send_inside(uint32_t value)
{
    return birnenschloss_send(LENT, area, sizeof area, SENT, value);
}

static void put_four(uint8_t *bytes, uint32_t number)
{
    int i;
    for (i = 0; i < 4; i++)
        bytes[i] = (uint8_t)(number >> 8 * i);
}

/* A good indication of cases: climate gets the value. */
static birnenschloss_answer arrive(uint32_t value)
{
    uint8_t bytes[8] = {0, 0, 0, 0, 0xEE, 0xEE, 0xEE, 0xEE};
    put_four(bytes, value);
    return birnenschloss_indication(LENT, CASES, 1, bytes, sizeof bytes);
}

/* A started layer, a sheet that was never begun. */
static void fresh(void)
{
    int i;
    memset(&lent, 0xEE, sizeof lent);
    memset(lent.memory, 0xA5, sizeof lent.memory);
    memset(lent.text, FILLING, sizeof lent.text);
    memset(lent.table, 0, TABLE_SIZE);
    memcpy(lent.table, first_records, RECORDS);
    for (i = 0; i < OBJECTS; i++)
        memcpy(lent.table + RECORDS + 32 * i, objects[i < MANY ? i : MANY], 8);
    ANSWERS(birnenschloss_start(LENT), 0, 0);
}

/* A begin over the first objects, and a drain, with these lengths. */
static birnenschloss_answer begin(size_t tn, size_t mn, size_t sn, size_t count)
{
    return birnenschloss_sheet_begin(lent.table, tn, lent.memory, mn, lent.sheet, sn,
                                     lent.objects, count);
}

static birnenschloss_answer drain(size_t tn, size_t mn, size_t sn, size_t xn)
{
    return birnenschloss_sheet_drain(lent.table, tn, lent.memory, mn, lent.sheet, sn,
                                     lent.text, xn);
}

#define BEGIN_LENT(count) begin(TABLE_SIZE, MEMORY_LENT, SHEET_LENT, count)
#define DRAIN_LENT() drain(TABLE_SIZE, MEMORY_LENT, SHEET_LENT, TEXT_LENT)

#endif
