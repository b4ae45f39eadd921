/* For groups.c: its table, what it lends, and a call of the group send in any form. */
#ifndef GROUPS_H
#define GROUPS_H

#include "checks.h"

enum { DIRECT, INCOMING, LARGE, CYCLIC, IPDUS };
enum { READING, LATER, LAST, WIDE, COUNTED, QUEUE, INSIDE, SLOW, NO_OBJECT };

#define TABLE_SIZE 336
#define ZEROS 0, 0, 0, 0, 0, 0, 0, 0 /* a quarter of a record of an object */

static const uint8_t right_table[TABLE_SIZE] = {
    /* 4 I-PDUs, 8 message objects, records at 16 and 80, 336 bytes */
    4, 0, 8, 0, 16, 0, 80, 0, 80, 1, 0, 0, 0, 0, 0, 0,
    /* direct: sent, 4 bytes, minimum delay 3, deadline 10 */
    1, 4, 0, 0, 0, 0, 0, 0, 3, 0, 10, 0, 0, 0, 0, 0,
    /* incoming: received, 2 bytes */
    2, 2, 0, 0, 0, 0, 0, 0, 0, 0, 0, 0, 0, 0, 0, 0,
    /* large: sent, 8 bytes, direct, no minimum delay, deadline 10 */
    1, 8, 0, 0, 0, 0, 0, 0, 0, 0, 10, 0, 0, 0, 0, 0,
    /* cyclic: sent, 2 bytes, period 4, offset 2, deadline 10 */
    1, 2, 1, 0, 4, 0, 2, 0, 0, 0, 10, 0, 0, 0, 0, 0,
    /* reading: sent in direct, bit 13, 12 bits, little, triggered, filter 5 */
    1, 0, 255, 13, 12, 0, 0, 0, 5, 0, 0, 0, 0, 0, 0, 0, ZEROS, ZEROS,
    /* later: sent in direct, bit 0, 8 bits, little, pending, filter 0 */
    1, 0, 255, 0, 8, 0, 1, 0, 0, 0, 0, 0, 0, 0, 0, 0, ZEROS, ZEROS,
    /* last: received in incoming, bit 0, 8 bits, unqueued, initial value 90 */
    2, 1, 255, 0, 8, 0, 0, 0, 0, 0, 0, 0, 90, 0, 0, 0, ZEROS, ZEROS,
    /* wide: sent in large, bit 24, 32 bits, big, triggered, filter 0 */
    1, 2, 255, 24, 32, 1, 0, 0, 0, 0, 0, 0, 0, 0, 0, 0, ZEROS, ZEROS,
    /* counted: sent in large, bit 32, 8 bits, little, triggered; filter 14, period 3, offset 1 */
    1, 2, 255, 32, 8, 0, 0, 0, 14, 0, 0, 0, 0, 0, 0, 0, 3, 0, 0, 0, 1, 0, 0, 0, ZEROS,
    /* queue: receives what counted sends, depth 16 */
    2, 255, COUNTED, 0, 32, 0, 0, 16, 0, 0, 0, 0, 0, 0, 0, 0, ZEROS, ZEROS,
    /* inside: receives what reading sends, unqueued */
    2, 255, READING, 0, 32, 0, 0, 0, 0, 0, 0, 0, 0, 0, 0, 0, ZEROS, ZEROS,
    /* slow: sent in cyclic, bit 0, 16 bits, little, triggered, filter 0 */
    1, 3, 255, 0, 16, 0, 0, 0, 0, 0, 0, 0, 0, 0, 0, 0, ZEROS, ZEROS,
};

/* Memory and area are longer than needed, and four bytes stand behind what is lent of them. Of
 * pairs and statuses a group is lent the first ones. */
#define MOST BIRNENSCHLOSS_MOST_PAIRS
#define ROOM (MOST + 6)
#define MEMORY_LENT (BIRNENSCHLOSS_MEMORY_SIZE + 5)
#define AREA_LENT (BIRNENSCHLOSS_AREA_SIZE + 3)

static struct lent {
    uint8_t table[TABLE_SIZE];
    uint8_t memory[MEMORY_LENT + 4];
    uint8_t area[AREA_LENT + 4];
    uint8_t bytes[ROOM * BIRNENSCHLOSS_PAIR_SIZE];
    birnenschloss_pair structs[ROOM];
    uint8_t statuses[ROOM];
} lent, before;

#define LENT lent.table, TABLE_SIZE, lent.memory, MEMORY_LENT
#define AREA lent.area, AREA_LENT
#define TICK(word) ANSWERS(birnenschloss_tick(LENT, AREA), 0, word)
#define CONFIRM(ipdu, good) ANSWERS(birnenschloss_confirm(LENT, ipdu, good), 0, 0)
#define RECEIVE(object, value) ANSWERS(birnenschloss_receive(LENT, object), 0, value)
#define BIT(ipdu) (1u << (ipdu))

/* The two forms, and the bytes with 1 to 4 more, so that they end inside a pair. */
enum { BYTES, STRUCTS, FORMS, CUT_FORMS = FORMS + 4 };

static void fresh(void)
{
    memset(&lent, 0xEE, sizeof lent);
    memset(lent.memory, 0xA5, sizeof lent.memory);
    memset(lent.area, 0xC3, sizeof lent.area);
    memcpy(lent.table, right_table, TABLE_SIZE);
    ANSWERS(birnenschloss_start(LENT), 0, 0);
}

/* Writes the pairs in both forms. */
static void put(const birnenschloss_pair *pairs, size_t count)
{
    size_t i, k;
    memset(lent.bytes, 0xEE, sizeof lent.bytes);
    memset(lent.structs, 0xEE, sizeof lent.structs);
    memset(lent.statuses, 0xEE, sizeof lent.statuses);
    for (i = 0; i < count; i++) {
        uint8_t *five = lent.bytes + 5 * i;
        lent.structs[i] = pairs[i];
        five[0] = (uint8_t)pairs[i].object;
        for (k = 0; k < 4; k++)
            five[1 + k] = (uint8_t)(pairs[i].value >> 8 * k);
    }
}

/* The group of the first pairs, with these lengths. */
static birnenschloss_answer lend(int form, size_t tn, size_t mn, size_t an, size_t pairs, size_t sn)
{
    const uint8_t *t = lent.table;
    uint8_t *m = lent.memory, *a = lent.area, *s = lent.statuses;
    size_t more = form < FORMS ? 0 : (size_t)(form - FORMS + 1);
    if (form == STRUCTS)
        return birnenschloss_send_records(t, tn, m, mn, a, an, lent.structs, pairs, s, sn);
    return birnenschloss_send_group(t, tn, m, mn, a, an, lent.bytes, 5 * pairs + more, s, sn);
}

#endif
