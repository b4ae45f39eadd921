/*
 * The group send of birnenschloss.h, called from C; the answers are worked out by hand from
 * documents 01 and 02. Each situation is played with the pairs as bytes and as structs. Behind all
 * that is lent stand bytes that must stay.
 */
#define TEST "groups.c"
#include "groups.h"

/* An accepted group: it answers the word, and a status for each pair, here as digits. Nothing else
 * is written but the slots that the word names, and memory where a pair was sent. */
static void accepted(int form, const birnenschloss_pair *pairs, const char *digits, uint32_t word,
                     int line)
{
    size_t count = strlen(digits), i;
    put(pairs, count);
    NOTE_BYTES();
    answered(lend(form, TABLE_SIZE, MEMORY_LENT, AREA_LENT, count, count), 0, word, line);
    for (i = 0; i < count; i++)
        require(lent.statuses[i] == digits[i] - '0', line, "a status is another one");
    memcpy(before.statuses, lent.statuses, count);
    if (strchr(digits, '0'))
        memcpy(before.memory, lent.memory, BIRNENSCHLOSS_MEMORY_SIZE);
    for (i = 0; i < IPDUS; i++)
        if (birnenschloss_is_requested(word, (uint32_t)i))
            memcpy(before.area + 8 * i, lent.area + 8 * i, BIRNENSCHLOSS_SLOT_SIZE);
    require(memcmp(&before, &lent, sizeof lent) == 0, line, "other bytes changed");
}

#define GROUP(pairs, digits, word) accepted(form, pairs, digits, word, __LINE__)

/* The slot of an I-PDU, in hex. */
static void frame(uint32_t ipdu, const char *hex, int line)
{
    char text[] = "the slot has 0123456789ABCDEF", *slot = strchr(text, '0');
    int i;
    for (i = 0; i < 8; i++)
        sprintf(slot + 2 * i, "%02X", (unsigned)lent.area[8 * ipdu + (uint32_t)i]);
    require(strcmp(slot, hex) == 0, line, text);
}

#define FRAME(ipdu, hex) frame(ipdu, hex, __LINE__)

/* 0, 1 and 16 pairs. Of 16 in a row every third passes; the receiver inside gets them all. */
static void sizes(int form)
{
    static const birnenschloss_pair one[] = {{READING, 2748}}, next[] = {{COUNTED, 9}};
    birnenschloss_pair sixteen[MOST];
    uint32_t i;
    fresh();
    GROUP(one, "", 0);
    GROUP(one, "0", BIT(DIRECT));
    FRAME(DIRECT, "0080570100000000"); /* case 1 */
    for (i = 0; i < MOST; i++)
        sixteen[i].object = COUNTED, sixteen[i].value = 100 + i;
    GROUP(sixteen, "0000000000000000", BIT(LARGE));
    FRAME(LARGE, "0000000065000000"); /* the second, 101 */
    for (i = 0; i < MOST; i++)
        RECEIVE(QUEUE, 100 + i);
    CONFIRM(LARGE, 1);
    TICK(BIT(LARGE));
    FRAME(LARGE, "0000000071000000"); /* the fourteenth, 113 */
    CONFIRM(LARGE, 1);
    GROUP(next, "0", BIT(LARGE)); /* the seventeenth: the count goes on behind a group */
    FRAME(LARGE, "0000000009000000");
}

/* Filter 5, twice in a group: the second value is judged by the first. */
static void twice(int form)
{
    static const birnenschloss_pair same[] = {{READING, 7}, {READING, 7}};
    static const birnenschloss_pair back[] = {{READING, 7}, {READING, 0}};
    fresh();
    GROUP(same, "00", BIT(DIRECT));
    FRAME(DIRECT, "00E0000000000000");
    CONFIRM(DIRECT, 0);
    TICK(0); /* the second was dropped, and wants nothing */
    fresh();
    GROUP(back, "00", BIT(DIRECT));
    FRAME(DIRECT, "00E0000000000000");
    RECEIVE(INSIDE, 0);
    CONFIRM(DIRECT, 0);
    TICK(BIT(DIRECT)); /* 0, the initial value, differs from 7: postponed until now */
    FRAME(DIRECT, "0000000000000000");
}

/* A frame has what was packed at its request: a pending value behind it comes with the next. */
static void pending(int form)
{
    static const birnenschloss_pair behind[] = {{READING, 2748}, {LATER, 0x5A}, {READING, 2749}};
    static const birnenschloss_pair ahead[] = {{LATER, 0x15A}, {READING, 2748}};
    fresh();
    GROUP(behind, "000", BIT(DIRECT));
    FRAME(DIRECT, "0080570100000000");
    TICK(0);
    FRAME(DIRECT, "0080570100000000");
    CONFIRM(DIRECT, 0);
    TICK(BIT(DIRECT));
    FRAME(DIRECT, "5AA0570100000000");
    fresh();
    GROUP(ahead, "00", BIT(DIRECT));
    FRAME(DIRECT, "5A80570100000000");
    fresh();
    GROUP(ahead, "0", 0);
    TICK(0); /* a pending value alone asks for nothing */
}

/* Filter 14 with period 3 and offset 1: of three the second passes. */
static void one_in_three(int form)
{
    static const birnenschloss_pair three[] = {{COUNTED, 1}, {COUNTED, 2}, {COUNTED, 3}};
    uint32_t i;
    int times;
    fresh();
    for (times = 0; times < 2; times++) {
        GROUP(three, "000", BIT(LARGE));
        FRAME(LARGE, "0000000002000000");
        for (i = 1; i <= 3; i++)
            RECEIVE(QUEUE, i);
        ANSWERS(birnenschloss_receive(LENT, QUEUE), E_COM_NOMSG, 0);
        CONFIRM(LARGE, 1);
        TICK(0); /* the third was dropped */
    }
}

/* Wrong objects have status 1, and the pairs behind them are sent. */
static void wrong_objects(int form)
{
    static const birnenschloss_pair mixed[] = {{READING, 2748}, {LAST, 1},   {NO_OBJECT, 2},
                                               {255, 3},        {QUEUE, 4},  {WIDE, 0x11223344},
                                               {128, 5},        {INSIDE, 6}, {SLOW, 0xBEEF}};
    static const birnenschloss_pair large[] = {{256 + READING, 1},   {65536 + READING, 2},
                                               {0x80000000u, 3},     {0xFFFFFFFFu, 4},
                                               {(WIDE << 8) + 1, 5}, {READING, 2748}};
    fresh();
    GROUP(mixed, "011110110", BIT(DIRECT) | BIT(LARGE));
    FRAME(DIRECT, "0080570100000000");
    FRAME(LARGE, "1122334400000000");
    RECEIVE(LAST, 90);
    RECEIVE(INSIDE, 2748);
    ANSWERS(birnenschloss_receive(LENT, QUEUE), E_COM_NOMSG, 0);
    ANSWERS(birnenschloss_start_periodic(LENT), 0, 0);
    TICK(0);
    TICK(BIT(CYCLIC)); /* slow waits for its period */
    FRAME(CYCLIC, "EFBE000000000000");
    fresh();
    GROUP(mixed + 1, "1111", 0);
    if (form == STRUCTS) {
        GROUP(large, "111110", BIT(DIRECT));
        FRAME(DIRECT, "0080570100000000");
        RECEIVE(INSIDE, 2748);
    }
}

/* Requests that wait, for a confirm and for the minimum delay, beside one that goes. */
static void postponed(int form)
{
    static const birnenschloss_pair first[] = {{READING, 1}, {READING, 2}, {WIDE, 3}, {WIDE, 4}};
    static const birnenschloss_pair second[] = {{READING, 2748}, {WIDE, 5}};
    fresh();
    GROUP(first, "0000", BIT(DIRECT) | BIT(LARGE));
    FRAME(DIRECT, "0020000000000000");
    FRAME(LARGE, "0000000300000000");
    CONFIRM(DIRECT, 1);
    CONFIRM(LARGE, 1);
    GROUP(second, "00", BIT(LARGE)); /* large has no minimum delay */
    FRAME(DIRECT, "0020000000000000");
    FRAME(LARGE, "0000000500000000");
    TICK(0);
    TICK(0);
    TICK(BIT(DIRECT)); /* the third, as in case 9 */
    FRAME(DIRECT, "0080570100000000");
}

/* The bytes of a pair: the object, then the value with its low byte first. */
static void byte_order(void)
{
    static const uint8_t bytes[] = {WIDE,    0x44, 0x33, 0x22, 0x11, /* hex 11223344 */
                                    READING, 0xBC, 0x1A, 0xFF, 0xFF};
    fresh();
    ANSWERS(birnenschloss_send_group(LENT, AREA, bytes, sizeof bytes, lent.statuses, 2), 0,
            BIT(DIRECT) | BIT(LARGE));
    REQUIRE(lent.statuses[0] == 0 && lent.statuses[1] == 0 && lent.statuses[2] == 0xEE);
    FRAME(LARGE, "1122334400000000");
    FRAME(DIRECT, "0080570100000000");
    RECEIVE(INSIDE, 0xFFFF1ABC);
    REQUIRE(sizeof(birnenschloss_pair) == 8 && offsetof(birnenschloss_pair, value) == 4);
}

/* Pairs for groups that are refused: the wrong objects among them change no number. */
static void put_many(void)
{
    birnenschloss_pair pairs[ROOM];
    uint32_t i;
    for (i = 0; i < ROOM; i++)
        pairs[i].object = i % 3 ? READING : NO_OBJECT, pairs[i].value = 0x1000 + i;
    put(pairs, ROOM);
}

/* Number 2: more than 16 pairs, a cut pair, or not a status for each. */
static void lengths(void)
{
    size_t pairs, statuses;
    int form;
    fresh();
    put_many();
    for (form = BYTES; form < CUT_FORMS; form++)
        for (pairs = 0; pairs <= MOST + 2; pairs++)
            for (statuses = 0; statuses <= MOST + 4; statuses++)
                if (form >= FORMS || pairs > MOST || statuses != pairs)
                    REFUSES(lend(form, TABLE_SIZE, MEMORY_LENT, AREA_LENT, pairs, statuses), 2);
}

/* Lengths that are right only in their low bytes. */
static void long_lists(void)
{
    enum { MANY = 65536 + MOST };
    static uint8_t bytes[5 * MANY], statuses[MANY];
    static birnenschloss_pair structs[MANY];
    static const size_t over[] = {256, 65536}, counts[] = {0, 1, MOST};
    int i, k, of_pairs, of_statuses;
    fresh();
    for (i = 0; i < 2; i++)
        for (k = 0; k < 3; k++)
            for (of_pairs = 0; of_pairs < 2; of_pairs++)
                for (of_statuses = !of_pairs; of_statuses < 2; of_statuses++) {
                    size_t n = counts[k] + (of_pairs ? over[i] : 0);
                    size_t s = counts[k] + (of_statuses ? over[i] : 0);
                    memset(statuses, 0xEE, sizeof statuses);
                    REFUSES(birnenschloss_send_group(LENT, AREA, bytes, 5 * n, statuses, s), 2);
                    REFUSES(birnenschloss_send_records(LENT, AREA, structs, n, statuses, s), 2);
                    REQUIRE(statuses[0] == 0xEE &&
                            memcmp(statuses, statuses + 1, sizeof statuses - 1) == 0);
                }
}

/* A group of 3 pairs that is right, and those with another length: the same number refuses all. */
static void refused(size_t tn, size_t mn, size_t an, uint32_t number)
{
    int form;
    for (form = BYTES; form < CUT_FORMS; form++) {
        REFUSES(lend(form, tn, mn, an, 3, 3), number);
        REFUSES(lend(form, tn, mn, an, 0, 0), number);
        REFUSES(lend(form, tn, mn, an, 3, 2), number);
        REFUSES(lend(form, tn, mn, an, MOST + 1, MOST + 1), number);
    }
}

/* 5 before 6 before 7 before 2, also where all are due. */
static void order(void)
{
    static const size_t short_tables[] = {0, 1, 15, TABLE_SIZE - 1};
    static const size_t short_memories[] = {0, 1, BIRNENSCHLOSS_MEMORY_SIZE - 1};
    static const size_t short_areas[] = {0, 1, BIRNENSCHLOSS_AREA_SIZE - 1};
    int stopped, i;
    for (stopped = 0; stopped < 2; stopped++) {
        fresh();
        put_many();
        if (stopped) {
            ANSWERS(birnenschloss_stop(LENT), 0, 0);
            refused(TABLE_SIZE, MEMORY_LENT, AREA_LENT, BIRNENSCHLOSS_E_STOPPED);
        }
        for (i = 0; i < 3; i++) {
            refused(TABLE_SIZE, short_memories[i], AREA_LENT, BIRNENSCHLOSS_E_MEMORY);
            refused(TABLE_SIZE, MEMORY_LENT, short_areas[i], BIRNENSCHLOSS_E_MEMORY);
        }
        for (i = 0; i < 4; i++) {
            refused(short_tables[i], MEMORY_LENT, AREA_LENT, BIRNENSCHLOSS_E_TABLE);
            refused(short_tables[i], 0, 0, BIRNENSCHLOSS_E_TABLE);
        }
        lent.memory[16] = 2; /* a request is open or not: 1 or 0 (docs/MEMORY.md) */
        refused(TABLE_SIZE, MEMORY_LENT, AREA_LENT, BIRNENSCHLOSS_E_MEMORY);
        lent.table[16] = 3; /* no direction */
        refused(TABLE_SIZE, MEMORY_LENT, AREA_LENT, BIRNENSCHLOSS_E_TABLE);
    }
}

static uint32_t below(uint32_t n)
{
    static uint32_t random = 1;
    random = random * 1664525 + 1013904223;
    return (random >> 8) % n;
}

/* Random groups, in each form on a copy of what single sends are given: all ends alike. */
static void same_as_sends(void)
{
    static struct lent start, ended[FORMS];
    birnenschloss_pair pairs[MOST];
    uint32_t words[FORMS], all = 0, ones = 0, word, i, n, times;
    int form;
    fresh();
    for (times = 0; times < 1000; times++) {
        n = below(MOST + 1);
        for (i = 0; i < n; i++) {
            pairs[i].object = below(NO_OBJECT + 1);
            pairs[i].value = below(2) ? below(4) : below(1 << 24) * 251;
        }
        put(pairs, n);
        memcpy(&start, &lent, sizeof lent);
        for (form = BYTES; form < FORMS; form++) {
            birnenschloss_answer a = lend(form, TABLE_SIZE, MEMORY_LENT, AREA_LENT, n, n);
            words[form] = a.value;
            ANSWERS(a, 0, a.value);
            memcpy(&ended[form], &lent, sizeof lent);
            memcpy(&lent, &start, sizeof lent);
        }
        for (word = i = 0; i < n; i++) {
            birnenschloss_pair p = pairs[i];
            birnenschloss_answer a = birnenschloss_send(LENT, AREA, p.object, p.value);
            lent.statuses[i] = (uint8_t)a.number;
            word |= a.value;
            ones += a.number;
        }
        for (form = BYTES; form < FORMS; form++)
            REQUIRE(words[form] == word && memcmp(&ended[form], &lent, sizeof lent) == 0);
        all |= word;
        birnenschloss_confirm(LENT, below(2) ? DIRECT : LARGE, below(2));
        ANSWERS(birnenschloss_receive(LENT, LAST), 0, 90);
        birnenschloss_receive(LENT, QUEUE);
        birnenschloss_tick(LENT, AREA);
    }
    REQUIRE(all == (BIT(DIRECT) | BIT(LARGE)) && ones > 100);
}

int main(void)
{
    int form;
    for (form = BYTES; form < FORMS; form++) {
        sizes(form);
        twice(form);
        pending(form);
        one_in_three(form);
        wrong_objects(form);
        postponed(form);
    }
    byte_order();
    lengths();
    long_lists();
    order();
    same_as_sends();
    printf(TEST ": %u answers as they should be\n", answers);
    return 0;
}
