/*
 * Every function of birnenschloss.h called from C, but of the group send and the sheets, which
 * groups.c and sheets.c have, no more than what all calls are refused for; the answers are worked
 * out by hand from document 01. Memory and area are longer than needed, so that
 * lengths and pointers that change places would show, and their ends must stay.
 */
#define TEST "boundary.c"
#include "checks.h"

enum { DIRECT, INCOMING, PERIODIC, NO_IPDU };
enum { READING, QUEUE, LAST, INSIDE, WIDE, NO_OBJECT };

/* Byte 0 of working memory (docs/MEMORY.md). */
enum { RUNS = 1, STOPPED = 1 - RUNS };

#define TABLE_SIZE 224
#define ZEROS 0, 0, 0, 0, 0, 0, 0, 0, 0, 0, 0, 0, 0, 0, 0, 0 /* half a record of an object */

static const uint8_t right_table[TABLE_SIZE] = {
    /* 3 I-PDUs, 5 message objects, records at 16 and 64, 224 bytes */
    3, 0, 5, 0, 16, 0, 64, 0, 224, 0, 0, 0, 0, 0, 0, 0,
    /* direct: sent, 4 bytes, minimum delay 3, deadline 10 */
    1, 4, 0, 0, 0, 0, 0, 0, 3, 0, 10, 0, 0, 0, 0, 0,
    /* incoming: received, 2 bytes, deadline 100 */
    2, 2, 0, 0, 0, 0, 0, 0, 0, 0, 100, 0, 0, 0, 0, 0,
    /* periodic: sent, 8 bytes, period 4, offset 2, deadline 2 */
    1, 8, 1, 0, 4, 0, 2, 0, 0, 0, 2, 0, 0, 0, 0, 0,
    /* reading: sent in direct, bit 13, 12 bits, little, triggered, filter 5 */
    1, 0, 255, 13, 12, 0, 0, 0, 5, 0, 0, 0, 0, 0, 0, 0, ZEROS,
    /* queue: received in incoming, bit 0, 8 bits, depth 2 */
    2, 1, 255, 0, 8, 0, 0, 2, 0, 0, 0, 0, 0, 0, 0, 0, ZEROS,
    /* last: received in incoming, bit 8, 8 bits, unqueued, initial value 90 */
    2, 1, 255, 8, 8, 0, 0, 0, 0, 0, 0, 0, 90, 0, 0, 0, ZEROS,
    /* inside: receives what reading sends, unqueued, initial value hex 04030201 */
    2, 255, 0, 0, 32, 0, 0, 0, 0, 0, 0, 0, 1, 2, 3, 4, ZEROS,
    /* wide: sent in periodic, bit 24, 32 bits, big, triggered, filter 0 */
    1, 2, 255, 24, 32, 1,
};

/* Case 12's table, and one whose only object has a queue of 2, in a received I-PDU of a byte. */
static const uint8_t case_12[64] = {
    1, 0, 1, 0, 16, 0, 32, 0, 64, 0, 0, 0, 0, 0, 0, 0,
    1, 4, 0, 0, 0, 0, 0, 0, 3, 0, 10, 0, 0, 0, 0, 0, 1, 0, 255, 13, 12, 0, 0, 0, 5,
};
static const uint8_t one_queue[64] = {
    1, 0, 1, 0, 16, 0, 32, 0, 64, 0, 0, 0, 0, 0, 0, 0,
    2, 1, 0, 0, 0, 0, 0, 0, 0, 0, 0, 0, 0, 0, 0, 0, 2, 0, 255, 0, 8, 0, 0, 2,
};

#include "lent.h"

#define LENGTH(n, ipdu, length) \
    (answers++, REQUIRE(birnenschloss_ipdu_length(lent.table, n, ipdu) == (length)))
#define WRONG(n, place) \
    (ANSWERS(birnenschloss_check(lent.table, n), 5, place), LENGTH(n, 0, 0), LENGTH(n, 2, 0))
#define TEXT(number) birnenschloss_number_text(number)

/* Call n, with these lengths and otherwise right arguments: the thirteen, then begin, drain and
 * group. What these are lent besides must stay: all they answer here is a refusal. */
enum { START, STOP, SEND = 2, TICK = 12, BEGIN, DRAIN, GROUP, CALLS };

static birnenschloss_answer later(int n, const uint8_t *t, size_t tn, uint8_t *m, size_t mn,
                                  uint8_t *a, size_t an)
{
    static const uint8_t begun[16] = {1, 0, 0, 0, 1, 0, 0, 0, QUEUE}, pair[5] = {READING, 1};
    static const uint32_t objects[] = {QUEUE};
    static struct { uint8_t sheet[520], text[1536], status; } more, same;
    birnenschloss_answer got;
    memset(&more, 0xEE, sizeof more);
    if (n == DRAIN)
        memcpy(more.sheet, begun, sizeof begun);
    memcpy(&same, &more, sizeof more);
    if (n == BEGIN)
        got = birnenschloss_sheet_begin(t, tn, m, mn, more.sheet, 520, objects, 1);
    else if (n == DRAIN)
        got = birnenschloss_sheet_drain(t, tn, m, mn, more.sheet, 520, more.text, 1536);
    else
        got = birnenschloss_send_group(t, tn, m, mn, a, an, pair, 5, &more.status, 1);
    REQUIRE(memcmp(&more, &same, sizeof more) == 0);
    return got;
}

static birnenschloss_answer any(int n, size_t tn, size_t mn, size_t an)
{
    static const uint8_t bytes[2] = {1, 2};
    const uint8_t *t = lent.table;
    uint8_t *m = lent.memory, *a = lent.area;
    switch (n) {
    case START: return birnenschloss_start(t, tn, m, mn);
    case STOP: return birnenschloss_stop(t, tn, m, mn);
    case SEND: return birnenschloss_send(t, tn, m, mn, a, an, READING, 1);
    case 3: return birnenschloss_initialise(t, tn, m, mn, LAST, 1);
    case 4: return birnenschloss_receive(t, tn, m, mn, LAST);
    case 5: return birnenschloss_status(t, tn, m, mn, QUEUE);
    case 6: return birnenschloss_marks(t, tn, m, mn, QUEUE);
    case 7: return birnenschloss_clear_marks(t, tn, m, mn, QUEUE);
    case 8: return birnenschloss_start_periodic(t, tn, m, mn);
    case 9: return birnenschloss_stop_periodic(t, tn, m, mn);
    case 10: return birnenschloss_indication(t, tn, m, mn, INCOMING, 1, bytes, 2);
    case 11: return birnenschloss_confirm(t, tn, m, mn, DIRECT, 1);
    case TICK: return birnenschloss_tick(t, tn, m, mn, a, an);
    default: return later(n, t, tn, m, mn, a, an);
    }
}

static void fresh(uint8_t filling)
{
    memset(lent.memory, filling, MEMORY_LENT);
    memset(lent.area, 0xC3, AREA_LENT);
    memcpy(lent.table, right_table, TABLE_SIZE);
}

/* The check's places, header, I-PDU, object, and the lengths of I-PDUs: 0 over a wrong table. */
static void tables(void)
{
    static const uint32_t lengths[] = {4, 2, 8}, no_ipdu[] = {3, 31, 32, 255, 256, 0xFFFFFFFF};
    size_t n;
    fresh(0xA5);
    lent.table[65] = PERIODIC, lent.table[67] = 40; /* reading: no 0 behind the I-PDUs */
    NOTE_BYTES();
    ANSWERS(birnenschloss_check(lent.table, TABLE_SIZE), E_OK, 0);
    for (n = 0; n < 3; n++)
        LENGTH(TABLE_SIZE, n, lengths[n]);
    for (n = 0; n < 6; n++)
        LENGTH(TABLE_SIZE, no_ipdu[n], 0);
    for (n = 0; n < TABLE_SIZE; n++)
        WRONG(n, BIRNENSCHLOSS_PLACE_HEADER);
    SAME_BYTES();
    lent.table[64 + 4 * 32 + 4] = 33; /* bits of wide */
    WRONG(TABLE_SIZE, BIRNENSCHLOSS_PLACE_OBJECT + WIDE);
    lent.table[64 + 32 + 7] = 17; /* depth of queue */
    WRONG(TABLE_SIZE, 256 + QUEUE);
    lent.table[16 + 2 * 16] = 3; /* direction of periodic */
    WRONG(TABLE_SIZE, PERIODIC);
    lent.table[4] = 17; /* offset of the I-PDU records */
    WRONG(TABLE_SIZE, 65535);
}

/* The texts of the numbers: of one line, with no stop, no two alike; 9 is none of the layer's. */
static void texts(void)
{
    const char *memory = TEXT(BIRNENSCHLOSS_E_MEMORY);
    uint32_t n, k;
    for (n = 0; n <= 10; n++) {
        REQUIRE(strlen(TEXT(n)) > 0 && !strpbrk(TEXT(n), ".\n"));
        for (k = 0; k < n; k++)
            REQUIRE(strcmp(TEXT(n), TEXT(k)) != 0);
    }
    for (n = 9; n != 0; n *= 2)
        REQUIRE(strcmp(TEXT(n), TEXT(0xFFFFFFFF)) == 0);
    REQUIRE(strcmp(TEXT(11), TEXT(9)) == 0 && strstr(TEXT(BIRNENSCHLOSS_E_FOLLOWED), "16"));
    REQUIRE(strstr(memory, "8192") && strstr(memory, "256") && strstr(memory, "start"));
    REQUIRE(strstr(memory, "520") && strstr(memory, "1536") && strstr(memory, "begun"));
    REQUIRE(strstr(TEXT(E_COM_LENGTH), "I-PDU") && strstr(TEXT(E_COM_LENGTH), "group"));
    REQUIRE(strstr(TEXT(E_OK), "done") && strstr(TEXT(BIRNENSCHLOSS_E_NOT_REQUESTED), "request"));
}

/* Numbers 5 and 6, for every call, and their order. */
static void too_short(void)
{
    static const size_t table_lengths[] = {0, 1, 15, 16, TABLE_SIZE - 1};
    static const size_t memory_lengths[] = {0, 1, BIRNENSCHLOSS_MEMORY_SIZE - 1};
    static const size_t area_lengths[] = {0, 1, BIRNENSCHLOSS_AREA_SIZE - 1};
    int n, i;
    fresh(0xA5);
    for (n = 0; n < CALLS; n++) {
        if (n != START)
            REFUSES(any(n, TABLE_SIZE, MEMORY_LENT, AREA_LENT), 6); /* no start yet */
        for (i = 0; i < 3; i++)
            REFUSES(any(n, TABLE_SIZE, memory_lengths[i], AREA_LENT), 6);
    }
    ANSWERS(birnenschloss_start(LENT), 0, 0);
    for (n = 0; n < CALLS; n++) {
        for (i = 0; i < 5; i++)
            REFUSES(any(n, table_lengths[i], 0, 0), 5);
        for (i = 0; i < 3; i++)
            if (n == SEND || n == TICK || n == GROUP)
                REFUSES(any(n, TABLE_SIZE, MEMORY_LENT, area_lengths[i]), 6);
    }
    lent.table[16] = 0; /* the direction of an I-PDU: the place is the check's alone */
    for (n = 0; n < CALLS; n++)
        REFUSES(any(n, TABLE_SIZE, MEMORY_LENT, AREA_LENT), BIRNENSCHLOSS_E_TABLE);
}

/* Start writes 8192 bytes, whatever they were, and nothing else; so does a start again. */
static void start(void)
{
    static uint8_t first[BIRNENSCHLOSS_MEMORY_SIZE];
    int i;
    fresh(0xA5);
    ANSWERS(birnenschloss_start(LENT), 0, 0);
    memcpy(first, lent.memory, sizeof first);
    for (i = 0; i < 5; i++)
        REQUIRE(lent.memory[BIRNENSCHLOSS_MEMORY_SIZE + i] == 0xA5);
    fresh(0x5A);
    ANSWERS(birnenschloss_start(lent.table, TABLE_SIZE, lent.memory, sizeof first), 0, 0);
    REQUIRE(memcmp(first, lent.memory, sizeof first) == 0);
    for (i = 0; i < AREA_LENT; i++)
        REQUIRE(lent.area[i] == 0xC3);
    ANSWERS(birnenschloss_receive(LENT, LAST), 0, 90);
    ANSWERS(birnenschloss_receive(LENT, INSIDE), 0, 0x04030201);
}

/* Number 1: too large, or of the wrong kind. */
static void identifiers(void)
{
    static const uint8_t bytes[2] = {1, 2};
    uint32_t n;
    ANSWERS(birnenschloss_start(LENT), 0, 0);
    for (n = NO_OBJECT; n != 0; n *= 2) { /* 5, 10, up to the highest bit, then out of it */
        REFUSES(birnenschloss_send(LENT, AREA, n, 1), E_COM_ID);
        REFUSES(birnenschloss_initialise(LENT, n, 1), E_COM_ID);
        REFUSES(birnenschloss_receive(LENT, n), E_COM_ID);
        REFUSES(birnenschloss_status(LENT, n), E_COM_ID);
        REFUSES(birnenschloss_marks(LENT, n), E_COM_ID);
        REFUSES(birnenschloss_clear_marks(LENT, n), E_COM_ID);
        REFUSES(birnenschloss_indication(LENT, n, 1, bytes, 2), E_COM_ID);
        REFUSES(birnenschloss_confirm(LENT, n, 1), E_COM_ID);
    }
    REFUSES(birnenschloss_indication(LENT, NO_IPDU, 0, bytes, 0), 1);
    REFUSES(birnenschloss_indication(LENT, DIRECT, 1, bytes, 1), 1); /* before 2 */
    REFUSES(birnenschloss_confirm(LENT, INCOMING, 1), 1);            /* before 8 */
    REFUSES(birnenschloss_send(LENT, AREA, QUEUE, 1), 1);
    REFUSES(birnenschloss_receive(LENT, READING), 1);
    REFUSES(birnenschloss_status(LENT, LAST), 1);
}

/* Sends, the minimum delay, confirms and number 8. */
static void sending(void)
{
    static const uint8_t frame[8] = {0, 0x80, 0x57, 1, 0, 0, 0, 0}; /* case 1 */
    int i;
    fresh(0xA5);
    ANSWERS(birnenschloss_start(LENT), 0, 0);
    REFUSES(birnenschloss_confirm(LENT, DIRECT, 1), BIRNENSCHLOSS_E_NOT_REQUESTED);
    ANSWERS(birnenschloss_send(LENT, AREA, READING, 0), 0, 0); /* as the initial value: dropped */
    ANSWERS(birnenschloss_send(LENT, AREA, READING, 2748), 0, 1 << DIRECT);
    REQUIRE(memcmp(lent.area, frame, 8) == 0);
    for (i = 8; i < AREA_LENT; i++)
        REQUIRE(lent.area[i] == 0xC3);
    ANSWERS(birnenschloss_send(LENT, AREA, READING, 0xFFFF1ABC), 0, 0); /* postponed */
    ANSWERS(birnenschloss_receive(LENT, INSIDE), 0, 0xFFFF1ABC);
    ANSWERS(birnenschloss_marks(LENT, INSIDE), 0, BIRNENSCHLOSS_MARK_ARRIVED);
    ANSWERS(birnenschloss_confirm(LENT, DIRECT, 256), 0, 0); /* good: not 0 */
    ANSWERS(birnenschloss_marks(LENT, READING), 0, BIRNENSCHLOSS_MARK_SENT);
    memset(lent.area, 0xC3, AREA_LENT);
    ANSWERS(birnenschloss_tick(LENT, AREA), 0, 0);
    ANSWERS(birnenschloss_tick(LENT, AREA), 0, 0);
    REQUIRE(lent.area[0] == 0xC3);
    ANSWERS(birnenschloss_tick(LENT, AREA), 0, 1 << DIRECT); /* minimum delay 3 */
    REQUIRE(memcmp(lent.area, frame, 8) == 0);
    ANSWERS(birnenschloss_confirm(LENT, DIRECT, 0), 0, 0);
    ANSWERS(birnenschloss_marks(LENT, READING), 0, 2 + BIRNENSCHLOSS_MARK_SEND_ERROR);
    ANSWERS(birnenschloss_clear_marks(LENT, READING), 0, 0);
    ANSWERS(birnenschloss_marks(LENT, READING), 0, 0);
    ANSWERS(birnenschloss_marks(LENT, INSIDE), 0, 1);
}

/* A period: requests on ticks 2 and 6 after start periodic, and a deadline of 2. */
static void period(void)
{
    static const uint8_t frame[8] = {0x11, 0x22, 0x33, 0x44, 0, 0, 0, 0};
    int i;
    fresh(0xA5);
    ANSWERS(birnenschloss_start(LENT), 0, 0);
    ANSWERS(birnenschloss_initialise(LENT, WIDE, 0x11223344), 0, 0);
    ANSWERS(birnenschloss_start_periodic(LENT), 0, 0);
    for (i = 1; i <= 6; i++) {
        ANSWERS(birnenschloss_tick(LENT, AREA), 0, i == 2 || i == 6 ? 1 << PERIODIC : 0);
        ANSWERS(birnenschloss_marks(LENT, WIDE), 0, i < 4 ? 0 : BIRNENSCHLOSS_MARK_SEND_ERROR);
        REQUIRE((memcmp(lent.area + 2 * BIRNENSCHLOSS_SLOT_SIZE, frame, 8) == 0) == (i >= 2));
    }
    REQUIRE(lent.area[15] == 0xC3 && lent.area[24] == 0xC3);
    ANSWERS(birnenschloss_stop_periodic(LENT), 0, 0);
    for (i = 0; i < 9; i++)
        ANSWERS(birnenschloss_tick(LENT, AREA), 0, 0);
    REQUIRE(birnenschloss_is_requested(4, PERIODIC) && birnenschloss_is_requested(1u << 31, 31));
    REQUIRE(!birnenschloss_is_requested(4, 1) && !birnenschloss_is_requested(0xFFFFFFFF, 32));
}

/* Indications, the queue and numbers 2, 3 and 4; the deadline of 100. */
static void receiving(void)
{
    uint8_t bytes[3] = {7, 0xEE, 0xDD};
    int i;
    fresh(0xA5);
    ANSWERS(birnenschloss_start(LENT), 0, 0);
    REFUSES(birnenschloss_status(LENT, QUEUE), E_COM_NOMSG);
    REFUSES(birnenschloss_receive(LENT, QUEUE), E_COM_NOMSG);
    REFUSES(birnenschloss_indication(LENT, INCOMING, 1, bytes, 0), E_COM_LENGTH);
    REFUSES(birnenschloss_indication(LENT, INCOMING, 1, bytes, 1), E_COM_LENGTH);
    REFUSES(birnenschloss_indication(LENT, INCOMING, 1, bytes, 3), E_COM_LENGTH);
    for (i = 1; i <= 100; i++)
        ANSWERS(birnenschloss_tick(LENT, AREA), 0, 0), /* the hundredth runs out */
            ANSWERS(birnenschloss_marks(LENT, LAST), 0, i < 100 ? 0 : 4);
    ANSWERS(birnenschloss_clear_marks(LENT, LAST), 0, 0);
    ANSWERS(birnenschloss_indication(LENT, INCOMING, 0, bytes, 0), 0, 0);
    ANSWERS(birnenschloss_marks(LENT, LAST), 0, BIRNENSCHLOSS_MARK_RECEIVE_ERROR);
    for (; bytes[0] < 10; bytes[0]++) /* 7, 8 and 9 */
        ANSWERS(birnenschloss_indication(LENT, INCOMING, 0x80000000, bytes, 2), 0, 0);
    ANSWERS(birnenschloss_marks(LENT, LAST), 0, 1 + 4);
    REFUSES(birnenschloss_status(LENT, QUEUE), E_COM_LIMIT);
    ANSWERS(birnenschloss_receive(LENT, QUEUE), E_COM_LIMIT, 7);
    ANSWERS(birnenschloss_status(LENT, QUEUE), 0, 0);
    ANSWERS(birnenschloss_receive(LENT, QUEUE), 0, 8);
    REFUSES(birnenschloss_receive(LENT, QUEUE), E_COM_NOMSG);
    ANSWERS(birnenschloss_receive(LENT, LAST), 0, 0xEE);
    ANSWERS(birnenschloss_initialise(LENT, LAST, 0xDEADBEEF), 0, 0);
    ANSWERS(birnenschloss_receive(LENT, LAST), 0, 0xDEADBEEF);
}

/* Number 7: stop changes one byte, and only a start comes after it. */
static void stop(void)
{
    int n;
    fresh(0xA5);
    ANSWERS(birnenschloss_start(LENT), 0, 0);
    REQUIRE(lent.memory[0] == RUNS);
    NOTE_BYTES();
    ANSWERS(birnenschloss_stop(LENT), 0, 0);
    before.memory[0] = STOPPED;
    SAME_BYTES();
    for (n = STOP; n < CALLS; n++)
        REFUSES(any(n, TABLE_SIZE, MEMORY_LENT, AREA_LENT), BIRNENSCHLOSS_E_STOPPED);
    REFUSES(birnenschloss_send(LENT, lent.area, 255, NO_OBJECT, 1), 6); /* 6, 7, 1: in this order */
    REFUSES(birnenschloss_send(LENT, AREA, NO_OBJECT, 1), 7);
    ANSWERS(birnenschloss_start(LENT), 0, 0);
    ANSWERS(birnenschloss_tick(LENT, AREA), 0, 0);
}

/* Memory of zeros, as static storage is before the first start: every call but a start is refused
 * with this number, 7 where zeros are in the ranges of all stored numbers and 6 where an object
 * stands behind a queue. A start is done, and a tick after it. */
static void no_start_over_zeros(const uint8_t *table, size_t length, uint32_t number)
{
    int n;
    memset(&lent, 0, sizeof lent);
    memcpy(lent.table, table, length);
    for (n = STOP; n < CALLS; n++)
        REFUSES(any(n, length, MEMORY_LENT, AREA_LENT), number);
    lent.table[16] = 0; /* a wrong direction: 5 comes first */
    for (n = START; n < CALLS; n++)
        REFUSES(any(n, length, MEMORY_LENT, AREA_LENT), BIRNENSCHLOSS_E_TABLE);
    memcpy(lent.table, table, length);
    ANSWERS(birnenschloss_start(lent.table, length, lent.memory, MEMORY_LENT), 0, 0);
    REQUIRE(lent.memory[0] == RUNS);
    ANSWERS(birnenschloss_tick(lent.table, length, lent.memory, MEMORY_LENT, AREA), 0, 0);
}

static void zeros(void)
{
    static const uint8_t frame[8] = {0x00, 0x80, 0x57, 0x01, 0, 0, 0, 0}, seven[1] = {7};
    const uint8_t *t = lent.table;
    uint8_t *m = lent.memory;
    no_start_over_zeros(case_12, sizeof case_12, BIRNENSCHLOSS_E_STOPPED);
    ANSWERS(birnenschloss_send(t, 64, m, MEMORY_LENT, AREA, 0, 2748), 0, 1);
    REQUIRE(memcmp(lent.area, frame, 8) == 0);
    no_start_over_zeros(one_queue, sizeof one_queue, BIRNENSCHLOSS_E_STOPPED);
    ANSWERS(birnenschloss_indication(t, 64, m, MEMORY_LENT, 0, 1, seven, 1), 0, 0);
    ANSWERS(birnenschloss_receive(t, 64, m, MEMORY_LENT, 0), 0, 7);
    no_start_over_zeros(right_table, TABLE_SIZE, BIRNENSCHLOSS_E_MEMORY);
    ANSWERS(birnenschloss_receive(LENT, LAST), 0, 90);
}

int main(void)
{
    zeros();
    tables();
    texts();
    too_short();
    start();
    identifiers();
    sending();
    period();
    receiving();
    stop();
    printf("boundary.c: %u answers as they should be\n", answers);
    return 0;
}
