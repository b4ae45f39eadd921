/*
 * For tests/memory.py: a layer with all stored numbers in use; gdb stops in looked_at. What the
 * library says of the same memory is asked on copies and printed, a line 'ask' for each answer.
 */
#include <stdio.h>
#include <string.h>

#include "birnenschloss.h"

enum { OPEN, WAITING, PERIODIC, INCOMING, SILENT, MIXED, IPDUS };
enum { READING, LATE, WIDE, LAST, QUEUE, FULL, INSIDE, LOST, OBJECTS };

#define MEMORY_SIZE BIRNENSCHLOSS_MEMORY_SIZE
#define TABLE_SIZE (16 + 16 * IPDUS + 32 * OBJECTS)

const uint8_t table[TABLE_SIZE] = {
    6, 0, 8, 0, 16, 0, 112, 0, 112, 1, 0, 0, 0, 0, 0, 0,
    /* open: sent, 4 bytes, direct, minimum delay 3, deadline 10 */
    1, 4, 0, 0, 0, 0, 0, 0, 3, 0, 10, 0, 0, 0, 0, 0,
    /* waiting: sent, 2 bytes, direct, minimum delay 300, deadline 2 */
    1, 2, 0, 0, 0, 0, 0, 0, 44, 1, 2, 0, 0, 0, 0, 0,
    /* periodic: sent, 8 bytes, period 400, offset 7, deadline 2 */
    1, 8, 1, 0, 144, 1, 7, 0, 0, 0, 2, 0, 0, 0, 0, 0,
    /* incoming: received, 4 bytes, deadline 258 */
    2, 4, 0, 0, 0, 0, 0, 0, 0, 0, 2, 1, 0, 0, 0, 0,
    /* silent: received, 1 byte, deadline 2, first deadline 3 */
    2, 1, 0, 0, 0, 0, 0, 0, 0, 0, 2, 0, 3, 0, 0, 0,
    /* mixed: sent, 1 byte, period 2, offset 600, minimum delay 1, deadline 4 */
    1, 1, 2, 0, 2, 0, 88, 2, 1, 0, 4, 0, 0, 0, 0, 0,
    /* reading: sent in open, bit 13, 12 bits, little, filter 5 */
    1, 0, 255, 13, 12, 0, 0, 0, 5, 0, 0, 0, 0, 0, 0, 0,
    0, 0, 0, 0, 0, 0, 0, 0, 0, 0, 0, 0, 0, 0, 0, 0,
    /* late: sent in waiting, bit 0, 16 bits */
    1, 1, 255, 0, 16, 0, 0, 0, 0, 0, 0, 0, 0, 0, 0, 0,
    0, 0, 0, 0, 0, 0, 0, 0, 0, 0, 0, 0, 0, 0, 0, 0,
    /* wide: sent in periodic, bit 24, 32 bits, big, initial value hex 04030201 */
    1, 2, 255, 24, 32, 1, 0, 0, 0, 0, 0, 0, 1, 2, 3, 4,
    0, 0, 0, 0, 0, 0, 0, 0, 0, 0, 0, 0, 0, 0, 0, 0,
    /* last: received in incoming, bit 8, 8 bits, signed, unqueued, filter 14 with period 3, offset 0 */
    2, 3, 255, 8, 8, 2, 0, 0, 14, 0, 0, 0, 90, 0, 0, 0,
    3, 0, 0, 0, 0, 0, 0, 0, 0, 0, 0, 0, 0, 0, 0, 0,
    /* queue: received in incoming, bit 0, 8 bits, depth 3 */
    2, 3, 255, 0, 8, 0, 0, 3, 0, 0, 0, 0, 0, 0, 0, 0,
    0, 0, 0, 0, 0, 0, 0, 0, 0, 0, 0, 0, 0, 0, 0, 0,
    /* full: received in incoming, bit 16, 16 bits, signed, depth 2 */
    2, 3, 255, 16, 16, 2, 0, 2, 0, 0, 0, 0, 0, 0, 0, 0,
    0, 0, 0, 0, 0, 0, 0, 0, 0, 0, 0, 0, 0, 0, 0, 0,
    /* inside: receives what wide sends, depth 16 */
    2, 255, 2, 0, 32, 0, 0, 16, 0, 0, 0, 0, 0, 0, 0, 0,
    0, 0, 0, 0, 0, 0, 0, 0, 0, 0, 0, 0, 0, 0, 0, 0,
    /* lost: received in silent, bit 0, 8 bits, depth 1 */
    2, 4, 255, 0, 8, 0, 0, 1, 0, 0, 0, 0, 0, 0, 0, 0,
    0, 0, 0, 0, 0, 0, 0, 0, 0, 0, 0, 0, 0, 0, 0, 0,
};

uint8_t memory[MEMORY_SIZE], area[BIRNENSCHLOSS_AREA_SIZE];
const uint8_t short_table[10] = {6, 0, 8, 0, 16};
uint8_t short_memory[100];

/* Asked on copies of memory and area. */
static uint8_t copy[MEMORY_SIZE], slot[BIRNENSCHLOSS_AREA_SIZE];

#define LENT table, sizeof table, memory, sizeof memory
#define COPY table, sizeof table, copy, sizeof copy

struct answers {
    birnenschloss_answer marks[OBJECTS], status[OBJECTS];
} answers;

static int wrong;

static void must(birnenschloss_answer got, uint32_t number, const char *what)
{
    if (got.number != number) {
        printf("looked_at.c: %s answers %u, not %u\n", what, (unsigned)got.number,
               (unsigned)number);
        wrong = 1;
    }
}

static void indicate(uint8_t first, uint8_t second, uint8_t third)
{
    const uint8_t bytes[4] = {first, second, third, 255};
    must(birnenschloss_indication(LENT, INCOMING, 1, bytes, sizeof bytes), E_OK, "an indication");
}

static birnenschloss_answer tick(void)
{
    return birnenschloss_tick(COPY, slot, sizeof slot);
}

static void copied(void)
{
    memcpy(copy, memory, sizeof copy);
    memset(slot, 0, sizeof slot);
}

/* The ticks until a request of the I-PDU, at most 1000; with the bytes that it then has. */
static void ask_request(const char *name, uint32_t ipdu, int length)
{
    unsigned n = 0;
    int i;
    while (n < 1000 && (n++, !birnenschloss_is_requested(tick().value, ipdu)))
        ;
    printf("ask %s %u %u\nask bytes %u", name, (unsigned)ipdu, n, (unsigned)ipdu);
    for (i = 0; i < length; i++)
        printf(" %02X", slot[BIRNENSCHLOSS_SLOT_SIZE * ipdu + i]);
    printf("\n");
}

/* The ticks until the object has the mark. */
static void ask_mark(const char *name, uint32_t ipdu, uint32_t object, uint32_t mark)
{
    unsigned n = 0;
    copied();
    must(birnenschloss_clear_marks(COPY, object), E_OK, "clear marks");
    while (n < 1000 && !(birnenschloss_marks(COPY, object).value & mark)) {
        tick();
        n++;
    }
    printf("ask %s %u %u\n", name, (unsigned)ipdu, n);
}

/* A confirm on a copy: whether a request is open. */
static void ask_open(uint32_t ipdu)
{
    birnenschloss_answer got;
    copied();
    got = birnenschloss_confirm(COPY, ipdu, 1);
    printf("ask request_open %u %d\n", (unsigned)ipdu, got.number == E_OK);
}

static void print_value(uint32_t object, uint32_t value)
{
    if (table[16 + 16 * IPDUS + 32 * object + 5] < 2)
        printf(" %lu", (unsigned long)value);
    else
        printf(" %ld", (long)birnenschloss_signed(value));
}

static void ask_object(uint32_t i)
{
    birnenschloss_answer got;
    answers.marks[i] = birnenschloss_marks(LENT, i);
    answers.status[i] = birnenschloss_status(LENT, i);
    printf("ask marks %u %u\n", (unsigned)i, (unsigned)answers.marks[i].value);
    printf("ask status %u %u\n", (unsigned)i, (unsigned)answers.status[i].number);
    copied();
    got = birnenschloss_receive(COPY, i);
    if (got.number == E_COM_ID)
        return; /* a send object */
    printf("ask receive %u", (unsigned)i);
    if (answers.status[i].number == E_COM_ID)
        print_value(i, got.value); /* unqueued: it has no end */
    else
        for (; got.number != E_COM_NOMSG; got = birnenschloss_receive(COPY, i))
            print_value(i, got.value);
    printf("\n");
}

/* Whether memory is in range with each byte of a row that the table has changed to each value. */
static void ask_ranges(void)
{
    static const uint8_t values[] = {0,  1,  2,  3,  4,  5,  6,   7,   10,
                                     11, 15, 16, 17, 44, 45, 144, 145, 255};
    unsigned at, v;
    printf("ask values");
    for (v = 0; v < sizeof values; v++)
        printf(" %u", values[v]);
    printf("\n");
    for (at = 0; at < 784 + 16 * OBJECTS; at++) {
        if (at >= 16 + 16 * IPDUS && at < 784)
            continue;
        printf("ask ranges %u ", at);
        for (v = 0; v < sizeof values; v++) {
            copied();
            copy[at] = values[v];
            printf("%d", birnenschloss_marks(COPY, 0).number == BIRNENSCHLOSS_E_MEMORY);
        }
        printf("\n");
    }
}

void looked_at(const uint8_t *memory, const uint8_t *table, const struct answers *answers)
{
    (void)memory, (void)table, (void)answers;
}

static void run(void)
{
    uint32_t n;
    must(birnenschloss_start(LENT), E_OK, "start");
    must(birnenschloss_start_periodic(LENT), E_OK, "start periodic");
    /* waiting: sent and confirmed, sent again within the minimum delay; one send error before */
    must(birnenschloss_send(LENT, area, sizeof area, LATE, 1), E_OK, "send");
    must(birnenschloss_confirm(LENT, WAITING, 0), E_OK, "confirm");
    must(birnenschloss_send(LENT, area, sizeof area, LATE, 513), E_OK, "send");
    must(birnenschloss_confirm(LENT, WAITING, 1), E_OK, "confirm");
    must(birnenschloss_send(LENT, area, sizeof area, LATE, 1027), E_OK, "send");
    /* silent: its first deadline passes */
    for (n = 0; n < 4; n++)
        must(birnenschloss_tick(LENT, area, sizeof area), E_OK, "tick");
    /* incoming: a queue that goes round, one that overflows */
    indicate(11, 235, 31);
    indicate(12, 234, 32);
    must(birnenschloss_receive(LENT, QUEUE), E_OK, "receive");
    must(birnenschloss_receive(LENT, QUEUE), E_OK, "receive");
    indicate(13, 233, 33);
    indicate(14, 232, 34);
    must(birnenschloss_indication(LENT, INCOMING, 0, area, 0), E_OK, "a bad indication");
    /* inside: three values that wide sends */
    for (n = 1; n <= 3; n++)
        must(birnenschloss_send(LENT, area, sizeof area, WIDE, 0x01020304 * n), E_OK, "send");
    /* open: a request, and another that waits for it */
    must(birnenschloss_send(LENT, area, sizeof area, READING, 2748), E_OK, "send");
    must(birnenschloss_send(LENT, area, sizeof area, READING, 2749), E_OK, "send");
    must(birnenschloss_tick(LENT, area, sizeof area), E_OK, "tick");
}

int main(void)
{
    uint32_t i;
    run();
    for (i = 0; i < OBJECTS; i++)
        ask_object(i);
    for (i = 0; i < IPDUS; i++)
        ask_open(i);
    copied();
    ask_request("delay", WAITING, 2);
    copied();
    ask_request("countdown", PERIODIC, 8);
    copied();
    ask_request("countdown", MIXED, 1);
    copied();
    must(birnenschloss_confirm(COPY, OPEN, 1), E_OK, "confirm");
    ask_request("after_confirm", OPEN, 4);
    ask_mark("deadline", OPEN, READING, BIRNENSCHLOSS_MARK_SEND_ERROR);
    ask_mark("receive_timer", INCOMING, LAST, BIRNENSCHLOSS_MARK_RECEIVE_ERROR);
    ask_mark("receive_timer", SILENT, LOST, BIRNENSCHLOSS_MARK_RECEIVE_ERROR);
    ask_ranges();
    fflush(stdout);
    looked_at(memory, table, &answers);
    return wrong;
}
