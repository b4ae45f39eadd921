/*
 * Filter 14 called from C: which values pass, in rows past 256, and the range of the stored count.
 * The answers are worked out by hand from request W-203. Memory and area are longer than needed,
 * and their ends must stay.
 */
#define TEST "counts.c"
#include "checks.h"

enum { READING, COUNTED, INSIDE };

#define TABLE_SIZE 128

static const uint8_t right_table[TABLE_SIZE] = {
    /* 1 I-PDU, 3 message objects, records at 16 and 32, 128 bytes */
    1, 0, 3, 0, 16, 0, 32, 0, 128, 0, 0, 0, 0, 0, 0, 0,
    /* sent direct, 4 bytes, no minimum delay, deadline 10 */
    1, 4, 0, 0, 0, 0, 0, 0, 0, 0, 10, 0, 0, 0, 0, 0,
    /* reading: sent, bit 0, 8 bits, little, pending, filter 0 */
    1, 0, 255, 0, 8, 0, 1, 0, 0, 0, 0, 0, 0, 0, 0, 0,
    0, 0, 0, 0, 0, 0, 0, 0, 0, 0, 0, 0, 0, 0, 0, 0,
    /* counted: sent, bit 8, 16 bits, little, triggered, filter 14, period 3, offset 0 */
    1, 0, 255, 8, 16, 0, 0, 0, 14, 0, 0, 0, 0, 0, 0, 0,
    3, 0, 0, 0, 0, 0, 0, 0, 0, 0, 0, 0, 0, 0, 0, 0,
    /* inside: receives what counted sends, unqueued, filter 14, period 5, offset 1 */
    2, 255, COUNTED, 0, 32, 0, 0, 0, 14, 0, 0, 0, 0, 0, 0, 0,
    5, 0, 0, 0, 1, 0, 0, 0, 0, 0, 0, 0, 0, 0, 0, 0,
};

#include "lent.h"

/* The count of an object in working memory (docs/MEMORY.md). */
#define COUNT(object) lent.memory[784 + 16 * (object) + 8]

static void started(void)
{
    memset(lent.memory, 0xA5, MEMORY_LENT);
    memset(lent.area, 0xC3, AREA_LENT);
    memcpy(lent.table, right_table, TABLE_SIZE);
    ANSWERS(birnenschloss_start(LENT), 0, 0);
}

static void ends_stay(void)
{
    int i;
    for (i = 0; i < 5; i++)
        REQUIRE(lent.memory[BIRNENSCHLOSS_MEMORY_SIZE + i] == 0xA5);
    for (i = 8; i < AREA_LENT; i++)
        REQUIRE(lent.area[i] == 0xC3);
}

/* 300 sends, each request confirmed: the first, fourth and so on ask for one. The receiver inside
 * gets the second, seventh and so on. An initialise before each send changes none of it. */
static void one_in_three(int initialises)
{
    uint8_t asked[301] = {0};
    uint32_t n, last = 0;
    started();
    for (n = 1; n <= 300; n++) {
        birnenschloss_answer a;
        if (initialises) {
            ANSWERS(birnenschloss_initialise(LENT, COUNTED, 7 * n), 0, 0);
            ANSWERS(birnenschloss_initialise(LENT, INSIDE, last), 0, 0);
        }
        ANSWERS(birnenschloss_send(LENT, AREA, READING, n), 0, 0);
        a = birnenschloss_send(LENT, AREA, COUNTED, n);
        ANSWERS(a, 0, n % 3 == 1);
        asked[n] = (uint8_t)a.value;
        if (asked[n]) {
            ANSWERS(birnenschloss_confirm(LENT, 0, 1), 0, 0);
            REQUIRE(lent.area[0] == (uint8_t)n);
            REQUIRE(lent.area[1] == (uint8_t)n && lent.area[2] == n >> 8 && lent.area[3] == 0);
        }
        if (n % 5 == 2)
            last = n;
        ANSWERS(birnenschloss_receive(LENT, INSIDE), 0, last);
        REQUIRE(COUNT(READING) == 0 && COUNT(COUNTED) == n % 3 && COUNT(INSIDE) == n % 5);
    }
    REQUIRE(asked[1] && !asked[2] && !asked[3] && asked[4]);
    REQUIRE(!asked[255] && asked[256] && !asked[257] && !asked[258] && asked[259]);
    ends_stay();
}

/* Every call but a start, over a memory with a number out of its range. */
static void all_refuse(void)
{
    static const uint8_t pair[BIRNENSCHLOSS_PAIR_SIZE] = {COUNTED, 1, 0, 0, 0};
    static uint8_t sheet[BIRNENSCHLOSS_SHEET_SIZE] = {1}, text[BIRNENSCHLOSS_SHEET_TEXT_SIZE];
    static const uint32_t inside[] = {INSIDE};
    uint8_t status = 0xC3;
    REFUSES(birnenschloss_stop(LENT), BIRNENSCHLOSS_E_MEMORY);
    REFUSES(birnenschloss_send(LENT, AREA, COUNTED, 1), BIRNENSCHLOSS_E_MEMORY);
    REFUSES(birnenschloss_send_group(LENT, AREA, pair, sizeof pair, &status, 1),
            BIRNENSCHLOSS_E_MEMORY);
    REQUIRE(status == 0xC3);
    REFUSES(birnenschloss_initialise(LENT, COUNTED, 1), BIRNENSCHLOSS_E_MEMORY);
    REFUSES(birnenschloss_receive(LENT, INSIDE), BIRNENSCHLOSS_E_MEMORY);
    REFUSES(birnenschloss_status(LENT, INSIDE), BIRNENSCHLOSS_E_MEMORY);
    REFUSES(birnenschloss_marks(LENT, COUNTED), BIRNENSCHLOSS_E_MEMORY);
    REFUSES(birnenschloss_clear_marks(LENT, COUNTED), BIRNENSCHLOSS_E_MEMORY);
    REFUSES(birnenschloss_start_periodic(LENT), BIRNENSCHLOSS_E_MEMORY);
    REFUSES(birnenschloss_stop_periodic(LENT), BIRNENSCHLOSS_E_MEMORY);
    REFUSES(birnenschloss_indication(LENT, 0, 0, pair, 0), BIRNENSCHLOSS_E_MEMORY);
    REFUSES(birnenschloss_confirm(LENT, 0, 1), BIRNENSCHLOSS_E_MEMORY);
    REFUSES(birnenschloss_tick(LENT, AREA), BIRNENSCHLOSS_E_MEMORY);
    REFUSES(birnenschloss_sheet_begin(LENT, sheet, sizeof sheet, inside, 0),
            BIRNENSCHLOSS_E_MEMORY);
    REFUSES(birnenschloss_sheet_drain(LENT, sheet, sizeof sheet, text, sizeof text),
            BIRNENSCHLOSS_E_MEMORY);
}

/* The counts of an object that a call is done over: those below so many, and no other. */
static void accepted_below(uint32_t object, int many)
{
    int count;
    for (count = 0; count < 256; count++) {
        COUNT(object) = (uint8_t)count;
        if (count < many) {
            NOTE_BYTES();
            ANSWERS(birnenschloss_clear_marks(LENT, READING), 0, 0);
            SAME_BYTES();
        } else {
            all_refuse();
        }
    }
    COUNT(object) = 0;
}

static void ranges(void)
{
    started();
    accepted_below(READING, 1);
    accepted_below(COUNTED, 3);
    accepted_below(INSIDE, 5);
    COUNT(COUNTED) = 2; /* dropped, and the next one passes */
    ANSWERS(birnenschloss_send(LENT, AREA, COUNTED, 1), 0, 0);
    REQUIRE(COUNT(COUNTED) == 0);
    ANSWERS(birnenschloss_send(LENT, AREA, COUNTED, 2), 0, 1);
    COUNT(COUNTED) = 3; /* a start puts it right */
    ANSWERS(birnenschloss_start(LENT), 0, 0);
    REQUIRE(COUNT(COUNTED) == 0);
    ANSWERS(birnenschloss_send(LENT, AREA, COUNTED, 3), 0, 1);
    ends_stay();
}

int main(void)
{
    one_in_three(0);
    one_in_three(1);
    ranges();
    printf("counts.c: %u answers as they should be\n", answers);
    return 0;
}
