/*
 * Begins and drains of a journey sheet that are refused, called from C: with 1, 10 and 6, and the
 * order of refusals. Each must leave all that is lent, and the bytes behind it.
 */
#define TEST "sheets_refused.c"
#include "sheets.h"

/* Of lent.objects, the first so many, from MANY on by one. */
static void put_many(uint32_t count)
{
    uint32_t i;
    for (i = 0; i < count; i++)
        lent.objects[i] = MANY + i % 17;
}

static const uint32_t wrong_objects[] = {
    SENT, LAST, OBJECTS, 128, 255, 256 + CLIMATE, 65536 + CLIMATE, 0x80000000u + CLIMATE,
    0xFFFFFFFFu,
};
enum { WRONG = sizeof wrong_objects / sizeof wrong_objects[0] };

/* Number 1 for a wrong object at any place, behind the sixteenth too and where one stands twice; 10
 * for one twice, at any two places, and for more than 16. */
static void wrong_lists(void)
{
    static const size_t counts[] = {17, 18, 255, 256, 257, 256 + MOST, ROOM};
    static const char lines[] =
        "5 0 - - - - 0 0\n6 0 - - - - 0 0\n7 0 - - - - 0 0\n8 0 - - - - 0 0\n"
        "9 0 - - - - 0 0\n10 0 - - - - 0 0\n11 0 - - - - 0 0\n12 0 - - - - 0 0\n"
        "13 0 - - - - 0 0\n14 0 - - - - 0 0\n15 0 - - - - 0 0\n16 0 - - - - 0 0\n"
        "17 0 - - - - 0 0\n18 0 - - - - 0 0\n19 0 - - - - 0 0\n20 0 - - - - 0 0\n";
    uint32_t i, k;
    fresh();
    for (i = 0; i < MOST + 3; i++)
        for (k = 0; k < WRONG; k++) {
            put_many(MOST + 3);
            lent.objects[i] = wrong_objects[k];
            REFUSES(BEGIN_LENT(MOST + 3), E_COM_ID);
            REFUSES(BEGIN_LENT(i + 1), E_COM_ID);
            lent.objects[0] = lent.objects[i]; /* now twice, where i is not 0 */
            REFUSES(BEGIN_LENT(i + 1), E_COM_ID);
        }
    for (i = 0; i < MOST; i++)
        for (k = 0; k < i; k++) {
            put_many(MOST);
            lent.objects[i] = lent.objects[k];
            REFUSES(BEGIN_LENT(MOST), BIRNENSCHLOSS_E_FOLLOWED);
            REFUSES(BEGIN_LENT(i + 1), BIRNENSCHLOSS_E_FOLLOWED);
        }
    put_many(ROOM);
    for (i = 0; i < 7; i++)
        REFUSES(BEGIN_LENT(counts[i]), BIRNENSCHLOSS_E_FOLLOWED);
    ANSWERS(BEGIN_LENT(MOST), 0, 0); /* the same ones, sixteen of them */
    ANSWERS(DRAIN_LENT(), 0, sizeof lines - 1);
    REQUIRE(memcmp(lent.text, lines, sizeof lines - 1) == 0);
}

/* Drains of bytes that were never begun, or that something else has written: 6 for the head, 1 and
 * 10 for an object. Nothing is drained before. */
static void wrong_sheets(void)
{
    static const uint32_t four[] = {INSIDE, CLIMATE, TIMED, MANY};
    uint32_t i, k;
    int byte;
    fresh();
    REFUSES(DRAIN_LENT(), BIRNENSCHLOSS_E_MEMORY);
    memset(lent.sheet, 0, sizeof lent.sheet);
    REFUSES(DRAIN_LENT(), BIRNENSCHLOSS_E_MEMORY);
    ANSWERS(birnenschloss_sheet_begin(LENT, LENT_SHEET, four, 4), 0, 0);
    SEND(1);
    ARRIVE(2);
    FAIL(TIMED_IPDU);
    for (i = 0; i < 8; i++)
        for (byte = 0; byte < 256; byte++) {
            uint8_t right = lent.sheet[i];
            if (byte == right || (i == 4 && byte <= MOST))
                continue;
            lent.sheet[i] = (uint8_t)byte;
            REFUSES(DRAIN_LENT(), BIRNENSCHLOSS_E_MEMORY);
            lent.sheet[i] = right;
        }
    for (i = 0; i < 4; i++) {
        uint8_t *number = lent.sheet + 8 + 32 * i;
        for (k = 0; k < WRONG; k++) {
            put_four(number, wrong_objects[k]);
            REFUSES(DRAIN_LENT(), E_COM_ID);
        }
        for (k = 0; k < 4; k++) {
            put_four(number, four[k]);
            if (k != i)
                REFUSES(DRAIN_LENT(), BIRNENSCHLOSS_E_FOLLOWED);
        }
        put_four(lent.sheet + 8 + 32 * ((i + 1) % 4), SENT); /* one twice, and a wrong one */
        put_four(number, four[(i + 2) % 4]);
        REFUSES(DRAIN_LENT(), E_COM_ID);
        put_four(lent.sheet + 8 + 32 * ((i + 1) % 4), four[(i + 1) % 4]);
        put_four(number, four[i]);
    }
    lent.sheet[4] = 5; /* a row of zeros: object 0 sends */
    REFUSES(DRAIN_LENT(), E_COM_ID);
    lent.sheet[4] = 3; /* one object less: its row stays as it is */
    put_four(lent.sheet + 8 + 3 * 32 + 20, 77);
    memset(lent.text, FILLING, sizeof lent.text);
    NOTE_BYTES();
    ANSWERS(DRAIN_LENT(), 0, 48);
    REQUIRE(memcmp(lent.text, "1 1 1 1 1 1 0 0\n2 1 2 2 2 2 0 0\n4 0 - - - - 0 1\n#", 49) == 0);
    REQUIRE(memcmp(lent.sheet + 8 + 3 * 32, before.sheet + 8 + 3 * 32, SHEET_LENT - 104) == 0);
    REQUIRE(memcmp(lent.sheet, before.sheet, 8) == 0);
}

/* A begin of these objects and a drain are refused with this number. */
static void both_refuse(size_t tn, size_t mn, size_t sn, size_t xn, uint32_t number)
{
    size_t count;
    for (count = 0; count <= MOST + 2; count++)
        REFUSES(begin(tn, mn, sn, count), number);
    REFUSES(drain(tn, mn, sn, xn), number);
}

/* 5 before 6 before 7 before 1 before 10: over a list and a sheet that 1 refuses, over ones that 10
 * refuses, and over right ones. That 1 comes before 10, wrong_lists and wrong_sheets have. */
static void order(void)
{
    static const size_t tables[] = {0, 1, 15, TABLE_SIZE - 1};
    static const size_t memories[] = {0, 1, BIRNENSCHLOSS_MEMORY_SIZE - 1};
    static const uint32_t wrongs[] = {LAST, MANY, MANY + 1};
    int stopped, i, k;
    for (stopped = 0; stopped < 2; stopped++)
        for (k = 0; k < 3; k++) {
            fresh();
            put_many(MOST + 2);
            ANSWERS(BEGIN_LENT(3), 0, 0);
            put_four(lent.sheet + 8 + 32, wrongs[k]); /* 1, 10, or as it was */
            lent.objects[1] = wrongs[k];
            if (stopped) {
                ANSWERS(birnenschloss_stop(LENT), 0, 0);
                both_refuse(TABLE_SIZE, MEMORY_LENT, SHEET_SIZE, TEXT_SIZE, 7);
            }
            for (i = 0; i < 3; i++)
                both_refuse(TABLE_SIZE, memories[i], SHEET_LENT, TEXT_LENT, 6);
            both_refuse(TABLE_SIZE, MEMORY_LENT, SHEET_SIZE - 1, TEXT_LENT, 6);
            REFUSES(drain(TABLE_SIZE, MEMORY_LENT, SHEET_LENT, TEXT_SIZE - 1), 6);
            for (i = 0; i < 4; i++) {
                both_refuse(tables[i], MEMORY_LENT, SHEET_LENT, TEXT_LENT, 5);
                both_refuse(tables[i], 0, 0, 0, 5);
            }
            lent.sheet[4] = 17; /* too many objects are a number out of its range */
            REFUSES(DRAIN_LENT(), 6);
            lent.sheet[4] = 3;
            lent.memory[16] = 2; /* a request is open or not: 1 or 0 (docs/MEMORY.md) */
            both_refuse(TABLE_SIZE, MEMORY_LENT, SHEET_LENT, TEXT_LENT, BIRNENSCHLOSS_E_MEMORY);
            lent.table[16] = 3; /* no direction */
            both_refuse(TABLE_SIZE, MEMORY_LENT, SHEET_LENT, TEXT_LENT, BIRNENSCHLOSS_E_TABLE);
        }
}

int main(void)
{
    wrong_lists();
    wrong_sheets();
    order();
    printf(TEST ": %u answers as they should be\n", answers);
    return 0;
}
