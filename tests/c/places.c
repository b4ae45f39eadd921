/*
 * The places of a reading's bits, called from C. The list of the 64 places of the big walk stands
 * here as document 01 gives it; the layer works each place out (request W-204). Every reading of
 * 1 to 32 bits that has room in 8 bytes is started, initialised, sent and received under both
 * orders: its bits have to stand where the list says, all others of the frame are 0, and none of
 * them is received. Two readings of one I-PDU may have the same bit (request W-205): the one sent
 * last stands there.
 */
#define TEST "places.c"
#include "checks.h"

static const uint8_t big_walk[64] = {
    56, 57, 58, 59, 60, 61, 62, 63, 48, 49, 50, 51, 52, 53, 54, 55,
    40, 41, 42, 43, 44, 45, 46, 47, 32, 33, 34, 35, 36, 37, 38, 39,
    24, 25, 26, 27, 28, 29, 30, 31, 16, 17, 18, 19, 20, 21, 22, 23,
    8,  9,  10, 11, 12, 13, 14, 15, 0,  1,  2,  3,  4,  5,  6,  7,
};

enum { SENT, RECEIVED }; /* numbers of the objects, and here of their I-PDUs too */

#define TABLE_SIZE 112

static const uint8_t right_table[TABLE_SIZE] = {
    /* 2 I-PDUs, 2 message objects, records at 16 and 48, 112 bytes */
    2, 0, 2, 0, 16, 0, 48, 0, 112, 0, 0, 0, 0, 0, 0, 0,
    /* sent mixed, 8 bytes, period 1, offset 1, no minimum delay, deadline 10 */
    1, 8, 2, 0, 1, 0, 1, 0, 0, 0, 10, 0, 0, 0, 0, 0,
    /* received, 8 bytes, no deadline */
    2, 8, 0, 0, 0, 0, 0, 0, 0, 0, 0, 0, 0, 0, 0, 0,
    /* sent: triggered, filter 0; bytes 3 to 5, start, length and order, are filled in, and bytes 12
     * to 15, the initial value */
    1, SENT, 255, 0, 1, 0, 0, 0, 0, 0, 0, 0, 0, 0, 0, 0,
    0, 0, 0, 0, 0, 0, 0, 0, 0, 0, 0, 0, 0, 0, 0, 0,
    /* received: unqueued, filter 0; the same place in the other I-PDU */
    2, RECEIVED, 255, 0, 1, 0, 0, 0, 0, 0, 0, 0, 0, 0, 0, 0,
    0, 0, 0, 0, 0, 0, 0, 0, 0, 0, 0, 0, 0, 0, 0, 0,
};

#include "lent.h"

#define OBJECT(object) (lent.table + 48 + 32 * (object))

enum { LITTLE, BIG };

/* The bit that stands so far along an order's walk through 8 bytes. */
static unsigned walk(int order, unsigned along)
{
    return order == BIG ? big_walk[along] : along;
}

/* An object's place: so many bits, from the bit that stands so far along the walk. */
static void place(int object, int order, unsigned along, unsigned size)
{
    OBJECT(object)[3] = (uint8_t)walk(order, along);
    OBJECT(object)[4] = (uint8_t)size;
    OBJECT(object)[5] = (uint8_t)order;
}

/* Puts a value's bits to the places of the list. */
static void put(int order, unsigned along, unsigned size, uint32_t value, uint8_t frame[8])
{
    unsigned i;
    for (i = 0; i < size; i++) {
        unsigned bit = walk(order, along + i);
        uint8_t own = (uint8_t)(1 << bit % 8);
        if (value >> i & 1)
            frame[bit / 8] = (uint8_t)(frame[bit / 8] | own);
        else
            frame[bit / 8] = (uint8_t)(frame[bit / 8] & ~own);
    }
}

/* The frame in which they stand there; each byte's other bits are those of `others`. */
static void lay(int order, unsigned along, unsigned size, uint32_t value, uint8_t others,
                uint8_t frame[8])
{
    memset(frame, others, 8);
    put(order, along, size, value, frame);
}

/* A call that asks for the frame, which then is as it should be. */
static void hands_over(birnenschloss_answer a, const uint8_t frame[8])
{
    ANSWERS(a, 0, 1);
    REQUIRE(memcmp(lent.area, frame, 8) == 0);
    ANSWERS(birnenschloss_confirm(LENT, SENT, 1), 0, 0);
}

/* A value is put into the I-PDU by a start, its inverse by an initialise, and the value again by a
 * send. It is received from its places, also with every other bit of the frame set. */
static void there_and_back(int order, unsigned along, unsigned size, uint32_t value)
{
    uint8_t frame[8], inverse[8], full[8];
    uint32_t low = value & 0xFFFFFFFF >> (32 - size);
    unsigned i;
    lay(order, along, size, value, 0, frame);
    lay(order, along, size, ~value, 0, inverse);
    lay(order, along, size, value, 0xFF, full);
    for (i = 0; i < 4; i++)
        OBJECT(SENT)[12 + i] = (uint8_t)(value >> 8 * i);
    memset(lent.memory, 0xA5, MEMORY_LENT);
    ANSWERS(birnenschloss_start(LENT), 0, 0);
    ANSWERS(birnenschloss_start_periodic(LENT), 0, 0);
    hands_over(birnenschloss_tick(LENT, AREA), frame);
    ANSWERS(birnenschloss_initialise(LENT, SENT, ~value), 0, 0);
    hands_over(birnenschloss_tick(LENT, AREA), inverse);
    hands_over(birnenschloss_send(LENT, AREA, SENT, value), frame);
    ANSWERS(birnenschloss_indication(LENT, RECEIVED, 1, frame, 8), 0, 0);
    ANSWERS(birnenschloss_receive(LENT, RECEIVED), 0, low);
    ANSWERS(birnenschloss_indication(LENT, RECEIVED, 1, full, 8), 0, 0);
    ANSWERS(birnenschloss_receive(LENT, RECEIVED), 0, low);
}

/* What the check of the table answers: 0, or 5 with the object that is wrong. */
static void checked(int right, uint32_t object)
{
    NOTE_BYTES();
    ANSWERS(birnenschloss_check(lent.table, TABLE_SIZE), right ? 0 : BIRNENSCHLOSS_E_TABLE,
            right ? 0 : 256 + object);
    SAME_BYTES();
}

/* Two sent readings of one bit each, wherever they lie: the later of two values stands in a bit
 * that both have. */
static void two_readings(int order, unsigned along)
{
    uint8_t frame[8];
    int other;
    unsigned bit, i;
    for (other = LITTLE; other <= BIG; other++) {
        for (bit = 0; bit < 64; bit++) {
            memcpy(lent.table, right_table, TABLE_SIZE);
            memcpy(OBJECT(1), OBJECT(0), 32);
            place(0, order, along, 1);
            place(1, other, bit, 1);
            OBJECT(0)[12] = 1; /* the initial value; that of the higher number, 0, stands */
            checked(1, 0);
            ANSWERS(birnenschloss_start(LENT), 0, 0);
            ANSWERS(birnenschloss_start_periodic(LENT), 0, 0);
            lay(order, along, 1, 1, 0, frame);
            put(other, bit, 1, 0, frame);
            hands_over(birnenschloss_tick(LENT, AREA), frame);
            for (i = 0; i < 4; i++) {
                put(order, along, 1, i & 1, frame);
                hands_over(birnenschloss_send(LENT, AREA, 0, i & 1), frame);
                put(other, bit, 1, i >> 1, frame);
                hands_over(birnenschloss_send(LENT, AREA, 1, i >> 1), frame);
            }
        }
    }
}

int main(void)
{
    int order;
    unsigned along, size, i;
    memset(lent.area, 0xC3, AREA_LENT);
    for (order = LITTLE; order <= BIG; order++) {
        for (along = 0; along < 64; along++) {
            two_readings(order, along);
            memcpy(lent.table, right_table, TABLE_SIZE);
            for (size = 1; size <= 32; size++) {
                place(SENT, order, along, size);
                place(RECEIVED, order, along, size);
                checked(along + size <= 64, 0);
                if (along + size > 64)
                    continue;
                for (i = 0; i < 32; i++) {
                    there_and_back(order, along, size, (uint32_t)1 << i);
                    there_and_back(order, along, size, ~((uint32_t)1 << i));
                }
            }
        }
    }
    printf("places.c: %u answers as they should be\n", answers);
    return 0;
}
