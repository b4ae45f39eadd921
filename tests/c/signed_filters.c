/*
 * Filters on signed and unsigned objects called from C (request W-207): 8 to 13 compare as signed
 * on a signed object, 2 to 7 look at the same bits on both. Which values pass is worked out by hand
 * from documents 01 and 02. Each row is tried on a send object, on a receiver inside and on the
 * object of an indication, under every order that it may have.
 */
#define TEST "signed_filters.c"
#include "signed.h"

#define LEAST (-2147483647 - 1)
#define GREATEST 2147483647

/* A filter with its constants, the initial value, and values that come one after the other: whether
 * each passes on a signed object, and on an unsigned one. */
static const struct row {
    int filter;
    int32_t first, second, initial;
    int size; /* all values have room in so many bits */
    int count;
    struct {
        int32_t value;
        int by_sign, as_words;
    } of[10];
} rows[] = {
    /* between -186 and 5; unsigned, min is above max */
    {8, -186, 5, 0, 12, 7,
     {{-187, 0, 0}, {-186, 1, 0}, {-1, 1, 0}, {0, 1, 0}, {5, 1, 0}, {6, 0, 0}, {-2048, 0, 0}}},
    {8, -186, 5, 0, 32, 3, {{LEAST, 0, 0}, {GREATEST, 0, 0}, {-100, 1, 0}}},
    {9, -186, 5, 0, 12, 7,
     {{-187, 1, 1}, {-186, 0, 1}, {-1, 0, 1}, {0, 0, 1}, {5, 0, 1}, {6, 1, 1}, {-2048, 1, 1}}},
    /* min above max; unsigned, from 5 up to 4294967110 */
    {8, 5, -186, 0, 32, 9,
     {{-187, 0, 1}, {-186, 0, 1}, {-185, 0, 0}, {-1, 0, 0}, {0, 0, 0}, {4, 0, 0}, {5, 0, 1},
      {LEAST, 0, 1}, {GREATEST, 0, 1}}},
    {9, 5, -186, 0, 32, 9,
     {{-187, 1, 0}, {-186, 1, 0}, {-185, 1, 1}, {-1, 1, 1}, {0, 1, 1}, {4, 1, 1}, {5, 1, 0},
      {LEAST, 1, 0}, {GREATEST, 1, 0}}},
    /* both below zero: the same on both */
    {8, -20, -10, 0, 32, 6,
     {{-21, 0, 0}, {-20, 1, 1}, {-10, 1, 1}, {-9, 0, 0}, {0, 0, 0}, {15, 0, 0}}},
    /* all there are */
    {8, LEAST, GREATEST, 0, 32, 4, {{LEAST, 1, 0}, {-1, 1, 0}, {0, 1, 0}, {GREATEST, 1, 0}}},
    /* new > old */
    {10, 0, 0, 5, 32, 8,
     {{5, 0, 0}, {-5, 0, 1}, {6, 1, 0}, {-1, 0, 1}, {LEAST, 0, 0}, {GREATEST, 1, 0},
      {-2147483647, 0, 0}, {GREATEST, 0, 0}}},
    {10, 0, 0, -1, 12, 6,
     {{-1, 0, 0}, {-2, 0, 0}, {0, 1, 0}, {-2048, 0, 0}, {7, 1, 0}, {-1, 0, 0}}},
    /* new <= old */
    {11, 0, 0, 0, 32, 9,
     {{1, 0, 0}, {0, 1, 1}, {-1, 1, 0}, {0, 0, 1}, {GREATEST, 0, 0}, {-1, 1, 0}, {LEAST, 1, 0},
      {-2147483647, 0, 0}, {LEAST, 1, 0}}},
    {11, 0, 0, -7, 12, 5, {{-6, 0, 0}, {-7, 1, 1}, {5, 0, 1}, {-8, 1, 0}, {-2048, 1, 0}}},
    /* new < old */
    {12, 0, 0, 1, 32, 8,
     {{1, 0, 0}, {0, 1, 1}, {0, 0, 0}, {-1, 1, 0}, {0, 0, 0}, {LEAST, 1, 0}, {LEAST, 0, 0},
      {GREATEST, 0, 0}}},
    {12, 0, 0, -1, 12, 4, {{0, 0, 1}, {-2, 1, 0}, {-2, 0, 0}, {-2048, 1, 0}}},
    /* new >= old */
    {13, 0, 0, -2, 32, 10,
     {{-3, 0, 0}, {-2, 1, 1}, {-1, 1, 1}, {-2, 0, 0}, {0, 1, 0}, {-1, 0, 1}, {GREATEST, 1, 0},
      {LEAST, 0, 0}, {0, 0, 0}, {GREATEST, 1, 0}}},
    {13, 0, 0, 4, 12, 5, {{3, 0, 0}, {-4, 0, 1}, {4, 1, 0}, {-1, 0, 1}, {2047, 1, 0}}},
    /* new & mask = x, and differs: the top bit; the low byte of -186 */
    {2, LEAST, LEAST, 0, 12, 4, {{-1, 1, 1}, {0, 0, 0}, {2047, 0, 0}, {-2048, 1, 1}}},
    {3, LEAST, LEAST, 0, 12, 4, {{-1, 0, 0}, {0, 1, 1}, {2047, 1, 1}, {-2048, 0, 0}}},
    {2, 255, 70, 0, 12, 4, {{-186, 1, 1}, {70, 1, 1}, {-1, 0, 0}, {-70, 0, 0}}},
    /* new = old, and differs */
    {4, 0, 0, -1, 12, 4, {{-1, 1, 1}, {1, 0, 0}, {-1, 1, 1}, {-2, 0, 0}}},
    {5, 0, 0, -1, 12, 5, {{-1, 0, 0}, {1, 1, 1}, {1, 0, 0}, {-1, 1, 1}, {-1, 0, 0}}},
    /* new & mask = old & mask: the low four bits; and differs: the top bit */
    {6, 15, 0, -1, 12, 6,
     {{-1, 1, 1}, {15, 1, 1}, {-17, 1, 1}, {14, 0, 0}, {-2, 0, 0}, {31, 1, 1}}},
    {7, LEAST, 0, 0, 12, 6,
     {{5, 0, 0}, {-5, 1, 1}, {-6, 0, 0}, {7, 1, 1}, {2047, 0, 0}, {-2048, 1, 1}}},
    /* always, never, and the second of three */
    {0, 0, 0, 0, 12, 2, {{-1, 1, 1}, {5, 1, 1}}},
    {1, 0, 0, 0, 12, 2, {{-1, 0, 0}, {5, 0, 0}}},
    {14, 3, 1, 0, 12, 5, {{-1, 0, 0}, {5, 1, 1}, {-5, 0, 0}, {0, 0, 0}, {-2048, 1, 1}}},
};

/* The table with a row's filter on an object, which is so many bits under an order. Little ones
 * begin at bit 0, big ones end byte 3. */
static void filtered(const struct row *row, int object, int order, int size)
{
    fresh();
    place(object, order, order % 2 ? 24 + (32 - size) % 8 : 0, size);
    OBJECT(object)[8] = (uint8_t)row->filter;
    put_four(OBJECT(object) + 12, (uint32_t)row->initial);
    put_four(OBJECT(object) + 16, (uint32_t)row->first);
    put_four(OBJECT(object) + 20, (uint32_t)row->second);
}

/* A frame with the low bits of a value there, for sizes 12 and 32; all others are set. */
static void lay(int order, int size, int32_t value, uint8_t frame[8])
{
    uint32_t low = (uint32_t)value & 0xFFFFFFFF >> (32 - size);
    uint32_t little = low | ~(0xFFFFFFFF >> (32 - size));
    uint32_t big = size == 12 ? 0xFFFF000F | low << 4 : low;
    int i;
    memset(frame, 0xFF, 8);
    for (i = 0; i < 4; i++)
        frame[i] = (uint8_t)(order % 2 ? big >> (24 - 8 * i) : little >> 8 * i);
}

static int passes(const struct row *row, int n, int order)
{
    return order >= SIGNED_LITTLE ? row->of[n].by_sign : row->of[n].as_words;
}

/* On the sending side the whole value is judged, whatever the object's size. */
static void sends(const struct row *row, int order, int size)
{
    int n;
    filtered(row, SENT, order, size);
    start();
    for (n = 0; n < row->count; n++) {
        int passed = passes(row, n, order);
        ANSWERS(SEND(SENT, row->of[n].value), 0, passed ? 1 << OUT : 0);
        if (passed)
            CONFIRM();
        ANSWERS(RECEIVE(INSIDE), 0, (uint32_t)row->of[n].value); /* it has filter 0 */
    }
    ends_stay();
}

/* The mark and the value of a receive object after a value came: both stay where it was dropped. */
static void arrived(uint32_t object, int passed, uint32_t kept)
{
    ANSWERS(birnenschloss_marks(LENT, object), 0, passed ? BIRNENSCHLOSS_MARK_ARRIVED : 0);
    ANSWERS(birnenschloss_clear_marks(LENT, object), 0, 0);
    NOTE_BYTES();
    ANSWERS(RECEIVE(object), 0, kept);
    SAME_BYTES();
}

/* The receiver's own order counts: the sender has the other sign. */
static void delivered_inside(const struct row *row, int order)
{
    uint32_t kept = (uint32_t)row->initial;
    int n;
    filtered(row, INSIDE, order, 32);
    place(SENT, SIGNED_LITTLE - order, 0, 8);
    start();
    for (n = 0; n < row->count; n++) {
        int passed = passes(row, n, order);
        ANSWERS(SEND(SENT, row->of[n].value), 0, 1 << OUT);
        CONFIRM();
        if (passed)
            kept = (uint32_t)row->of[n].value;
        arrived(INSIDE, passed, kept);
    }
    ends_stay();
}

static void indicated(const struct row *row, int order, int size)
{
    uint32_t kept = (uint32_t)row->initial;
    uint8_t frame[8];
    int n;
    filtered(row, RECEIVED, order, size);
    start();
    for (n = 0; n < row->count; n++) {
        int passed = passes(row, n, order);
        lay(order, size, row->of[n].value, frame);
        ANSWERS(INDICATE(frame), 0, 0);
        if (passed)
            kept = (uint32_t)row->of[n].value;
        arrived(RECEIVED, passed, kept);
    }
    ends_stay();
}

/* Old is whole, on both sides, where it was initialised: new > old, in 12 bits. */
static void old_is_whole(int order)
{
    static const struct row above = {10, 0, 0, 5000, 12, 0, {{0, 0, 0}}};
    uint8_t frame[8];
    filtered(&above, SENT, order, 12);
    start();
    ANSWERS(SEND(SENT, 4000), 0, 0);
    ANSWERS(SEND(SENT, 5001), 0, 1 << OUT);
    CONFIRM();
    ANSWERS(birnenschloss_initialise(LENT, SENT, -5000), 0, 0);
    ANSWERS(SEND(SENT, -5001), 0, 0);
    ANSWERS(SEND(SENT, -4999), 0, 1 << OUT);
    filtered(&above, RECEIVED, order, 12);
    start();
    lay(order, 12, 2047, frame);
    ANSWERS(INDICATE(frame), 0, 0);
    arrived(RECEIVED, 0, 5000);
    ANSWERS(birnenschloss_initialise(LENT, RECEIVED, -3000), 0, 0);
    lay(order, 12, -2048, frame);
    ANSWERS(INDICATE(frame), 0, 0);
    arrived(RECEIVED, 1, (uint32_t)-2048);
    ANSWERS(INDICATE(frame), 0, 0);
    arrived(RECEIVED, 0, (uint32_t)-2048);
    ends_stay();
}

int main(void)
{
    const struct row *row;
    int order;
    for (row = rows; row < rows + sizeof rows / sizeof rows[0]; row++) {
        for (order = LITTLE; order <= SIGNED_BIG; order++) {
            sends(row, order, 12);
            sends(row, order, 32);
            indicated(row, order, 32);
            if (order >= SIGNED_LITTLE && row->size == 12)
                indicated(row, order, 12);
        }
        delivered_inside(row, LITTLE);
        delivered_inside(row, SIGNED_LITTLE);
    }
    old_is_whole(SIGNED_LITTLE);
    old_is_whole(SIGNED_BIG);
    printf(TEST ": %u answers as they should be\n", answers);
    return 0;
}
