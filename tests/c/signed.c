/*
 * Signed readings called from C (request W-207): byte orders 2 and 3 in frames, inside, in the
 * check of a table and on a sheet. Frames, values and lines are worked out by hand from documents
 * 01 and 02. Memory and area are longer than needed, and hold something else before a start.
 */
#define TEST "signed.c"
#include "signed.h"

static void corners(void)
{
    static const struct {
        uint32_t value;
        int32_t reading;
    } of[] = {
        {0, 0},
        {1, 1},
        {2047, 2047},
        {0x7FFFFFFE, 2147483646},
        {0x7FFFFFFF, 2147483647},
        {0x80000000, -2147483647 - 1},
        {0x80000001, -2147483647},
        {0xFFFFF800, -2048},
        {0xFFFFFF46, -186},
        {0xFFFFFFFE, -2},
        {0xFFFFFFFF, -1},
    };
    size_t i;
    for (i = 0; i < sizeof of / sizeof of[0]; i++) {
        uint32_t back = of[i].reading; /* converts by itself */
        REQUIRE(birnenschloss_signed(of[i].value) == of[i].reading);
        REQUIRE(back == of[i].value);
    }
}

/* A place, and the frames of four numbers there: -1, which sets all its bits, the least, the
 * greatest, one more. All other bits are 0. */
static const struct reading {
    int order, start, size;
    struct {
        uint8_t frame[8];
        int32_t value;
    } of[4];
} readings[] = {
    {SIGNED_LITTLE, 13, 12, /* of hex FFF, 800, 7FF, ABC */
     {{{0x00, 0xE0, 0xFF, 0x01}, -1},
      {{0x00, 0x00, 0x00, 0x01}, -2048},
      {{0x00, 0xE0, 0xFF, 0x00}, 2047},
      {{0x00, 0x80, 0x57, 0x01}, -1348}}},
    {SIGNED_BIG, 18, 12,
     {{{0x00, 0x3F, 0xFC}, -1},
      {{0x00, 0x20, 0x00}, -2048},
      {{0x00, 0x1F, 0xFC}, 2047},
      {{0x00, 0x2A, 0xF0}, -1348}}},
    {SIGNED_BIG, 28, 12,
     {{{0, 0, 0xFF, 0xF0}, -1},
      {{0, 0, 0x80, 0x00}, -2048},
      {{0, 0, 0x7F, 0xF0}, 2047},
      {{0, 0, 0xF4, 0x60}, -186}}},
    {SIGNED_LITTLE, 5, 1, {{{0x20}, -1}, {{0x20}, -1}, {{0}, 0}, {{0}, 0}}},
    {SIGNED_BIG, 63, 1,
     {{{0, 0, 0, 0, 0, 0, 0, 0x80}, -1},
      {{0, 0, 0, 0, 0, 0, 0, 0x80}, -1},
      {{0}, 0},
      {{0}, 0}}},
    {SIGNED_LITTLE, 7, 2,
     {{{0x80, 0x01}, -1}, {{0x00, 0x01}, -2}, {{0x80, 0x00}, 1}, {{0}, 0}}},
    {SIGNED_BIG, 15, 2,
     {{{0x01, 0x80}, -1}, {{0x01, 0x00}, -2}, {{0x00, 0x80}, 1}, {{0}, 0}}},
    {SIGNED_LITTLE, 48, 8,
     {{{0, 0, 0, 0, 0, 0, 0xFF}, -1},
      {{0, 0, 0, 0, 0, 0, 0x80}, -128},
      {{0, 0, 0, 0, 0, 0, 0x7F}, 127},
      {{0, 0, 0, 0, 0, 0, 0xFB}, -5}}},
    {SIGNED_LITTLE, 0, 31,
     {{{0xFF, 0xFF, 0xFF, 0x7F}, -1},
      {{0x00, 0x00, 0x00, 0x40}, -1073741824},
      {{0xFF, 0xFF, 0xFF, 0x3F}, 1073741823},
      {{0x46, 0xFF, 0xFF, 0x7F}, -186}}},
    {SIGNED_BIG, 25, 31,
     {{{0xFF, 0xFF, 0xFF, 0xFE}, -1},
      {{0x80, 0x00, 0x00, 0x00}, -1073741824},
      {{0x7F, 0xFF, 0xFF, 0xFE}, 1073741823},
      {{0xFF, 0xFF, 0xFE, 0x8C}, -186}}},
    {SIGNED_LITTLE, 3, 32,
     {{{0xF8, 0xFF, 0xFF, 0xFF, 0x07}, -1},
      {{0x00, 0x00, 0x00, 0x00, 0x04}, -2147483647 - 1},
      {{0xF8, 0xFF, 0xFF, 0xFF, 0x03}, 2147483647},
      {{0x30, 0xFA, 0xFF, 0xFF, 0x07}, -186}}},
    {SIGNED_BIG, 36, 32,
     {{{0x0F, 0xFF, 0xFF, 0xFF, 0xF0}, -1},
      {{0x08, 0x00, 0x00, 0x00, 0x00}, -2147483647 - 1},
      {{0x07, 0xFF, 0xFF, 0xFF, 0xF0}, 2147483647},
      {{0x0F, 0xFF, 0xFF, 0xF4, 0x60}, -186}}},
};

/* A send that asks for this frame, which is confirmed. */
static void hands_over(birnenschloss_answer a, const uint8_t frame[8], int line)
{
    answered(a, 0, 1 << OUT, line);
    require(memcmp(lent.area, frame, 8) == 0, line, "another frame");
    CONFIRM();
}

#define HANDS_OVER(call, frame) hands_over(call, frame, __LINE__)

/* Sent, and received from its frame, also with every other bit set; from the same frame an unsigned
 * reading has the low bits. */
static void there_and_back(const struct reading *r, int n)
{
    int32_t value = r->of[n].value;
    uint32_t low = (uint32_t)value & 0xFFFFFFFF >> (32 - r->size);
    uint8_t full[8];
    birnenschloss_answer a;
    int i;
    for (i = 0; i < 8; i++)
        full[i] = (uint8_t)(r->of[n].frame[i] | ~r->of[0].frame[i]);
    fresh();
    place(SENT, r->order, r->start, r->size);
    place(RECEIVED, r->order, r->start, r->size);
    start();
    HANDS_OVER(SEND(SENT, value), r->of[n].frame);
    ANSWERS(RECEIVE(INSIDE), 0, (uint32_t)value);
    ANSWERS(INDICATE(lent.area), 0, 0);
    a = RECEIVE(RECEIVED);
    ANSWERS(a, 0, (uint32_t)value);
    REQUIRE(birnenschloss_signed(a.value) == value);
    ANSWERS(INDICATE(full), 0, 0);
    ANSWERS(RECEIVE(RECEIVED), 0, (uint32_t)value);
    ends_stay();
    place(RECEIVED, r->order - SIGNED_LITTLE, r->start, r->size);
    start();
    ANSWERS(INDICATE(full), 0, 0);
    ANSWERS(RECEIVE(RECEIVED), 0, low);
}

/* In 12 bits: what has no room in them is cut in the frame alone, and read back otherwise. */
static void cut(void)
{
    static const struct {
        int32_t sent, back;
        uint8_t frame[8];
    } of[] = {
        {2048, -2048, {0x00, 0x00, 0x00, 0x01}},
        {-2049, 2047, {0x00, 0xE0, 0xFF, 0x00}},
        {4095, -1, {0x00, 0xE0, 0xFF, 0x01}},
        {6844, -1348, {0x00, 0x80, 0x57, 0x01}}, /* hex 1ABC */
        {2147483647, -1, {0x00, 0xE0, 0xFF, 0x01}},
        {-2147483647 - 1, 0, {0}},
        {-2048, -2048, {0x00, 0x00, 0x00, 0x01}},
    };
    static const uint8_t pair[BIRNENSCHLOSS_PAIR_SIZE] = {SENT, 0x46, 0xFF, 0xFF, 0xFF};
    static const birnenschloss_pair record = {SENT, (uint32_t)-1348};
    static const uint8_t first[8] = {0x00, 0xC0, 0xE8, 0x01}; /* of hex F46 */
    uint8_t status = 0xC3;
    size_t i;
    fresh();
    place(SENT, SIGNED_LITTLE, 13, 12);
    place(RECEIVED, SIGNED_LITTLE, 13, 12);
    start();
    for (i = 0; i < sizeof of / sizeof of[0]; i++) {
        HANDS_OVER(SEND(SENT, of[i].sent), of[i].frame);
        ANSWERS(RECEIVE(INSIDE), 0, (uint32_t)of[i].sent);
        ANSWERS(INDICATE(lent.area), 0, 0);
        ANSWERS(RECEIVE(RECEIVED), 0, (uint32_t)of[i].back);
    }
    HANDS_OVER(birnenschloss_send_group(LENT, AREA, pair, sizeof pair, &status, 1), first);
    ANSWERS(RECEIVE(INSIDE), 0, (uint32_t)-186);
    HANDS_OVER(birnenschloss_send_records(LENT, AREA, &record, 1, &status, 1), of[3].frame);
    ANSWERS(RECEIVE(INSIDE), 0, (uint32_t)-1348);
    REQUIRE(status == 0);
    ends_stay();
}

/* Initial values and initialised ones: whole in a receive object, cut in the frame. */
static void initialised(void)
{
    static const uint8_t initial[8] = {0, 0, 0xF4, 0x60, 0, 0, 0, 7}; /* of hex F46 */
    static const uint8_t after[8] = {0, 0, 0xAB, 0xC0, 0, 0, 0, 8};   /* of hex 1ABC */
    static const uint8_t last[8] = {0, 0, 0xFF, 0xF0, 0, 0, 0, 9};
    fresh();
    place(SENT, SIGNED_BIG, 28, 12);
    put_four(OBJECT(SENT) + 12, (uint32_t)-186);
    place(RECEIVED, SIGNED_BIG, 28, 12);
    put_four(OBJECT(RECEIVED) + 12, (uint32_t)-3000);
    put_four(OBJECT(INSIDE) + 12, 0x80000000);
    start();
    ANSWERS(RECEIVE(RECEIVED), 0, (uint32_t)-3000);
    ANSWERS(RECEIVE(INSIDE), 0, 0x80000000);
    HANDS_OVER(SEND(OTHER, 7), initial);
    ANSWERS(birnenschloss_initialise(LENT, SENT, 6844), 0, 0);
    HANDS_OVER(SEND(OTHER, 8), after);
    ANSWERS(birnenschloss_initialise(LENT, SENT, -1), 0, 0);
    HANDS_OVER(SEND(OTHER, 9), last);
    ANSWERS(birnenschloss_initialise(LENT, RECEIVED, 6844), 0, 0);
    ANSWERS(RECEIVE(RECEIVED), 0, 6844);
    ANSWERS(birnenschloss_initialise(LENT, RECEIVED, -2049), 0, 0);
    ANSWERS(RECEIVE(RECEIVED), 0, (uint32_t)-2049);
    ANSWERS(INDICATE(initial), 0, 0);
    ANSWERS(RECEIVE(RECEIVED), 0, (uint32_t)-186);
    ends_stay();
}

/* What the check answers: 0, or 5 with the object that is wrong. A start then is refused too. */
static void checked(int right, uint32_t object)
{
    NOTE_BYTES();
    ANSWERS(birnenschloss_check(lent.table, TABLE_SIZE), right ? 0 : BIRNENSCHLOSS_E_TABLE,
            right ? 0 : 256 + object);
    SAME_BYTES();
    if (!right)
        REFUSES(birnenschloss_start(LENT), BIRNENSCHLOSS_E_TABLE);
}

/* Orders 0 to 3 are right, with no I-PDU 0 and 2 alone; the signed ones need room as the others. */
static void orders(void)
{
    int object, order;
    for (object = 0; object < OBJECTS; object++) {
        fresh();
        for (order = 0; order < 256; order++) {
            OBJECT(object)[5] = (uint8_t)order;
            checked(OBJECT(object)[1] == 255 ? order == 0 || order == 2 : order < 4,
                    (uint32_t)object);
        }
    }
    for (object = SENT; object <= RECEIVED; object++) {
        fresh();
        for (order = LITTLE; order <= SIGNED_BIG; order++) {
            int big = order % 2;
            place(object, order, 18, 22);
            checked(1, 0);
            place(object, order, 18, 23); /* big, 22 have room */
            checked(!big, (uint32_t)object);
            place(object, order, 33, 31);
            checked(1, 0);
            place(object, order, 33, 32); /* little, 31 have room */
            checked(big, (uint32_t)object);
        }
    }
}

static uint8_t sheet[BIRNENSCHLOSS_SHEET_SIZE], text[BIRNENSCHLOSS_SHEET_TEXT_SIZE];
#define LENT_SHEET sheet, sizeof sheet, text, sizeof text

static void drained(const char *lines, int line)
{
    birnenschloss_answer a;
    memset(text, '#', sizeof text);
    a = birnenschloss_sheet_drain(LENT, LENT_SHEET);
    require(memcmp(text, lines, strlen(lines)) == 0, line, "other lines");
    require(text[strlen(lines)] == '#', line, "the text behind the lines changed");
    answered(a, 0, (uint32_t)strlen(lines), line);
}

#define DRAIN(lines) drained(lines, __LINE__)

/* A reading of 12 bits arrives, for the signed queue and the plain one. */
static void arrive(int32_t value)
{
    uint8_t frame[8] = {0xEE, 0xEE, 0, 0x0E, 0xEE, 0xEE, 0xEE, 0xEE};
    frame[2] = (uint8_t)((uint32_t)value >> 4);
    frame[3] |= (uint8_t)((uint32_t)value << 4);
    ANSWERS(INDICATE(frame), 0, 0);
}

/* A sheet orders and prints by the order of the object that it follows, not of the sender. */
static void journey(void)
{
    static const uint32_t followed[] = {QUEUE, DEEP, PLAIN}, words[] = {WORDS};
    static const int32_t lost[] = {-10, -20, -30, -40, -50};
    int i;
    fresh();
    start();
    ANSWERS(birnenschloss_sheet_begin(LENT, sheet, sizeof sheet, followed, 3), 0, 0);
    DRAIN("4 0 - - - - 0 0\n7 0 - - - - 0 0\n5 0 - - - - 0 0\n");
    arrive(-186);
    arrive(5);
    arrive(-2048);
    arrive(2047);
    ANSWERS(SEND(LOOSE, -2147483647 - 1), 0, 0);
    ANSWERS(SEND(LOOSE, 2147483647), 0, 0);
    ANSWERS(SEND(LOOSE, 0), 0, 0);
    DRAIN("4 4 -186 2047 -2048 2047 0 0\n7 3 -2147483648 0 -2147483648 2147483647 0 0\n"
          "5 4 3910 2047 5 3910 0 0\n");
    arrive(-1);
    DRAIN("4 5 -186 -1 -2048 2047 0 0\n7 3 -2147483648 0 -2147483648 2147483647 0 0\n"
          "5 5 3910 4095 5 4095 0 0\n");
    ANSWERS(birnenschloss_sheet_begin(LENT, sheet, sizeof sheet, followed, 3), 0, 0);
    arrive(-5);
    arrive(-3);
    arrive(-4);
    ANSWERS(SEND(LOOSE, 7), 0, 0);
    ANSWERS(SEND(LOOSE, -1), 0, 0);
    ANSWERS(SEND(LOOSE, 6), 0, 0);
    DRAIN("4 3 -5 -4 -5 -3 0 0\n7 3 7 6 -1 7 0 0\n5 3 4091 4092 4091 4093 0 0\n");
    for (i = 0; i < 5; i++)
        arrive(lost[i]); /* the last finds the queues full */
    ANSWERS(SEND(LOOSE, 5000), 0, 0);
    DRAIN("4 7 -5 -40 -40 -3 1 0\n7 4 7 5000 -1 5000 0 0\n5 7 4091 4056 4056 4093 1 0\n");
    ANSWERS(birnenschloss_sheet_begin(LENT, sheet, sizeof sheet, words, 1), 0, 0);
    ANSWERS(SEND(SENT, -1), 0, 1 << OUT);
    ANSWERS(SEND(SENT, 5), 0, 0); /* waits for the confirm */
    DRAIN("8 2 4294967295 5 5 4294967295 0 0\n");
    ends_stay();
}

/* The longest text: sixteen lines of 85 bytes. */
static void longest(void)
{
    enum { SIZE = 16 + 32 * 128, LINE = 85, MOST = BIRNENSCHLOSS_MOST_FOLLOWED };
    static uint8_t table[SIZE] = {0, 0, 128, 0, 16, 0, 16, 0, SIZE % 256, SIZE / 256};
    static const uint8_t queued[8] = {2, 255, 255, 0, 32, SIGNED_LITTLE, 0, 1};
    uint32_t followed[MOST], i;
    char line[LINE + 1];
    for (i = 0; i < 128; i++)
        memcpy(table + 16 + 32 * i, queued, 8);
    for (i = 0; i < MOST; i++)
        followed[i] = 112 + i;
    memset(lent.memory, 0xA5, MEMORY_LENT);
    memset(text, '#', sizeof text);
#define LENT_HERE table, SIZE, lent.memory, MEMORY_LENT
    ANSWERS(birnenschloss_start(LENT_HERE), 0, 0);
    ANSWERS(birnenschloss_sheet_begin(LENT_HERE, sheet, sizeof sheet, followed, MOST), 0, 0);
    for (i = 8; i < BIRNENSCHLOSS_SHEET_SIZE; i += 4)
        if (i % 32 != 8) /* the object's number; the four values from 16 on, the counts elsewhere */
            put_four(sheet + i, i % 32 >= 16 ? 0x80000000 : 4294967295u);
    ANSWERS(birnenschloss_sheet_drain(LENT_HERE, LENT_SHEET), 0, MOST * LINE);
    for (i = 0; i < MOST; i++) {
        sprintf(line, "%u 4294967295 -2147483648 -2147483648 -2147483648 -2147483648 "
                      "4294967295 4294967295\n", (unsigned)followed[i]);
        REQUIRE(memcmp(text + LINE * i, line, LINE) == 0);
    }
    REQUIRE(text[MOST * LINE] == '#');
}

int main(void)
{
    size_t i;
    int n;
    corners();
    for (i = 0; i < sizeof readings / sizeof readings[0]; i++)
        for (n = 0; n < 4; n++)
            there_and_back(&readings[i], n);
    cut();
    initialised();
    orders();
    journey();
    longest();
    printf(TEST ": %u answers as they should be\n", answers);
    return 0;
}
