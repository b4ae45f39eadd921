/*
 * The journey sheet of birnenschloss.h, called from C; lines and answers are worked out by hand
 * from document 02 and docs/SHEET.md. Behind all that is lent stand bytes that must stay.
 */
#define TEST "sheets.c"
#include "sheets.h"

/* The bytes that a sheet has when it has printed these lines: `-` is 0, and so is all behind. */
static void sheet_of(const char *lines, uint8_t *sheet)
{
    uint32_t count = 0, number = 0;
    uint8_t *at = sheet + 8;
    memset(sheet, 0, SHEET_SIZE);
    for (; *lines; lines++) {
        if (*lines == ' ' || *lines == '\n') {
            put_four(at, number);
            at += 4;
            number = 0;
            count += *lines == '\n';
        } else if (*lines != '-') {
            number = 10 * number + (uint32_t)(*lines - '0');
        }
    }
    put_four(sheet, 1);
    put_four(sheet + 4, count);
}

/* A begin that is done: it writes the 520 bytes that the lines of nothing drained have. */
static void begun(const uint32_t *list, size_t count, const char *lines, int line)
{
    memcpy(lent.objects, list, count * sizeof list[0]);
    NOTE_BYTES();
    answered(BEGIN_LENT(count), 0, 0, line);
    sheet_of(lines, before.sheet);
    require(memcmp(&before, &lent, sizeof lent) == 0, line, "other bytes of a new sheet");
}

#define BEGIN(list, lines) begun(list, sizeof list / sizeof list[0], lines, __LINE__)

/* What single calls leave of the memory: each object received until 4, its marks read, and cleared
 * where they hold receive error. */
static void received_singly(uint8_t *memory)
{
    uint8_t *row = lent.sheet + 8;
    birnenschloss_answer a;
    uint32_t i, k;
    for (i = 0; i < lent.sheet[4]; i++, row += 32) {
        uint32_t object = row[0]; /* below 256 */
        a.number = E_OK;
        for (k = 0; k <= 16 && a.number != E_COM_NOMSG; k++) /* no queue has more than 16 values */
            a = birnenschloss_receive(lent.table, TABLE_SIZE, memory, MEMORY_LENT, object);
        if (birnenschloss_marks(lent.table, TABLE_SIZE, memory, MEMORY_LENT, object).value &
            BIRNENSCHLOSS_MARK_RECEIVE_ERROR)
            birnenschloss_clear_marks(lent.table, TABLE_SIZE, memory, MEMORY_LENT, object);
    }
}

/* A drain that is done: it prints these lines. Sheet and memory are as they then must be, and
 * nothing else is written. */
static void drained(const char *lines, int line)
{
    char what[TEXT_SIZE + 32] = "it printed:\n";
    size_t length = strlen(lines), start = strlen(what);
    birnenschloss_answer a;
    memset(lent.text, FILLING, sizeof lent.text);
    NOTE_BYTES();
    a = DRAIN_LENT();
    memcpy(what + start, lent.text, TEXT_SIZE);
    what[strcspn(what, "#")] = 0; /* the filling */
    require(memcmp(lent.text, lines, length) == 0, line, what);
    answered(a, 0, (uint32_t)length, line);
    memcpy(before.text, lines, length);
    sheet_of(lines, before.sheet);
    require(memcmp(before.sheet, lent.sheet, sizeof lent.sheet) == 0, line, "another sheet");
    received_singly(before.memory);
    require(memcmp(&before, &lent, sizeof lent) == 0, line, "other bytes changed");
}

#define DRAIN(lines) drained(lines, __LINE__)

static const uint32_t two[] = {CLIMATE, INSIDE}, timed[] = {TIMED, CLIMATE}, one[] = {CLIMATE};
#define NONE_OF_TWO "2 0 - - - - 0 0\n1 0 - - - - 0 0\n"

/* The first value as the greatest and as the least, 0 and 4294967295; the numbers go on from drain
 * to drain, and through a start; a begin forgets them. */
static void values(void)
{
    fresh();
    BEGIN(two, NONE_OF_TWO);
    DRAIN(NONE_OF_TWO);
    ARRIVE(5);
    ARRIVE(0);
    DRAIN("2 2 5 0 0 5 0 0\n1 0 - - - - 0 0\n");
    ARRIVE(4294967295u);
    SEND(7);
    SEND(9);
    SEND(8);
    DRAIN("2 3 5 4294967295 0 4294967295 0 0\n1 3 7 8 7 9 0 0\n");
    DRAIN("2 3 5 4294967295 0 4294967295 0 0\n1 3 7 8 7 9 0 0\n");
    SEND(6);
    SEND(2147483648u); /* the highest bit is no sign */
    DRAIN("2 3 5 4294967295 0 4294967295 0 0\n1 5 7 2147483648 6 2147483648 0 0\n");
    SEND(1);
    ANSWERS(birnenschloss_stop(LENT), 0, 0);
    REFUSES(DRAIN_LENT(), BIRNENSCHLOSS_E_STOPPED);
    ANSWERS(birnenschloss_start(LENT), 0, 0); /* 1 is lost with its queue */
    SEND(3);
    DRAIN("2 3 5 4294967295 0 4294967295 0 0\n1 6 7 3 3 2147483648 0 0\n");
    BEGIN(two, NONE_OF_TWO);
    SEND(4);
    ARRIVE(4294967295u);
    DRAIN("2 1 4294967295 4294967295 4294967295 4294967295 0 0\n1 1 4 4 4 4 0 0\n");
}

/* A queue of three: what is lost is counted once, at the receive that reports it. */
static void overflows(void)
{
    uint32_t i;
    fresh();
    BEGIN(one, "2 0 - - - - 0 0\n");
    for (i = 10; i <= 50; i += 10)
        ARRIVE(i); /* 40 and 50 are lost */
    DRAIN("2 3 10 30 10 30 1 0\n");
    ARRIVE(60);
    DRAIN("2 4 10 60 10 60 1 0\n");
    for (i = 1; i <= 4; i++)
        ARRIVE(i);
    DRAIN("2 7 10 3 1 60 2 0\n");
    for (i = 5; i <= 8; i++)
        ARRIVE(i);
    ANSWERS(birnenschloss_receive(LENT, CLIMATE), E_COM_LIMIT, 5); /* the sheet does not see it */
    DRAIN("2 9 10 7 1 60 2 0\n");
    for (i = 1; i <= 16; i++)
        SEND(i);
    BEGIN(two, NONE_OF_TWO);
    DRAIN("2 0 - - - - 0 0\n1 16 1 16 1 16 0 0\n");
}

/* Receive errors by a deadline and by indications that are not good; arrived alone stays. */
static void errors(void)
{
    fresh();
    BEGIN(timed, "4 0 - - - - 0 0\n2 0 - - - - 0 0\n");
    TICK();
    TICK();
    DRAIN("4 0 - - - - 0 0\n2 0 - - - - 0 0\n");
    TICK();
    MARKS(TIMED, BIRNENSCHLOSS_MARK_RECEIVE_ERROR);
    DRAIN("4 0 - - - - 0 1\n2 0 - - - - 0 0\n");
    MARKS(TIMED, 0);
    DRAIN("4 0 - - - - 0 1\n2 0 - - - - 0 0\n");
    FAIL(CASES);
    FAIL(CASES); /* two errors are one mark */
    DRAIN("4 0 - - - - 0 1\n2 0 - - - - 0 1\n");
    MARKS(CLIMATE, 0);
    MARKS(LAST, BIRNENSCHLOSS_MARK_RECEIVE_ERROR); /* of the same I-PDU, and no sheet's */
    ARRIVE(17);
    DRAIN("4 0 - - - - 0 1\n2 1 17 17 17 17 0 1\n");
    MARKS(CLIMATE, BIRNENSCHLOSS_MARK_ARRIVED);
    FAIL(CASES);
    ARRIVE(16);
    MARKS(CLIMATE, BIRNENSCHLOSS_MARK_ARRIVED + BIRNENSCHLOSS_MARK_RECEIVE_ERROR);
    DRAIN("4 0 - - - - 0 1\n2 2 17 16 16 17 0 2\n");
    MARKS(CLIMATE, 0);
    FAIL(CASES);
    ANSWERS(birnenschloss_clear_marks(LENT, CLIMATE), 0, 0); /* the sheet does not see it */
    DRAIN("4 0 - - - - 0 1\n2 2 17 16 16 17 0 2\n");
}

/* Two sheets of one object: each keeps what it got. No object: no line. */
static void several(void)
{
    static const uint32_t none[1] = {CLIMATE};
    uint8_t other[SHEET_LENT + 4];
    fresh();
    BEGIN(one, "2 0 - - - - 0 0\n");
    memcpy(other, lent.sheet, sizeof other);
    ARRIVE(1);
    DRAIN("2 1 1 1 1 1 0 0\n");
    ARRIVE(2);
    FAIL(CASES);
    ANSWERS(birnenschloss_sheet_drain(LENT, other, SHEET_LENT, LENT_TEXT), 0, 16);
    REQUIRE(memcmp(lent.text, "2 1 2 2 2 2 0 1\n", 16) == 0);
    DRAIN("2 1 1 1 1 1 0 0\n");
    begun(none, 0, "", __LINE__);
    ARRIVE(3);
    DRAIN("");
    ANSWERS(birnenschloss_receive(LENT, CLIMATE), 0, 3);
}

/* Counts stop at 4294967295, and values go on. */
static void ends(void)
{
    int i;
    fresh();
    BEGIN(two, NONE_OF_TWO);
    for (i = 0; i < 3; i++) { /* drained, overflows, errors */
        static const uint8_t at[] = {4, 24, 28};
        put_four(lent.sheet + 8 + at[i], 4294967293u);
    }
    put_four(lent.sheet + 8 + 16, 100); /* the least */
    for (i = 0; i < 4; i++)
        ARRIVE(101);
    FAIL(CASES);
    DRAIN("2 4294967295 0 101 100 101 4294967294 4294967294\n1 0 - - - - 0 0\n");
    for (i = 0; i < 4; i++)
        ARRIVE(99);
    FAIL(CASES);
    DRAIN("2 4294967295 0 99 99 101 4294967295 4294967295\n1 0 - - - - 0 0\n");
    for (i = 0; i < 4; i++)
        ARRIVE(102);
    FAIL(CASES);
    DRAIN("2 4294967295 0 102 99 102 4294967295 4294967295\n1 0 - - - - 0 0\n");
    MARKS(CLIMATE, 0);
}

/* 128 objects: sixteen lines of numbers with three and ten digits are the longest text. */
static void longest(void)
{
    enum { SIZE = 16 + 32 * 128, LINE = 3 + 7 * 11 + 1 };
    static const char number[] = " 4294967295";
    static uint8_t table[SIZE] = {0, 0, 128, 0, 16, 0, 16, 0, SIZE % 256, SIZE / 256};
    int i, k;
    fresh();
    for (i = 0; i < 128; i++)
        memcpy(table + 16 + 32 * i, objects[MANY], 8);
    for (i = 0; i < MOST; i++)
        lent.objects[i] = (uint32_t)(127 - i);
    ANSWERS(birnenschloss_start(table, SIZE, lent.memory, MEMORY_LENT), 0, 0);
    ANSWERS(birnenschloss_sheet_begin(table, SIZE, lent.memory, MEMORY_LENT, LENT_SHEET,
                                      lent.objects, MOST),
            0, 0);
    for (i = 8; i < SHEET_SIZE; i += 4)
        if (i % 32 != 8)
            put_four(lent.sheet + i, 4294967295u);
    memset(lent.text, FILLING, sizeof lent.text);
    ANSWERS(birnenschloss_sheet_drain(table, SIZE, lent.memory, MEMORY_LENT, LENT_SHEET, lent.text,
                                      TEXT_SIZE),
            0, MOST * LINE);
    for (i = 0; i < MOST; i++) {
        const uint8_t *line = lent.text + LINE * i;
        REQUIRE(line[0] == '1' && line[1] == '0' + (127 - i) / 10 % 10);
        REQUIRE(line[2] == '0' + (127 - i) % 10 && line[LINE - 1] == '\n');
        for (k = 0; k < 7; k++)
            REQUIRE(memcmp(line + 3 + 11 * k, number, 11) == 0);
    }
    for (i = MOST * LINE; i < (int)sizeof lent.text; i++)
        REQUIRE(lent.text[i] == FILLING);
}

/* Sheets and texts of 520 and 1536 bytes are enough, at any address; one byte less is refused. */
static void lengths(void)
{
    static const size_t sheets[] = {0, 1, 8, 40, SHEET_SIZE - 1};
    static const size_t texts[] = {0, 1, 16, 1296, TEXT_SIZE - 1};
    int i;
    fresh();
    lent.objects[0] = CLIMATE;
    for (i = 0; i < 5; i++)
        REFUSES(begin(TABLE_SIZE, MEMORY_LENT, sheets[i], 1), BIRNENSCHLOSS_E_MEMORY);
    BEGIN(one, "2 0 - - - - 0 0\n");
    ARRIVE(1);
    for (i = 0; i < 5; i++) {
        REFUSES(drain(TABLE_SIZE, MEMORY_LENT, sheets[i], TEXT_LENT), BIRNENSCHLOSS_E_MEMORY);
        REFUSES(drain(TABLE_SIZE, MEMORY_LENT, SHEET_LENT, texts[i]), BIRNENSCHLOSS_E_MEMORY);
    }
    for (i = 0; i < 4; i++) {
        uint8_t *sheet = lent.sheet + i, *text = lent.text + i;
        ANSWERS(birnenschloss_sheet_begin(LENT, sheet, SHEET_SIZE, one, 1), 0, 0);
        ANSWERS(birnenschloss_sheet_drain(LENT, sheet, SHEET_SIZE, text, TEXT_SIZE), 0, 16);
        REQUIRE(memcmp(text, i ? "2 1 2 2 2 2 0 0\n" : "2 1 1 1 1 1 0 0\n", 16) == 0);
        ARRIVE(2);
    }
    REQUIRE(lent.sheet[SHEET_SIZE + 3] == 0xEE);
}

int main(void)
{
    values();
    overflows();
    errors();
    several();
    ends();
    longest();
    lengths();
    printf(TEST ": %u answers as they should be\n", answers);
    return 0;
}
