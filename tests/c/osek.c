/*
 * The services of birnenschloss_osek.h, from a file that does not define the controller. What they
 * answer is worked out by hand from OSEK COM 3.0.3 and the differences that the header names. Ends
 * with 1 at the first that differs.
 */
#include <stdio.h>
#include <stdlib.h>
#include <string.h>

#include "birnenschloss_osek.h"
#include "controller.h"

#define ARRIVED BIRNENSCHLOSS_MARK_ARRIVED
#define SENT BIRNENSCHLOSS_MARK_SENT
#define RECEIVE_ERROR BIRNENSCHLOSS_MARK_RECEIVE_ERROR
#define SEND_ERROR BIRNENSCHLOSS_MARK_SEND_ERROR

static unsigned checked;
static StatusType extension_answers;

static void require(int holds, int line, const char *what)
{
    checked++;
    if (!holds) {
        printf("osek.c:%d: does not hold: %s\n", line, what);
        exit(1);
    }
}

#define REQUIRE(condition) require(condition, __LINE__, #condition)

StatusType StartCOMExtension(void)
{
    uint32_t state = 0x5A;
    if (InitMessage(STATE, &state) != E_OK || StartPeriodic() != E_OK)
        return 99;
    return extension_answers;
}

static StatusType send(MessageIdentifier message, uint32_t value)
{
    return SendMessage(message, &value);
}

/* Whether a message is received with this status and value. */
static int receives(MessageIdentifier message, StatusType status, uint32_t value)
{
    uint32_t got = 12345;
    return ReceiveMessage(message, &got) == status && got == value;
}

/* Whether a frame has gone out since the last look, and how. */
static int went_out(uint32_t ipdu, const void *bytes, size_t length)
{
    int well = transmitted.count == 1 && transmitted.ipdu == ipdu &&
               transmitted.length == length && memcmp(transmitted.bytes, bytes, length) == 0;
    transmitted.count = 0;
    return well;
}

/* Whether just these flags of a message are set. */
static int flags_are(MessageIdentifier message, uint32_t marks)
{
    uint32_t mark, set = 0;
    for (mark = 1; mark <= 8; mark *= 2)
        if (birnenschloss_osek_read_flag(message, mark) == COM_TRUE)
            set += mark;
    return set == marks;
}

/* All services but StartCOM and GetCOMApplicationMode answer this. */
static void all_answer(StatusType status)
{
    uint32_t value = 77;
    REQUIRE(StopCOM(COM_SHUTDOWN_IMMEDIATE) == status);
    REQUIRE(StartPeriodic() == status && StopPeriodic() == status);
    REQUIRE(InitMessage(SPEED, &value) == status && SendMessage(SPEED, &value) == status);
    REQUIRE(ReceiveMessage(ECHO, &value) == status && value == 77);
    REQUIRE(GetMessageStatus(COMMANDS) == status);
    REQUIRE(birnenschloss_osek_tick() == status);
    REQUIRE(birnenschloss_osek_indication(IN, transmitted.bytes, 2) == status);
    REQUIRE(birnenschloss_osek_indication_error(IN) == status);
    REQUIRE(birnenschloss_osek_confirm(OUT, 1) == status);
    REQUIRE(flags_are(SPEED, 0) && flags_are(ECHO, 0) && flags_are(NO_MESSAGE, 0));
    birnenschloss_osek_reset_flag(SPEED, SENT);
    birnenschloss_osek_reset_flag(NO_MESSAGE, SENT);
    REQUIRE(transmitted.count == 0);
}

static void start(void)
{
    REQUIRE(GetCOMApplicationMode() == 0);
    all_answer(E_COM_SYS_MEMORY); /* over static storage as C has it */
    fill_controller(0xA5);
    all_answer(E_COM_SYS_MEMORY);
    extension_answers = 40;
    REQUIRE(StartCOM(7) == 40 && GetCOMApplicationMode() == 7);
    REQUIRE(GetMessageStatus(COMMANDS) == E_COM_NOMSG); /* started all the same */
    REQUIRE(flags_are(SPEED, 0) && flags_are(ECHO, 0) && flags_are(STATE, 0));
    extension_answers = E_OK;
    REQUIRE(StartCOM(9) == E_OK && GetCOMApplicationMode() == 9);
    REQUIRE(StopCOM(COM_SHUTDOWN_IMMEDIATE + 1) == E_COM_ID);
}

static void period(void)
{
    int i;
    REQUIRE(birnenschloss_osek_tick() == E_OK);
    REQUIRE(went_out(CYCLIC, "\0\0\0\0\0\0\0\x5A", 8));
    REQUIRE(send(STATE, 0x15B) == E_OK && transmitted.count == 0);
    for (i = 0; i < 3; i++)
        REQUIRE(birnenschloss_osek_tick() == E_OK && transmitted.count == 0);
    REQUIRE(birnenschloss_osek_tick() == E_OK && went_out(CYCLIC, "\0\0\0\0\0\0\0\x5B", 8));
    REQUIRE(birnenschloss_osek_confirm(CYCLIC, 1) == E_OK && flags_are(STATE, SENT));
    REQUIRE(StopPeriodic() == E_OK);
    for (i = 0; i < 9; i++)
        REQUIRE(birnenschloss_osek_tick() == E_OK && transmitted.count == 0);
}

static void sending(void)
{
    REQUIRE(send(SPEED, 0) == E_OK && transmitted.count == 0); /* dropped */
    REQUIRE(flags_are(ECHO, ARRIVED) && receives(ECHO, E_OK, 0) && flags_are(ECHO, 0));
    REQUIRE(send(SPEED, 0x81234) == E_OK && went_out(OUT, "\x34\x12\0", 3));
    REQUIRE(receives(ECHO, E_OK, 0x81234) && flags_are(SPEED, 0));
    REQUIRE(birnenschloss_osek_confirm(OUT, 0) == E_OK && flags_are(SPEED, SEND_ERROR));
    REQUIRE(birnenschloss_osek_confirm(OUT, 1) == E_COM_SYS_NOT_REQUESTED);
    REQUIRE(send(SPEED, 5) == E_OK && went_out(OUT, "\5\0\0", 3) && flags_are(SPEED, 0));
    REQUIRE(send(SPEED, 6) == E_OK && transmitted.count == 0); /* waits for the confirmation */
    REQUIRE(birnenschloss_osek_confirm(OUT, 0) == E_OK);
    REQUIRE(birnenschloss_osek_tick() == E_OK && went_out(OUT, "\6\0\0", 3));
    REQUIRE(birnenschloss_osek_confirm(OUT, 256) == E_OK && flags_are(SPEED, SENT + SEND_ERROR));
    birnenschloss_osek_reset_flag(SPEED, SENT);
    REQUIRE(flags_are(SPEED, SEND_ERROR));
    transmitted.confirm_at_once = 1;
    REQUIRE(send(SPEED, 7) == E_OK && went_out(OUT, "\7\0\0", 3) && flags_are(SPEED, SENT));
    transmitted.confirm_at_once = 0;
}

static void receiving(void)
{
    uint8_t bytes[2] = {1, 2};
    REQUIRE(receives(LAST, E_OK, 33));
    REQUIRE(birnenschloss_osek_indication(IN, bytes, 1) == E_COM_LENGTH);
    for (; bytes[0] < 4; bytes[0]++)
        REQUIRE(birnenschloss_osek_indication(IN, bytes, 2) == E_OK);
    REQUIRE(flags_are(LAST, ARRIVED) && receives(LAST, E_OK, 2) && flags_are(LAST, 0));
    REQUIRE(GetMessageStatus(COMMANDS) == E_COM_LIMIT && flags_are(COMMANDS, ARRIVED));
    REQUIRE(receives(COMMANDS, E_COM_LIMIT, 0x201) && flags_are(COMMANDS, 0));
    REQUIRE(GetMessageStatus(COMMANDS) == E_OK && receives(COMMANDS, E_OK, 0x202));
    REQUIRE(birnenschloss_osek_indication_error(IN) == E_OK);
    REQUIRE(flags_are(LAST, RECEIVE_ERROR) && flags_are(COMMANDS, RECEIVE_ERROR));
    REQUIRE(receives(COMMANDS, E_COM_NOMSG, 12345) && flags_are(COMMANDS, 0));
    REQUIRE(flags_are(LAST, RECEIVE_ERROR));
}

/* A DataRef to an int32_t, with a cast, and one to a uint32_t. */
static void signed_messages(void)
{
    uint8_t bytes[2] = {0xFB, 0};
    int32_t degrees = 12345;
    REQUIRE(birnenschloss_osek_indication(IN, bytes, 2) == E_OK);
    REQUIRE(ReceiveMessage(DEGREES, (ApplicationDataRef)&degrees) == E_OK && degrees == -5);
    REQUIRE(receives(DEGREES, E_OK, 4294967291u) && birnenschloss_signed(4294967291u) == -5);
    REQUIRE(SendMessage(WANTED, (ApplicationDataRef)&degrees) == E_OK && transmitted.count == 0);
    REQUIRE(send(SPEED, 8) == E_OK && went_out(OUT, "\x08\0\xFB", 3));
    REQUIRE(birnenschloss_osek_confirm(OUT, 1) == E_OK && flags_are(WANTED, SENT));
    degrees = -300; /* not cut: no I-PDU lies between */
    REQUIRE(InitMessage(DEGREES, (ApplicationDataRef)&degrees) == E_OK);
    REQUIRE(receives(DEGREES, E_OK, 4294966996u));
}

static void identifiers(void)
{
    uint32_t value = 1;
    REQUIRE(send(COMMANDS, 1) == E_COM_ID && send(NO_MESSAGE, 1) == E_COM_ID);
    REQUIRE(receives(SPEED, E_COM_ID, 12345) && flags_are(SPEED, SENT)); /* its flags stay */
    REQUIRE(GetMessageStatus(LAST) == E_COM_ID && InitMessage(NO_MESSAGE, &value) == E_COM_ID);
    REQUIRE(birnenschloss_osek_indication_error(OUT) == E_COM_ID);
    REQUIRE(birnenschloss_osek_confirm(IN, 1) == E_COM_ID);
    REQUIRE(birnenschloss_osek_indication(NO_IPDU, transmitted.bytes, 2) == E_COM_ID);
}

static void stop(void)
{
    REQUIRE(StopCOM(COM_SHUTDOWN_IMMEDIATE) == E_OK && GetCOMApplicationMode() == 9);
    all_answer(E_COM_SYS_STOPPED);
    REQUIRE(StartCOM(3) == E_OK && GetCOMApplicationMode() == 3);
    REQUIRE(flags_are(SPEED, 0) && flags_are(LAST, 0) && receives(LAST, E_OK, 33));
    REQUIRE(birnenschloss_osek_tick() == E_OK && went_out(CYCLIC, "\0\0\0\0\0\0\0\x5A", 8));
}

int main(void)
{
    start();
    period();
    sending();
    receiving();
    signed_messages();
    identifiers();
    stop();
    printf("osek.c: %u statements hold\n", checked);
    return 0;
}
