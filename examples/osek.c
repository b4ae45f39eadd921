/*
 * A door and a case reading by OSEK COM's names: one I-PDU goes out when the door moves, and set
 * points come in.
 *
 *   cc -std=c99 -Iinclude examples/osek.c target/staticlib/libexports.a -o osek
 */
#include <stdio.h>
#include <stdint.h>
#include <string.h>

enum { DOORS, CONTROL };              /* I-PDUs */
enum { Door, CaseReading, SetPoint }; /* messages */

static const uint8_t van_table[] = {
    /* 2 I-PDUs, 3 message objects, records at 16 and 48, 144 bytes in all */
    2, 0, 3, 0, 16, 0, 48, 0, 144, 0, 0, 0, 0, 0, 0, 0,
    /* doors: sent, 2 bytes, direct, minimum delay 2, deadline 5 */
    1, 2, 0, 0, 0, 0, 0, 0, 2, 0, 5, 0, 0, 0, 0, 0,
    /* control: received, 2 bytes, deadline 3 */
    2, 2, 0, 0, 0, 0, 0, 0, 0, 0, 3, 0, 0, 0, 0, 0,
    /* Door: sent in doors, bit 0, 1 bit, little, triggered, filter 5: differs from the old one */
    1, 0, 255, 0, 1, 0, 0, 0, 5, 0, 0, 0, 0, 0, 0, 0,
    0, 0, 0, 0, 0, 0, 0, 0, 0, 0, 0, 0, 0, 0, 0, 0,
    /* CaseReading: sent in doors, bit 4, 12 bits, little, pending, every value passes */
    1, 0, 255, 4, 12, 0, 1, 0, 0, 0, 0, 0, 0, 0, 0, 0,
    0, 0, 0, 0, 0, 0, 0, 0, 0, 0, 0, 0, 0, 0, 0, 0,
    /* SetPoint: received in control, bit 0, 16 bits, little, a queue of 2 */
    2, 1, 255, 0, 16, 0, 0, 2, 0, 0, 0, 0, 0, 0, 0, 0,
    0, 0, 0, 0, 0, 0, 0, 0, 0, 0, 0, 0, 0, 0, 0, 0,
};

#define BIRNENSCHLOSS_OSEK_CONTROLLER
#define BIRNENSCHLOSS_OSEK_TABLE van_table
#define BIRNENSCHLOSS_OSEK_TABLE_LENGTH sizeof van_table
#define BIRNENSCHLOSS_OSEK_EXTENSION
#include "birnenschloss_osek.h"

#define ReadFlag_DoorSent() birnenschloss_osek_read_flag(Door, BIRNENSCHLOSS_MARK_SENT)
#define ReadFlag_DoorFailed() birnenschloss_osek_read_flag(Door, BIRNENSCHLOSS_MARK_SEND_ERROR)
#define ResetFlag_DoorFailed() birnenschloss_osek_reset_flag(Door, BIRNENSCHLOSS_MARK_SEND_ERROR)
#define ReadFlag_NoSetPoint() \
    birnenschloss_osek_read_flag(SetPoint, BIRNENSCHLOSS_MARK_RECEIVE_ERROR)

void birnenschloss_osek_transmit(uint32_t ipdu, const uint8_t *bytes, size_t length)
{
    size_t i;
    printf("I-PDU %u goes out:", (unsigned)ipdu);
    for (i = 0; i < length; i++)
        printf(" %02X", (unsigned)bytes[i]);
    printf("\n");
}

StatusType StartCOMExtension(void)
{
    uint32_t reading = 215;
    return InitMessage(CaseReading, &reading);
}

static void say(const char *service, StatusType status)
{
    static const char *const names[] = {
        "E_OK", "E_COM_ID", "E_COM_LENGTH", "E_COM_LIMIT", "E_COM_NOMSG", "E_COM_SYS_TABLE",
        "E_COM_SYS_MEMORY", "E_COM_SYS_STOPPED", "E_COM_SYS_NOT_REQUESTED",
    };
    printf("%s: %s\n", service, names[status]);
}

static void send_door(uint32_t open)
{
    say(open ? "SendMessage Door 1" : "SendMessage Door 0", SendMessage(Door, &open));
}

static void receive_set_point(void)
{
    uint32_t value = 0;
    StatusType status = ReceiveMessage(SetPoint, &value);
    say("ReceiveMessage SetPoint", status);
    if (status == E_OK || status == E_COM_LIMIT)
        printf("SetPoint is %u\n", (unsigned)value);
}

static void ticks(int count)
{
    while (count-- > 0)
        say("tick", birnenschloss_osek_tick());
}

int main(void)
{
    static const uint8_t set_points[3][2] = {{0xF4, 0x01}, {0xFE, 0x01}, {0x08, 0x02}};
    int i;
    /* a start needs no zeroed memory */
    memset(birnenschloss_osek.memory, 0xA5, sizeof birnenschloss_osek.memory);
    say("StartPeriodic before StartCOM", StartPeriodic());
    say("StartCOM", StartCOM(1));
    printf("mode %u\n", (unsigned)GetCOMApplicationMode());

    send_door(0); /* as the initial value: dropped */
    send_door(1);
    say("confirm, failed", birnenschloss_osek_confirm(DOORS, 0));
    printf("DoorFailed %d, DoorSent %d\n", ReadFlag_DoorFailed(), ReadFlag_DoorSent());
    ResetFlag_DoorFailed();
    send_door(0);
    say("confirm", birnenschloss_osek_confirm(DOORS, 1));
    printf("DoorFailed %d, DoorSent %d\n", ReadFlag_DoorFailed(), ReadFlag_DoorSent());
    send_door(1); /* waits for the minimum delay */
    ticks(2);

    for (i = 0; i < 3; i++)
        say("indication", birnenschloss_osek_indication(CONTROL, set_points[i], 2));
    say("GetMessageStatus SetPoint", GetMessageStatus(SetPoint));
    for (i = 0; i < 3; i++)
        receive_set_point();
    ticks(3);
    printf("NoSetPoint %d\n", ReadFlag_NoSetPoint());

    say("GetMessageStatus Door", GetMessageStatus(Door));
    say("StopCOM", StopCOM(COM_SHUTDOWN_IMMEDIATE));
    send_door(0);
    return 0;
}
