/*
 * OSEK COM 3.0.3's services by their names, over birnenschloss.h, for one controller. Any file may
 * include this header. One file defines the controller: before the include it has
 *
 *   #define BIRNENSCHLOSS_OSEK_CONTROLLER
 *   #define BIRNENSCHLOSS_OSEK_TABLE my_table                 an array of uint8_t (docs/TABLE.md)
 *   #define BIRNENSCHLOSS_OSEK_TABLE_LENGTH sizeof my_table
 *   #define BIRNENSCHLOSS_OSEK_EXTENSION                      if StartCOM calls StartCOMExtension
 *
 * and somewhere the application defines birnenschloss_osek_transmit. An operating system's header
 * comes before this one. A message identifier is the number of the message object in the table.
 *
 * Where this differs from the standard, for one who recompiles code:
 *
 *   values        A message is a number of 1 to 32 bits, and every DataRef points to a uint32_t,
 *                 whatever the message's size. The compiler reports other pointers.
 *   signed        A message is signed where its byte order in the table is 2 or 3; the standard
 *                 converts and filters unsigned ones alone. A DataRef then points to an int32_t,
 *                 with a cast: (ApplicationDataRef)&degrees; or to a uint32_t, of which
 *                 birnenschloss_signed gives the number. Filters 8 to 13 compare as signed.
 *   status        Errors are checked as under Extended, always. E_COM_ID is 1, E_COM_LENGTH 2,
 *                 E_COM_LIMIT 3, E_COM_NOMSG 4; an operating system may have codes of its own with
 *                 these numbers, so compare a status of COM with COM's names alone. What the
 *                 standard leaves to the vendor is 5 to 8, as E_COM_SYS_ below.
 *   not started   Before the first StartCOM a service answers E_COM_SYS_MEMORY, after StopCOM
 *                 E_COM_SYS_STOPPED, a second StopCOM too. A wrong table is answered
 *                 E_COM_SYS_TABLE by every service, StartCOM too. E_COM_ID for the mode of a
 *                 StopCOM comes before all these.
 *   modes         There is one configuration. StartCOM takes any mode, GetCOMApplicationMode gives
 *                 it back (0 before the first StartCOM). StartCOM never answers E_COM_ID.
 *   StartCOM      Starts again from the table, also with no StopCOM before. If StartCOMExtension
 *                 fails, StartCOM answers its status, and COM is started all the same.
 *   StopCOM       Halts nothing by itself: periods, deadlines and values stay in memory, but no
 *                 service works on them any more, and the next StartCOM sets all anew.
 *   InitMessage   A message with no I-PDU that is sent inside is accepted, not E_COM_ID. A queue's
 *                 overflow is cleared with the queue.
 *   transmission  In direct and mixed mode a request waits also while one before it is neither
 *                 confirmed nor timed out. The transmission deadline belongs to the I-PDU, is
 *                 always on and runs from the request, not from SendMessage; a confirmation or a
 *                 timeout sets the flags of all messages of the I-PDU, pending ones too. So does
 *                 the reception deadline.
 *   time          Passes by birnenschloss_osek_tick alone; times in the table are ticks.
 *   notification  By flag alone: no callback, task, event or NMCallback. Each message has a flag
 *                 for each class. No generator makes ReadFlag_X and ResetFlag_X of a flag X: the
 *                 application writes them, so that code that uses them recompiles:
 *                   #define ReadFlag_X() birnenschloss_osek_read_flag(MESSAGE, MARK)
 *                   #define ResetFlag_X() birnenschloss_osek_reset_flag(MESSAGE, MARK)
 *                 MARK is one of BIRNENSCHLOSS_MARK_: ARRIVED is class 1, SENT 2, RECEIVE_ERROR 3,
 *                 SEND_ERROR 4. As in the standard SendMessage resets classes 2 and 4 of its
 *                 message, ReceiveMessage 1 and 3; here also where it answers E_COM_NOMSG.
 *   not here      COMErrorHook, COMErrorGetServiceId and the COMError_ macros; SendDynamicMessage,
 *                 ReceiveDynamicMessage, SendZeroMessage; COMCallback, COMCallout; OIL.
 *   interrupts    No two services may run at once, in tasks or interrupts: mask them around a call.
 *
 * As in the standard: SendMessage answers E_OK also where the filter drops the value; what finds
 * no room in its queue is lost; GetMessageStatus of an unqueued message is E_COM_ID (Extended); StartCOM
 * starts no period; each StartPeriodic begins again with the offsets.
 */
#ifndef BIRNENSCHLOSS_OSEK_H
#define BIRNENSCHLOSS_OSEK_H

#include "birnenschloss.h"

/* The guard that OSEK's headers share. */
#ifndef STATUSTYPEDEFINED
#define STATUSTYPEDEFINED
typedef unsigned char StatusType;
#endif

#define E_COM_SYS_TABLE BIRNENSCHLOSS_E_TABLE
#define E_COM_SYS_MEMORY BIRNENSCHLOSS_E_MEMORY
#define E_COM_SYS_STOPPED BIRNENSCHLOSS_E_STOPPED
#define E_COM_SYS_NOT_REQUESTED BIRNENSCHLOSS_E_NOT_REQUESTED

typedef uint32_t MessageIdentifier;
typedef uint32_t *ApplicationDataRef;
typedef uint32_t COMApplicationModeType;
typedef uint32_t COMShutdownModeType;
#define COM_SHUTDOWN_IMMEDIATE 0
typedef enum { COM_FALSE, COM_TRUE } FlagValue;

#ifdef __cplusplus
extern "C" {
#endif

/* Starts COM and keeps the mode. E_OK, E_COM_SYS_TABLE, or what StartCOMExtension answers. */
StatusType StartCOM(COMApplicationModeType Mode);

/* Stops COM. E_OK; before all else E_COM_ID for a mode that is not COM_SHUTDOWN_IMMEDIATE. */
StatusType StopCOM(COMShutdownModeType Mode);

/* The mode of the last StartCOM. */
COMApplicationModeType GetCOMApplicationMode(void);

StatusType StartPeriodic(void);
StatusType StopPeriodic(void);

/* Sets a message to *DataRef, with no filter and no transmission. E_OK, E_COM_ID. */
StatusType InitMessage(MessageIdentifier Message, ApplicationDataRef DataRef);

/* Sends *DataRef, resets the flags of classes 2 and 4, transmits what is requested: all this with
 * E_OK alone. E_OK, E_COM_ID. */
StatusType SendMessage(MessageIdentifier Message, ApplicationDataRef DataRef);

/* Puts the value, or the oldest of a queue, which is removed there, into *DataRef with E_OK and
 * E_COM_LIMIT. Resets the flags of classes 1 and 3 with these two and E_COM_NOMSG. E_OK, E_COM_ID,
 * E_COM_LIMIT, E_COM_NOMSG. */
StatusType ReceiveMessage(MessageIdentifier Message, ApplicationDataRef DataRef);

/* The state of a queue. E_OK, E_COM_ID, E_COM_LIMIT, E_COM_NOMSG. */
StatusType GetMessageStatus(MessageIdentifier Message);

/* Beyond OSEK's names. A flag of a message, by its mark: whether it is set (COM_FALSE where there
 * is no such message or COM does not run), and its reset, which leaves the other flags. */
FlagValue birnenschloss_osek_read_flag(MessageIdentifier message, uint32_t mark);
void birnenschloss_osek_reset_flag(MessageIdentifier message, uint32_t mark);

/* A tick of time has passed: transmits what is requested. */
StatusType birnenschloss_osek_tick(void);

/* The bus has received an I-PDU. E_OK, E_COM_ID; E_COM_LENGTH if the length is not the I-PDU's.
 * `bytes` is never null. */
StatusType birnenschloss_osek_indication(uint32_t ipdu, const uint8_t *bytes, size_t length);

/* The bus has failed to receive an I-PDU. E_OK, E_COM_ID. */
StatusType birnenschloss_osek_indication_error(uint32_t ipdu);

/* The bus has transmitted an I-PDU, good (not 0) or not. E_OK, E_COM_ID; E_COM_SYS_NOT_REQUESTED if
 * no request is open. */
StatusType birnenschloss_osek_confirm(uint32_t ipdu, int good);

/* Defined by the application: takes a frame to the bus, out of SendMessage or a tick. The bytes are
 * there until it returns. It may confirm and indicate, but not send a message or tick. */
void birnenschloss_osek_transmit(uint32_t ipdu, const uint8_t *bytes, size_t length);

/* Defined by the application, under BIRNENSCHLOSS_OSEK_EXTENSION: the last step of StartCOM. */
StatusType StartCOMExtension(void);

#ifdef __cplusplus
}
#endif

#endif

#if defined BIRNENSCHLOSS_OSEK_CONTROLLER && !defined BIRNENSCHLOSS_OSEK_DEFINED
#define BIRNENSCHLOSS_OSEK_DEFINED

#if !defined BIRNENSCHLOSS_OSEK_TABLE || !defined BIRNENSCHLOSS_OSEK_TABLE_LENGTH
#error "the controller needs BIRNENSCHLOSS_OSEK_TABLE and BIRNENSCHLOSS_OSEK_TABLE_LENGTH"
#endif

/* Most I-PDUs and message objects of a table; the place of an I-PDU's length L. */
#define BIRNENSCHLOSS_OSEK_IPDUS 32
#define BIRNENSCHLOSS_OSEK_OBJECTS 128
#define BIRNENSCHLOSS_OSEK_LENGTH_AT(ipdu) (16 + 16 * (ipdu) + 1)

#ifdef __cplusplus
extern "C" {
#endif

static struct {
    uint8_t memory[BIRNENSCHLOSS_MEMORY_SIZE];
    uint8_t area[BIRNENSCHLOSS_AREA_SIZE];
    uint8_t flags[BIRNENSCHLOSS_OSEK_OBJECTS]; /* marks taken from memory and not reset yet */
    size_t lent;                               /* bytes of memory lent: none before a start */
    COMApplicationModeType mode;
} birnenschloss_osek;

#define BIRNENSCHLOSS_OSEK_LENT                                                                \
    (BIRNENSCHLOSS_OSEK_TABLE), (BIRNENSCHLOSS_OSEK_TABLE_LENGTH), birnenschloss_osek.memory, \
        birnenschloss_osek.lent

#define BIRNENSCHLOSS_OSEK_STATUS(call) ((StatusType)(call).number)

/* Hands the frames that the word names to the application. */
static void birnenschloss_osek_hand_over(uint32_t word)
{
    uint32_t k;
    for (k = 0; k < BIRNENSCHLOSS_OSEK_IPDUS; k++)
        if (birnenschloss_is_requested(word, k))
            birnenschloss_osek_transmit(
                k, birnenschloss_osek.area + k * BIRNENSCHLOSS_SLOT_SIZE,
                (BIRNENSCHLOSS_OSEK_TABLE)[BIRNENSCHLOSS_OSEK_LENGTH_AT(k)]);
}

/* Moves a message's marks to its flags. 0 if there is no such message, or COM does not run. */
static int birnenschloss_osek_take_marks(MessageIdentifier message)
{
    birnenschloss_answer marks = birnenschloss_marks(BIRNENSCHLOSS_OSEK_LENT, message);
    if (marks.number != E_OK)
        return 0;
    birnenschloss_osek.flags[message] |= (uint8_t)marks.value;
    birnenschloss_clear_marks(BIRNENSCHLOSS_OSEK_LENT, message);
    return 1;
}

/* Resets a message's flags. A message that is sent has those of classes 2 and 4 alone, one that is
 * received those of classes 1 and 3. */
static void birnenschloss_osek_reset_flags(MessageIdentifier message)
{
    if (birnenschloss_osek_take_marks(message))
        birnenschloss_osek.flags[message] = 0;
}

StatusType StartCOM(COMApplicationModeType Mode)
{
    size_t k;
    birnenschloss_answer answer =
        birnenschloss_start((BIRNENSCHLOSS_OSEK_TABLE), (BIRNENSCHLOSS_OSEK_TABLE_LENGTH),
                            birnenschloss_osek.memory, BIRNENSCHLOSS_MEMORY_SIZE);
    if (answer.number != E_OK)
        return (StatusType)answer.number;
    for (k = 0; k < BIRNENSCHLOSS_OSEK_OBJECTS; k++)
        birnenschloss_osek.flags[k] = 0;
    birnenschloss_osek.lent = BIRNENSCHLOSS_MEMORY_SIZE;
    birnenschloss_osek.mode = Mode;
#ifdef BIRNENSCHLOSS_OSEK_EXTENSION
    return StartCOMExtension();
#else
    return E_OK;
#endif
}

StatusType StopCOM(COMShutdownModeType Mode)
{
    if (Mode != COM_SHUTDOWN_IMMEDIATE)
        return E_COM_ID;
    return BIRNENSCHLOSS_OSEK_STATUS(birnenschloss_stop(BIRNENSCHLOSS_OSEK_LENT));
}

COMApplicationModeType GetCOMApplicationMode(void) { return birnenschloss_osek.mode; }

StatusType StartPeriodic(void)
{
    return BIRNENSCHLOSS_OSEK_STATUS(birnenschloss_start_periodic(BIRNENSCHLOSS_OSEK_LENT));
}

StatusType StopPeriodic(void)
{
    return BIRNENSCHLOSS_OSEK_STATUS(birnenschloss_stop_periodic(BIRNENSCHLOSS_OSEK_LENT));
}

StatusType InitMessage(MessageIdentifier Message, ApplicationDataRef DataRef)
{
    return BIRNENSCHLOSS_OSEK_STATUS(
        birnenschloss_initialise(BIRNENSCHLOSS_OSEK_LENT, Message, *DataRef));
}

StatusType SendMessage(MessageIdentifier Message, ApplicationDataRef DataRef)
{
    birnenschloss_answer answer =
        birnenschloss_send(BIRNENSCHLOSS_OSEK_LENT, birnenschloss_osek.area,
                           BIRNENSCHLOSS_AREA_SIZE, Message, *DataRef);
    if (answer.number == E_OK) {
        birnenschloss_osek_reset_flags(Message); /* before a confirmation can set them again */
        birnenschloss_osek_hand_over(answer.value);
    }
    return (StatusType)answer.number;
}

StatusType ReceiveMessage(MessageIdentifier Message, ApplicationDataRef DataRef)
{
    birnenschloss_answer answer = birnenschloss_receive(BIRNENSCHLOSS_OSEK_LENT, Message);
    if (answer.number == E_OK || answer.number == E_COM_LIMIT)
        *DataRef = answer.value;
    if (answer.number != E_COM_ID)
        birnenschloss_osek_reset_flags(Message);
    return (StatusType)answer.number;
}

StatusType GetMessageStatus(MessageIdentifier Message)
{
    return BIRNENSCHLOSS_OSEK_STATUS(birnenschloss_status(BIRNENSCHLOSS_OSEK_LENT, Message));
}

FlagValue birnenschloss_osek_read_flag(MessageIdentifier message, uint32_t mark)
{
    if (!birnenschloss_osek_take_marks(message))
        return COM_FALSE;
    return (birnenschloss_osek.flags[message] & mark) != 0 ? COM_TRUE : COM_FALSE;
}

void birnenschloss_osek_reset_flag(MessageIdentifier message, uint32_t mark)
{
    if (birnenschloss_osek_take_marks(message))
        birnenschloss_osek.flags[message] &= (uint8_t)~mark;
}

StatusType birnenschloss_osek_tick(void)
{
    birnenschloss_answer answer = birnenschloss_tick(
        BIRNENSCHLOSS_OSEK_LENT, birnenschloss_osek.area, BIRNENSCHLOSS_AREA_SIZE);
    if (answer.number == E_OK)
        birnenschloss_osek_hand_over(answer.value);
    return (StatusType)answer.number;
}

StatusType birnenschloss_osek_indication(uint32_t ipdu, const uint8_t *bytes, size_t length)
{
    return BIRNENSCHLOSS_OSEK_STATUS(
        birnenschloss_indication(BIRNENSCHLOSS_OSEK_LENT, ipdu, 1, bytes, length));
}

StatusType birnenschloss_osek_indication_error(uint32_t ipdu)
{
    /* No bytes: none at the table's start. */
    return BIRNENSCHLOSS_OSEK_STATUS(birnenschloss_indication(
        BIRNENSCHLOSS_OSEK_LENT, ipdu, 0, (BIRNENSCHLOSS_OSEK_TABLE), 0));
}

StatusType birnenschloss_osek_confirm(uint32_t ipdu, int good)
{
    return BIRNENSCHLOSS_OSEK_STATUS(
        birnenschloss_confirm(BIRNENSCHLOSS_OSEK_LENT, ipdu, good != 0));
}

#ifdef __cplusplus
}
#endif

#endif
