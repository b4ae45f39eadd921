//! What the run has to meet of the documents' rules.

#[derive(Clone, Copy, Debug)]
pub enum Event {
    RequestBySend,
    PostponedBySend,
    RequestByTick,
    PostponedMadeByTick,
    DelayRunOut,
    DeadlineRunOut,
    /// The period fires while a request is open, in mode 1 and in mode 2.
    FiredOpenPeriodic,
    FiredOpenMixed,
    /// The period fires while a request waits.
    FiredWanted,
    ReceiveTimerRunOut,
    StopPeriodicWanted,
    StartRunning,
    StartOpen,
    ShortAreaSend,
    ShortAreaTick,
    /// A full queue lost a value.
    ValueLost,
    /// What only a changed memory holds, met by a call: an open request with a deadline of 0 and
    /// a running countdown of 0, by a tick; the overflow of an empty queue, by a receive or a
    /// status; bytes behind the length of an I-PDU that is requested.
    DeadlineOfZero,
    CountdownOfZero,
    OverflowOfEmptyQueue,
    BytesBehindLength,
    /// Memory of zeros: a start, and the other calls where zeros are in all ranges and not.
    StartOverZeros,
    ZerosStopped,
    ZerosOutOfRange,
    /// Groups of no pairs and of 16, done.
    GroupEmpty,
    GroupSixteen,
    /// Groups refused with 2 for one reason alone.
    GroupTooMany,
    GroupCutPair,
    GroupStatusesShort,
    GroupStatusesLong,
    /// Groups refused for another reason.
    GroupWrongTable,
    GroupShortArea,
    GroupOverStopped,
    /// And with a reason for 2 besides.
    GroupFiveNotTwo,
    GroupSixNotTwo,
    GroupRangeNotTwo,
    GroupSevenNotTwo,
    /// A pair with status 1 before one with 0.
    GroupWrongPairGoesOn,
    /// Status 1 for a receive object; in bytes for a number from 128 on; in records for one whose
    /// low byte is a send object's number.
    GroupReceiveObject,
    GroupByteFrom128,
    GroupRecordAbove255,
    /// An object that is named again; one that before the group would have judged otherwise.
    GroupSameObjectTwice,
    GroupJudgedAnew,
    /// A send object with filter 14 that passes one value of the group and drops another.
    GroupFourteen,
    /// A count that returns to 0, and a further value of its object.
    GroupCountReturns,
    /// An I-PDU that a pair has requested: a later pending value is not in its slot, a later
    /// triggered one is postponed.
    GroupPendingAfterTriggered,
    GroupPostponedInside,
    GroupSeveralRequests,
    /// A receiver inside that gets two values; one with a queue that loses one.
    GroupReceiverTwice,
    GroupValueLost,
    /// A count of filter 14 that returns to 0: of a send object; of a receive object, by an
    /// indication and by a send inside.
    SendCountReturns,
    IndicationCountReturns,
    InternalCountReturns,
    /// A count that goes on for a value that a full queue loses, and for one that is dropped.
    LostCountGoesOn,
    DroppedCountGoesOn,
    /// An initialise between two filterings, with a count that is not 0 and stays: of a send and of
    /// a receive object.
    InitialiseBetweenSends,
    InitialiseBetweenArrivals,
    /// A filtering of an object behind 256 others since the start: the period is no power of two;
    /// a count that wraps at 256 would have judged otherwise.
    FilteredPast256,
    NotAsWrapped,
    /// A memory that differs from a good one in one count alone: as large as the period, and 1
    /// with another filter, both refused; the period less one, not refused.
    CountOfPeriodRefused,
    CountOfOneRefused,
    GreatestCountAccepted,
    /// A kept value that changes a bit which stands from another reading of its I-PDU: by what each
    /// was kept, whose number is lower, with the same places, and with one that goes down in the
    /// other order; inside one group. A dropped value that would have changed one. A reading that
    /// is covered in part.
    StartCoversStart,
    SendCoversStart,
    SendCoversSend,
    SendCoversInitialise,
    InitialiseCoversSend,
    LowerCoversHigher,
    HigherCoversLower,
    SameBitsCovered,
    OtherOrderCovered,
    GroupCoversGroup,
    DroppedCoversNothing,
    OlderInPart,
    /// Sheets begun: with no object, with 16, over one that had drained something; with 520 bytes.
    BeginEmpty,
    BeginSixteen,
    SheetBegunAgain,
    BeginSheetOf520,
    /// Begins refused: with 6 for the sheet, of 519 bytes too; with 1 for a sending object, an
    /// unqueued one, a number that is none's, one whose low byte is a queued object's, and for one
    /// behind sixteen right ones; with 10 for seventeen different objects, and for one twice.
    BeginShortSheet,
    BeginSheetOf519,
    BeginSending,
    BeginUnqueued,
    BeginTooLarge,
    BeginAbove255,
    BeginWrongPastSixteen,
    BeginSeventeen,
    BeginTwice,
    /// Drains refused with 6: for the sheet's length, the text's, of 1,535 bytes alone; for bytes
    /// 0-3, zeros and with 1 in the lowest alone; for a count of 17, and by its high bytes alone.
    DrainShortSheet,
    DrainShortText,
    DrainTextOf1535,
    DrainNeverBegun,
    DrainBegunOtherwise,
    DrainSeventeen,
    DrainCountByHighByte,
    /// Drains done: with a text of 1,536 bytes; sixteen lines of long numbers; counts that are at
    /// their end, and that come to it.
    DrainTextOf1536,
    DrainLongLines,
    DrainCountStops,
    DrainCountReachesItsEnd,
    DrainOverflowsStop,
    DrainOverflowsReachTheirEnd,
    DrainErrorsStop,
    DrainErrorsReachTheirEnd,
    /// Objects of a sheet that was begun and that nobody else has written, at a drain: nothing yet,
    /// and nothing more; something more, a new least and a new greatest value; a first value above
    /// 0; the values 0 and 4,294,967,295; an overflow; a queue of sixteen; receive error alone, with
    /// arrived, again, and with no value; marks that stay; a start since the last drain. Sixteen
    /// objects, none, and one that another sheet follows too.
    SheetFindsNothing,
    SheetFindsNothingMore,
    SheetGoesOn,
    SheetLeastFalls,
    SheetGreatestRises,
    SheetLeastAboveZero,
    SheetDrainsZero,
    SheetDrainsGreatest,
    SheetOverflow,
    SheetSixteenValues,
    SheetErrorAlone,
    SheetErrorAndArrived,
    SheetSecondError,
    SheetErrorWithNoValue,
    SheetMarksLeft,
    SheetStartBetween,
    SheetDrainsSixteen,
    SheetDrainsNoObject,
    SheetSharesAnObject,
    /// Accepted tables with a signed object: sent and received in either order, with no I-PDU on
    /// either side, inside. Tables that are wrong by one order alone: 1, 3 and more without an
    /// I-PDU, 4 and 255 in one.
    SignedLittleSent,
    SignedBigSent,
    SignedLittleReceived,
    SignedBigReceived,
    SignedSentAlone,
    SignedReceivedAlone,
    SignedInside,
    OrderOneAlone,
    OrderThreeAlone,
    OrderAboveAlone,
    OrderFourPlaced,
    Order255Placed,
    /// Signed objects in a good indication: below zero in either order, and not below; of 1 bit and
    /// of 32 below zero; of 2 to 31 the least, the greatest and -1. The same bits read as signed
    /// and not, to two values.
    BelowZeroLittle,
    BelowZeroBig,
    NotBelowLittle,
    NotBelowBig,
    OneBitBelowZero,
    ThirtyTwoBitsBelowZero,
    LeastOfItsBits,
    GreatestOfItsBits,
    MinusOneOfItsBits,
    ReadBothWays,
    /// Values that a signed object's bits do not hold, and that are not cut: initial ones and
    /// initialised ones of a receive object, received; delivered inside from a signed object; an
    /// old one, sent, initialised or initial, by which a filter judges otherwise than by its bits.
    InitialReceivedWhole,
    InitialisedReceivedWhole,
    DeliveredInsideWhole,
    OldComparedWhole,
    /// Delivered inside below zero; where sender and receiver differ in sign, judged by the
    /// receiver's: signed, and not.
    InsideBelowZero,
    InsideJudgedSigned,
    InsideJudgedUnsigned,
    /// Values below zero, queued and not, received.
    BelowZeroReceived,
    BelowZeroQueued,
    /// A signed reading stored last and read back: exactly, below zero; ones that do not fit,
    /// initial or sent, and initialised.
    ReadBackExactly,
    ReadBackBelowZero,
    ReadBackCut,
    InitialisedReadBackCut,
    /// Objects of a sheet that was begun and that nobody else has written, at a drain. Signed:
    /// least below zero and greatest not; all below; a least that falls below zero, a greatest that
    /// rises above; the least of all. Not signed: on both sides of 2,147,483,648. Both in one
    /// sheet. A line with four minuses that is as long as may be, but for the object's number.
    SheetAroundZero,
    SheetAllBelowZero,
    SheetLeastFallsBelowZero,
    SheetGreatestRisesAboveZero,
    SheetLeastOfAll,
    SheetUnsignedAroundHalf,
    SheetOfBothSigns,
    DrainLongestLine,
}
use Event::*;

pub const EVENTS: [Event; 163] = [
    RequestBySend, PostponedBySend, RequestByTick, PostponedMadeByTick, DelayRunOut, DeadlineRunOut,
    FiredOpenPeriodic, FiredOpenMixed, FiredWanted, ReceiveTimerRunOut, StopPeriodicWanted,
    StartRunning, StartOpen, ShortAreaSend, ShortAreaTick, ValueLost,
    DeadlineOfZero, CountdownOfZero, OverflowOfEmptyQueue, BytesBehindLength,
    StartOverZeros, ZerosStopped, ZerosOutOfRange,
    GroupEmpty, GroupSixteen, GroupTooMany, GroupCutPair, GroupStatusesShort, GroupStatusesLong,
    GroupWrongTable, GroupShortArea, GroupOverStopped, GroupFiveNotTwo, GroupSixNotTwo,
    GroupRangeNotTwo, GroupSevenNotTwo, GroupWrongPairGoesOn, GroupReceiveObject,
    GroupByteFrom128, GroupRecordAbove255, GroupSameObjectTwice, GroupJudgedAnew, GroupFourteen,
    GroupCountReturns, GroupPendingAfterTriggered, GroupPostponedInside, GroupSeveralRequests,
    GroupReceiverTwice, GroupValueLost,
    SendCountReturns, IndicationCountReturns, InternalCountReturns, LostCountGoesOn,
    DroppedCountGoesOn, InitialiseBetweenSends, InitialiseBetweenArrivals, FilteredPast256,
    NotAsWrapped, CountOfPeriodRefused, CountOfOneRefused, GreatestCountAccepted,
    StartCoversStart, SendCoversStart, SendCoversSend, SendCoversInitialise, InitialiseCoversSend,
    LowerCoversHigher, HigherCoversLower, SameBitsCovered, OtherOrderCovered, GroupCoversGroup,
    DroppedCoversNothing, OlderInPart,
    BeginEmpty, BeginSixteen, SheetBegunAgain, BeginSheetOf520, BeginShortSheet, BeginSheetOf519,
    BeginSending, BeginUnqueued, BeginTooLarge, BeginAbove255, BeginWrongPastSixteen,
    BeginSeventeen, BeginTwice, DrainShortSheet, DrainShortText, DrainTextOf1535, DrainNeverBegun,
    DrainBegunOtherwise, DrainSeventeen, DrainCountByHighByte, DrainTextOf1536, DrainLongLines,
    DrainCountStops, DrainCountReachesItsEnd, DrainOverflowsStop, DrainOverflowsReachTheirEnd,
    DrainErrorsStop, DrainErrorsReachTheirEnd,
    SheetFindsNothing, SheetFindsNothingMore, SheetGoesOn, SheetLeastFalls, SheetGreatestRises,
    SheetLeastAboveZero, SheetDrainsZero, SheetDrainsGreatest, SheetOverflow, SheetSixteenValues,
    SheetErrorAlone, SheetErrorAndArrived, SheetSecondError, SheetErrorWithNoValue, SheetMarksLeft,
    SheetStartBetween, SheetDrainsSixteen, SheetDrainsNoObject, SheetSharesAnObject,
    SignedLittleSent, SignedBigSent, SignedLittleReceived, SignedBigReceived, SignedSentAlone,
    SignedReceivedAlone, SignedInside, OrderOneAlone, OrderThreeAlone, OrderAboveAlone,
    OrderFourPlaced, Order255Placed, BelowZeroLittle, BelowZeroBig, NotBelowLittle, NotBelowBig,
    OneBitBelowZero, ThirtyTwoBitsBelowZero, LeastOfItsBits, GreatestOfItsBits, MinusOneOfItsBits,
    ReadBothWays, InitialReceivedWhole, InitialisedReceivedWhole, DeliveredInsideWhole,
    OldComparedWhole, InsideBelowZero, InsideJudgedSigned, InsideJudgedUnsigned, BelowZeroReceived,
    BelowZeroQueued, ReadBackExactly, ReadBackBelowZero, ReadBackCut, InitialisedReadBackCut,
    SheetAroundZero, SheetAllBelowZero, SheetLeastFallsBelowZero, SheetGreatestRisesAboveZero,
    SheetLeastOfAll, SheetUnsignedAroundHalf, SheetOfBothSigns, DrainLongestLine,
];
