//! What a port might read otherwise than document 01 says it.

macro_rules! readings {
    ($($name:ident: $modes:literal, $words:literal;)*) => {
        #[derive(Clone, Copy, Debug, PartialEq, Eq)]
        pub enum Reading {
            Right,
            $($name,)*
        }

        /// Each wrong reading, the modes that can see it, and what it says.
        pub const WRONG: &[(Reading, &str, &str)] = &[$((Reading::$name, $modes, $words),)*];
    };
}

readings! {
    CrcInAFullFrame: "plans send", "a payload of exactly MTU - 1 bytes gets a CRC";
    NoTailCounted: "plans send", "the plan leaves the tail bytes out of the total";
    RaisedTo40: "plans send", "a last frame of 33 to 40 bytes is raised to 40";
    LimitLeftOut: "plans send", "a payload of 1,024 bytes is over the limit";
    CrcStartsAtZero: "send", "the CRC starts at 0";
    CrcLowByteFirst: "send", "the CRC goes out low byte first";
    CrcWithoutPadding: "send", "the CRC is over the payload alone";
    PaddingAfterCrc: "send", "the padding follows the CRC";
    FirstToggleClear: "send", "the first toggle is 0";
    PseudoMayBeReserved: "send", "an anonymous sender may go out under 126";
    PseudoFromZero: "send", "the XOR of an anonymous sender starts at 0";
    ReservedBitsSentClear: "send", "bits 21 and 22 of a message are sent clear";
    ResponseMarkedRequest: "send receive", "bit 24 is set for a response";
    PartOfASend: "send", "a send without room places what fits";
    RefusedNotCounted: "send", "a send refused for want of room is not counted";
    CountStops: "send", "the count of sends stops at its greatest number";
    LengthBeforeFields: "send", "refusal 10 stands before refusal 12";
    AnonymousInAFullMtu: "send", "an anonymous payload may have MTU bytes";
    StampOfNow: "send", "only the first frame bears the transfer's stamp";
    PushedInFront: "queue queue-short send", "a pushed frame goes in front of its equals";
    ReturnedBehind: "queue queue-short", "a returned frame goes behind its equals";
    PriorityAlone: "queue send", "the queue is ordered by priority alone";
    FullBeforeLength: "queue", "refusal 13 stands before refusal 3";
    EmptyFrameRefused: "queue", "a frame of no bytes is refused by the queue";
    PeekTakes: "queue", "a peek takes the frame out";
    IdStaysAt31: "tracker", "a transfer ID stays at 31";
    StraddleLost: "tracker", "a number that lies in two words keeps only its part in the first";
    LastNodeRefused: "tracker", "destination 127 is refused";
    ExtentLimitLeftOut: "making", "an extent of 1,024 is over the limit";
    ExtentBeforeFields: "making", "refusal 8 stands before refusal 12 at making";
    NodeOfAMessage: "making", "the node of a message's subscription must be one";
    AgeEqualIsOld: "receive exhaustive", "an age equal to the timeout is timed out";
    BackIsYoung: "receive exhaustive", "a stamp that went back is young";
    BoundaryIsYoung: "receive exhaustive", "a difference of exactly 2^31 counts";
    AgeSaturates: "receive exhaustive", "the difference of stamps does not wrap";
    NeverIsYoung: "receive exhaustive", "with no last time nothing is timed out";
    LastTimeOfLastFrame: "receive exhaustive", "the last time of a long transfer is its last frame's";
    OldIdPutBack: "receive exhaustive", "refusal 5 puts the old expected ID back";
    StrangeIdKeepsSession: "receive exhaustive", "a strange ID does not drop the session";
    RepeatTakesAnyId: "receive exhaustive", "any ID but the expected one is a repeat while it is young";
    SingleNeedsToggle: "receive exhaustive", "a single frame with toggle 0 is not delivered";
    SingleKeepsSession: "receive exhaustive", "a single frame leaves an open session open";
    ToggleZeroOpensNothing: "receive exhaustive", "a first frame with toggle 0 opens no session";
    StartNotCompared: "receive exhaustive", "a second start frame is taken";
    ToggleNotCompared: "receive exhaustive", "the toggle is not compared";
    LoopbackNotCompared: "receive exhaustive", "a loopback flag that differs is taken";
    CrcShown: "receive exhaustive", "a delivery shows the CRC's bytes";
    ResidueKeepsSession: "receive exhaustive", "refusal 6 keeps the session";
    ResidueSteps: "receive exhaustive", "refusal 6 steps the expected ID";
    StampOfLastFrame: "receive exhaustive", "a delivery has the last frame's stamp";
    PriorityOfFirstFrame: "receive", "a delivery has the first frame's priority";
    StoreNotCut: "receive", "a source's bytes run over into the next part";
    AnonymousCut: "receive exhaustive", "an anonymous payload is cut to the extent";
    AnonymousNeedsMarks: "receive exhaustive", "an anonymous frame without start, end and toggle is not delivered";
    ReservedBitsRead: "receive", "a message with bit 21 or 22 clear is not ours";
    ServiceBit7Reserved: "receive", "bit 7 is reserved in a service too";
    NotOursFirst: "receive", "not ours stands before refusal 4";
    EmptyBeforeStore: "receive", "refusal 2 stands before refusal 7";
}
