//! Wrong variants of the independent board. `Sound` is the board itself, and the switch costs it nothing.

/// Answers whether a wrong variant is the one to run.
pub trait Fault: Copy {
    fn on(self, mutant: Mutant) -> bool;
}

/// No fault.
#[derive(Clone, Copy)]
pub struct Sound;

impl Fault for Sound {
    #[inline(always)]
    fn on(self, _: Mutant) -> bool {
        false
    }
}

/// One fault.
#[derive(Clone, Copy)]
pub struct Broken(pub Mutant);

impl Fault for Broken {
    #[inline]
    fn on(self, mutant: Mutant) -> bool {
        self.0 == mutant
    }
}

/// Variants with what each does. Behind a name in brackets stand those of a group, up to the next one.
macro_rules! mutants {
    ($($name:ident: $text:literal,)* $([$group:ident] $($of_group:ident: $text_of_group:literal,)*)*) => {
        #[derive(Clone, Copy, PartialEq, Eq, Debug)]
        pub enum Mutant {
            $(#[doc = $text] $name,)*
            $($(#[doc = $text_of_group] $of_group,)*)*
        }

        /// Every wrong variant with what it does.
        pub const MUTANTS: &[(Mutant, &str)] =
            &[$((Mutant::$name, $text),)* $($((Mutant::$of_group, $text_of_group),)*)*];

        $(
            /// The wrong variants of a group.
            pub const $group: &[Mutant] = &[$(Mutant::$of_group,)*];
        )*
    };
}

mutants! {
    // the errors that look reasonable
    LiveParts: "a long entry is copied part by part from the live values",
    LockAtOpening: "the lock is judged at the opening of a write in parts, not at its last message",
    GoodEntriesOfFaultyBlock: "the good entries of a faulty block are taken",
    ToggleResetByOtherLine: "a message on the other line resets the toggle",
    LowTripAtLevel: "the low trip goes on at the level too",
    // the boards that the promises must refuse
    AbortsAll: "every request is aborted",
    SameEightBytes: "the same eight bytes are sent always",
    StoresNothing: "a write is answered with yes and stores nothing",
    FakedParts: "the opening of a read is served, the later parts are zeros",
    // trips and samples
    HighTripAtLevel: "the high trip goes on at the level too",
    LowOffAtEdge: "the low trip goes off at level + hysteresis already",
    HighOffAtEdge: "the high trip goes off at level - hysteresis already",
    BothHoldIsOn: "where lent settings make both conditions hold the side goes on",
    SumInDouble: "level + hysteresis is not rounded to a REAL",
    DisabledSideStays: "a disabled side keeps its state",
    InvalidKeepsTrips: "a sample that is not valid leaves the trips",
    InvalidTakesPressure: "a sample that is not valid still sets the input value",
    MinusZeroNegative: "a pressure of minus zero counts as negative",
    InfinityValid: "a pressure of plus infinity is valid",
    ValidOnlyOne: "only the valid flag 1 is valid",
    SecondInputForgotten: "trip point 2's input value is not set",
    SecondsOnlyForward: "smaller seconds are not copied",
    AllFaultBits: "the other fault bits are kept too",
    LatchedIsActive: "the latched word is this sample's faults alone",
    SummaryFromLatched: "the summary shows the latched word",
    SummaryWrongBit: "the summary is bit 3",
    TripByteKept: "a lent trip byte that stays on is not set to 1",
    LentEnableBit: "of a lent enable byte only bit 0 counts in a sample",
    NewSettingsAtOnce: "disabling a side by a write switches it off before the next sample",
    // masks
    MasksIgnored: "the masks do nothing",
    MaskTurned: "a mask bit of 0 hides its detail bit",
    MaskOfOtherWord: "the mask F3A4:01 hides bits of F383:01",
    MaskHidesWord: "a mask that is not zero hides the whole active word",
    OneHiddenHidesAll: "one hidden bit of the active word hides all of them",
    LentBitsUncounted: "of a lent active word only the bits that a sample keeps count in the summary",
    OtherDetailsCount: "the details F384:01 count in the summary too",
    SampleUnmasked: "a sample works the summary out without the mask",
    ExceptionResetUnmasked: "an exception reset works the summary out without the mask",
    ActiveMasked: "the active word F383:01 is stored without the hidden bits",
    SensorErrorMasked: "the active word 9005:02 is stored without the hidden bits",
    LatchedMasked: "the latched word takes only the bits that are not hidden",
    MaskWaitsForSample: "a written mask acts on the summary at the next sample only",
    OnlyErrorMaskActs: "of the masks only a write of F3A3 works the summary out",
    EveryWriteActs: "every stored write works the summary out",
    LockedMaskActs: "a mask that the lock refuses works the summary out",
    MislengthMaskActs: "a mask of a wrong length works the summary out",
    LoadKeepsSummary: "a load leaves the summary",
    LoadActsFirst: "a load works the summary out before it takes the block",
    FaultyLoadActs: "a load of a faulty block works the summary out",
    LockedLoadActs: "a load that the lock refuses works the summary out",
    WrongWordActs: "a wrong command word works the summary out",
    // crossed trip points
    EqualLevelsPass: "equal levels are not crossed",
    MinusZeroBelowZero: "a low level of minus zero is below a high level of zero",
    NanLevelPasses: "a level that is not a number is not crossed",
    LevelsByBits: "levels are compared as whole numbers",
    NextLevelsCross: "levels with no REAL between them are crossed",
    OneEnableCrosses: "a trip point with one side enabled may be crossed",
    EnablesIgnored: "a trip point with no side enabled may be crossed",
    EnableMustBeOne: "a lent enable byte of 2 to 255 does not enable for a crossed trip point",
    HysteresesCounted: "low level plus hysteresis has to be below high level minus hysteresis",
    JudgedBeforeWrite: "an entry's trip point is judged as it was before the write",
    OtherEnablesJudged: "an entry's trip point is judged with the enables of the other",
    OtherPointJudged: "an entry is judged by the other trip point",
    BothPointsJudged: "an entry is judged by both trip points",
    FourFieldsJudged: "of a trip point's entries only enables and levels are judged",
    EnablesUnjudged: "a write of an enable is not judged",
    LevelsUnjudged: "a write of a level is not judged",
    PartsUnjudged: "an entry that is written in parts is not judged",
    DisablingRefused: "a side of a crossed trip point cannot be disabled",
    UncrossingRefused: "a level of a crossed trip point cannot be written",
    OtherEntriesJudged: "no other entry can be written while a trip point is crossed",
    CommandsJudged: "no command can be written while a trip point is crossed",
    CrossedBeforeLock: "a crossed trip point is told before the lock",
    CrossedBeforeLimits: "an entry's crossed trip point is told before its limits",
    CrossedIsBelow: "a crossed trip point gives 'below'",
    CrossedStored: "what is refused as crossed is stored",
    CrossedCardHalfStored: "of a card with one crossed trip point the other is stored",
    CardCrossedBeforeLayout: "a card's crossed trip point is told before its layout",
    CardCrossedBeforeLimits: "a card's crossed trip point is told before its limits",
    CardCrossedByPoint: "a card's trip point 1 is told as crossed before the limits of trip point 2",
    CardFirstUnjudged: "a card's trip point 1 may be crossed",
    CardSecondUnjudged: "a card's trip point 2 may be crossed",
    CardJudgedBefore: "a card is judged by the trip points before it",
    StoreTakesCrossed: "store writes crossed trip points",
    StoreSecondUnjudged: "store writes a crossed trip point 2",
    CrossedStoreWrites: "a store of crossed trip points gives status 2 and writes the block",
    CrossedStoreSilent: "a store of crossed trip points gives status 0 and writes nothing",
    CrossedStoreAborted: "a store of crossed trip points is refused",
    BlockSecondUnjudged: "a block with a crossed trip point 2 is not faulty",
    LoadTakesCrossed: "a load takes a crossed block",
    CrossedLoadTaken: "a load of a crossed block gives status 2 and takes it",
    CrossedLoadAborted: "a load of a crossed block is refused",
    LoadJudgedBefore: "a load is judged by the trip points before it",
    PowerUpTakesCrossed: "power-up takes a crossed block",
    PowerUpTakesGood: "power-up takes a crossed block but for its crossed trip points",
    CrossedSidesOff: "a sample turns the sides of a crossed trip point off",
    // image
    ImageBitsReversed: "the image's first byte has its most significant bit first",
    ImageBigEndian: "the image's sensor value has its most significant byte first",
    ImageLentBool: "of a lent BOOL byte only bit 0 counts in the image",
    ImageWithoutSummary: "the image's summary byte is zero",
    // table and limits
    NoSubindexIsNoIndex: "an absent subindex gives the code of an absent index",
    OneLeftUnseen: "the search never looks at a row that is left alone",
    SideByIndexAlone: "the search goes by the index alone and misses rows behind one that has it",
    AbsenceByLastLook: "the last row looked at alone tells what is absent",
    SeenForgotten: "an index that was seen is forgotten when the upper half is taken",
    NanAccepted: "a REAL that is not a number is accepted",
    NanIsAbove: "a REAL that is not a number gives 'above'",
    InfinityAccepted: "plus infinity is accepted where no range is printed",
    MinusZeroBelow: "minus zero is below a minimum of zero",
    BoolAnyByte: "a BOOL takes any byte",
    MaximumExcluded: "the maximum itself is refused",
    BelowIsAbove: "a value below its minimum gives the code for above",
    // card
    CardLayoutFree: "a card of another layout is taken",
    CardLayoutIsAbove: "a card of another layout gives 'above'",
    CardLittleEndian: "the card has a REAL's least significant byte first",
    CardLevelsFirst: "in the card both levels are judged before the hystereses",
    CardLastFieldDecides: "in the card the last bad field decides",
    CardHalfStored: "the fields before the bad one of a refused card are stored",
    CardLentEnable: "of a lent enable byte only bit 0 counts in the card",
    CardSidesSwapped: "the card has the low side before the high side",
    // saved block and commands
    RestNotTested: "bits of the block's rest are not tested",
    LastByteNotTested: "the block's last byte is not tested",
    ModelNotTested: "the block's model is not tested",
    BlockLimitsNotTested: "the block's values are not held to their limits",
    BlockLittleEndian: "the block has a number's least significant byte first",
    StoreAnything: "store writes lent values that are outside their limits",
    StoreClips: "store writes a lent BOOL byte other than 0 as 1",
    StoreLeavesRest: "store leaves the block's rest as it was",
    StoreRefusedWrites: "a refused store clears the block",
    LoadFaultyIsDefault: "a load of a faulty block sets the defaults",
    WrongWordRefused: "a wrong command word is refused",
    WrongWordSilent: "a wrong command word leaves the status",
    StatusWithoutResponse: "a command leaves the response",
    ResponseByteOneCleared: "a command clears response byte 1",
    FactoryWordResets: "the factory word resets",
    ResetKeepsOtherLine: "a device reset keeps the other line's transfer",
    ResetKeepsTrips: "a device reset keeps the trips",
    ResetIgnoresBlock: "a device reset takes defaults and no saved block",
    ExceptionResetKeepsSummary: "an exception reset leaves the summary",
    ExceptionResetOneWord: "an exception reset clears F393 only",
    ExceptionResetClearsActive: "an exception reset clears the active word",
    StoreWordReadsZero: "FBF2:01 reads as zeros",
    CommandWordKept: "a command word reads as the word for load, whatever is printed",
    PowerUpKeepsTail: "power-up leaves the bytes of no entry",
    PowerUpKeepsRecords: "power-up leaves line 1's record",
    PowerUpClearsSpare: "power-up clears spare bytes",
    // lock
    LoadNotLocked: "the lock does not refuse the load command",
    CardNotLocked: "the lock does not refuse the card",
    StoreLocked: "the lock refuses the store command too",
    LockLocksItself: "the lock refuses writes to itself",
    LentLockOn: "a lent lock of 2 to 255 is on",
    LimitsBeforeLock: "limits are judged before the lock",
    LockBeforeLength: "the lock is judged before a last part that ends short",
    // eight bytes
    LengthBeforeAccess: "the length is judged before the access",
    ShortBeforeLong: "a wrong length gives the code for the other side",
    AnnouncedTrusted: "an announced length is not judged",
    AnnouncedLowBytes: "only the low 16 bits of an announced length are judged",
    AnnouncedZeroUnknown: "an announced length of 0 counts as unknown",
    NoSizeMeansFour: "an expedited write without a size means four bytes",
    ShortEndPadded: "a last part that ends short is filled up with zeros",
    OverrunCut: "bytes that overrun are cut off",
    OverrunAtEnd: "an overrun is told at the last part only",
    UnusedBitsOnlyLast: "unused-byte bits count in the last part only",
    EmptyPartRefused: "a part that carries no byte is refused",
    FullEndsWrite: "a write ends when all bytes are there, without the last-part bit",
    WrongToggleServed: "a wrong toggle is served",
    WrongToggleKeeps: "a wrong toggle does not drop the transfer",
    ToggleWithoutIndex: "a toggle abort has a zero index",
    NoTransferWithIndex: "05040001 has the message's index",
    ToggleBeforeMatch: "with no matching transfer but a wrong toggle 05030000 is given",
    OtherDirectionDrops: "a part of the other direction is refused and leaves the transfer",
    RefusedOpeningKeeps: "a refused opening leaves the older transfer",
    UnknownSpecifierKeeps: "an unknown specifier leaves the transfer",
    SpecifierSevenIgnored: "specifier 7 counts as the client's abort",
    AbortKeepsTransfer: "the client's abort leaves the transfer",
    AbortDropsBoth: "the client's abort drops both lines' transfers",
    AbortAnswered: "the client's abort is number 0",
    EndedReadKeepsBytes: "an ended read leaves its held bytes",
    EndedWriteKeepsRow: "an ended write leaves its row",
    OpeningKeepsBytes: "an opening does not clear the older held bytes",
    NotLastAtSeven: "a read with seven bytes left is not at its last part",
    ReadUnusedBits: "the last part of a read counts unused bytes of eight",
    HeldAtFirstPart: "a long read is held at its first part, not at its opening",
    WriteLiveAtParts: "a write in parts of the label acts part by part",
    LinesShareRecord: "both lines use one record",
    // lent records
    RecordRowFree: "a record's row outside the table is cut to the last row",
    RecordAccessFree: "a record may write a read-only row",
    RecordLengthFree: "a record's length may differ from the row's",
    RecordPlaceAtEnd: "a record with its place at the length counts as none",
    RecordDirectionFree: "any direction but 1 is a write",
    RecordToggleBit: "of a lent toggle byte only bit 0 counts",
    NoneRecordKept: "a record that counts as none is left when its line gets an abort",
    // numbers
    LineBeforeMemory: "a wrong line is told before wrong memory",
    MessageBeforeRoom: "a wrong message is told before a short room",
    RoomBeforeLine: "a short room is told before a wrong line",
    RoomMustFit: "a longer room is refused",
    LongMessageCut: "a longer message is cut to eight bytes",
    AnswerRoomFilled: "later bytes of a longer room are cleared",
    ImageRoomFilled: "later bytes of a longer image room are cleared",
    RefusedCallDrops: "a call with a short room drops the transfer",
    AbortNeedsNoRoom: "the client's abort is taken with a short room",
    LineMasked: "of a line number only bit 0 counts",

    [OF_THE_MAILBOX]
    // the form of line 0
    EightBesideMailbox: "eight bytes are taken on line 0 in the mailbox form",
    MailboxThoughEight: "a mailbox is taken though eight bytes are chosen",
    LineOneRefused: "line 1 is refused in the mailbox form",
    PowerUpKeepsForm: "power-up leaves the form",
    RefusedPowerUpWritesForm: "a power-up that is refused with 4 writes the form",
    FormLowBit: "of the form that power-up is given only bit 0 counts",
    FormLowByte: "of the form that power-up is given only the low byte counts",
    FormNumberKept: "power-up keeps the number of the form, not 0 or 1",
    LentFormMustBeOne: "a lent form byte of 2 to 255 is not the mailbox",
    LentFormSetRight: "a mailbox sets a lent form byte to 1",
    ResetLosesForm: "a device reset goes back to eight bytes",
    SampleClearsForm: "a sample goes back to eight bytes",
    // numbers of a mailbox
    FormBeforeMemory: "the form that is not chosen is told before wrong memory",
    MailboxBeforeForm: "a wrong mailbox is told before the form",
    TypeBeforeMailbox: "what is no SDO request is told before a wrong mailbox",
    RoomBeforeMailbox: "a short room is told before a wrong mailbox",
    RoomBeforeType: "a short room is told before what is no SDO request",
    LengthNineTaken: "a length field of 9 is taken",
    Length123Taken: "a length field of 123 is taken",
    LengthLowByte: "of the length field only the low byte counts",
    ShortMailboxTaken: "a mailbox of 127 bytes is taken",
    LongMailboxTaken: "a mailbox of 129 bytes is taken",
    TypeUnheeded: "the mailbox's type is not looked at",
    ServiceUnheeded: "the CoE service is not looked at",
    ResponseTaken: "an SDO response is taken as a request",
    ReservedBitHeeded: "a mailbox with the reserved bit of its counter set is no SDO request",
    ChannelHeeded: "a mailbox on another channel or of another priority is no SDO request",
    CoeNumberHeeded: "a CoE header with a number or reserved bits is no SDO request",
    Room127Taken: "a room of 127 bytes is taken for a mailbox",
    MailboxAbortNeedsNoRoom: "the client's abort by mailbox is taken with a short room",
    MailboxAbortWrites: "the client's abort by mailbox writes zeros into the room",
    RefusedMailboxDrops: "a mailbox that is refused by number drops the transfer",
    // headers of the answer
    CounterCut: "the answer's counter is 0",
    ReservedBitCopied: "the reserved bit of the counter is copied",
    CounterKept: "the counter of a mailbox is kept in a spare byte",
    AddressCut: "the high byte of the address is lost",
    ChannelCopied: "channel and priority are copied",
    CoeNumberCopied: "the CoE number is copied",
    AbortByResponse: "an abort answer has service 3",
    AnswersByRequest: "every answer has service 2",
    LengthWithHeader: "the answer's length field counts the mailbox header too",
    OnlyUsedWritten: "behind the SDO of the answer the room is left as it was",
    RequestBehindAnswer: "behind the SDO of the answer stand bytes of the request",
    MailboxRoomFilled: "later bytes of a longer room are cleared by a mailbox",
    // SDOs in a mailbox
    MailboxOnLineOne: "a mailbox moves the transfer of line 1",
    CompleteAccessRefused: "the bit of complete access is refused",
    ReadSurplusRefused: "bytes behind the opening of a read are too many",
    ExpeditedSurplusRefused: "bytes behind an expedited value are too many",
    ReadOpeningLeftOpen: "an opening that carried all leaves the read open",
    ReadOpeningBare: "the answer to the opening of a read carries nothing of a longer value",
    ReadPartsOfSeven: "parts of a read carry seven bytes at most",
    UnusedBitsWrapped: "a part of a read with more than seven bytes has bits for unused ones",
    ShortPartNotFilled: "a part of a read with less than seven bytes is not filled up",
    SurplusIgnored: "of an opening that brings more than it announces the surplus is dropped",
    SurplusFirst: "a surplus is told before the announced length",
    UnsizedSurplusCut: "of an opening without a size what is more than the entry's length is dropped",
    WholeLengthUnjudged: "an announced length is not judged where the entry's length came",
    WholeOpeningWaits: "an opening that brings all waits for a last part",
    UnsizedOpeningEnds: "an opening without a size that brings the entry's length ends the write",
    WholeUnlocked: "the lock does not refuse a write that its opening ends",
    WholeUncrossed: "a write that its opening ends is not judged for a crossed trip point",
    WholeResetForgotten: "a device reset by one mailbox is not done",
    BytesBehindTaken: "an opening brings 112 bytes, whatever its length field",
    PartBytesBehindTaken: "a part brings 119 bytes, whatever its length field",
    CarriedForgotten: "bytes that an opening carries are lost if parts follow",
    OpeningTurnsToggle: "an opening that carries bytes turns the toggle",
    PartOneShort: "a longer part of a write brings a byte less",
    WritePartsOfSeven: "a part of a write brings seven bytes at most",
    UnusedBitsInLongPart: "bits for unused bytes count in a part of more than seven",
    EmptyPartFull: "a part with seven unused bytes brings seven",
}
