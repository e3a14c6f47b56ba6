//! Mistakes that can be planted in our own reading, to see that the cases would find them in a program: in all of it, and in its lines of runs.
//! With nothing planted, the rest of this program follows the paper.

use std::cell::Cell;

/// A mistake, its name, and what it is.
pub type Planted = (Fault, &'static str, &'static str);

macro_rules! faults {
    ($($list:ident { $($name:ident: $what:expr,)* })*) => {
        #[derive(Clone, Copy, PartialEq, Eq, Debug)]
        pub enum Fault { $($($name),*),* }
        $(pub const $list: &[Planted] = &[$((Fault::$name, stringify!($name), $what)),*];)*
    };
}

faults! {
ALL {
    UnseenIsFalse: "a proposition not seen is taken as false",
    NoFairness: "fairness sets are not asked for",
    FairnessOnce: "all fairness sets are taken as one",
    FinallyPutOff: "F and U may be put off for ever",
    GloballyPutOff: "G and R may be false for ever with no reason",
    DeadPairsKept: "pairs that no fair loop follows are kept",
    DeadEndsLive: "a state with no next state begins a run",
    MoveBeforeFirst: "the table moves before the first event",
    NoMove: "the state never moves",
    RestartForgets: "a restart forgets what was seen, and begins at a starting state",
    RestartAnywhere: "a restart forgets what was seen, and begins at any state",
    RestartRevives: "a restart leads out of out-of-model",
    RestartIgnored: "a restart flag does nothing: the rule is judged from position 0",
    RestartKeepsSides: "at a restart each set is split apart from the other, by its own kind",
    RestartSplitsFirst: "a restart splits the old pairs, and then they move: the rule is judged one position early",
    RestartAtStart: "a restart is at a starting state",
    RestartNoMove: "at a restart the table does not move",
    RestartFirst: "a restart flag on the first event moves the table",
    StartAnywhere: "a run begins at any state",
    DecidedSticks: "true and false never become out-of-model",
    TrueOnNothing: "with no agreeing run the lamp shows true",
    LeftCountsPairs: "left counts pairs and not states",
    LeftCountsTwice: "left counts a state once for each set",
    LeftOfKeeping: "left counts the first set alone",
    NextIsNow: "X looks at this position",
    UntilNeedsNoEnd: "U is the weak until",
    ReleaseSwapped: "R has its sides swapped",
    ReleaseAtOnce: "R lets go at the very position of its left side",
    UntilToLeft: "U and R group to the left",
    ArrowToLeft: "-> groups to the left",
    UntilLooserThanAnd: "U and R bind looser than &",
    AndLooserThanOr: "& binds looser than |",
    PrefixLoose: "a prefix operator takes all that follows it up to & or |",
    TabIsSpace: "a tab counts as a space",
    SpaceInProp: "p 0 is read as p0",
    RulePlaceToken: "a bad rule is refused at the start of a token",
    RulePlaceEarly: "a rule that stops too soon is refused at its last byte",
    PropPlaceLast: "the last bad proposition is named, not the first",
    PropPlaceDigit: "a bad proposition is named by its digit",
    PropAfterNodes: "7 goes before 6",
    PartsBeforeNodes: "8 goes before 7",
    ParenthesesCount: "a pair of parentheses counts as an operator",
    Nodes31: "31 operators and leaves is the limit",
    Nodes33: "33 operators and leaves is the limit",
    Parts5: "5 temporal operators is the limit",
    Parts7: "7 temporal operators is the limit",
    RuleLimitPlays: "512 bytes that need more to be a rule are refused by 4",
    RuleSizeAfterDrop: "513 bytes without a final LF are over the size",
    DropsTwo: "two final LFs are dropped",
    DropsNone: "no final LF is dropped",
    FilesFirst: "all files are read before any is checked",
    RuleBeforeTable: "the rule is refused before the table",
    BitsAfterRule: "the rule is refused before the table's bits, and after its form",
    LogBeforeTable: "the log is refused before the table",
    LogBeforeRule: "the log is refused before the rule, and after the table",
    LogLate: "the start line is written before the log's form is checked",
    EventBeforeForm: "an event is refused before the log's form",
    EventPlaceZero: "a refused event has place 0",
    EventPlaceLine: "a refused event has its line's number as place",
    EventSeeUnchecked: "an event may see a proposition beyond props",
    EventValUnchecked: "an event may give 1 to a proposition not seen",
    CountsAreOne: "a count out of range in a text is 1 at 0",
    BitsBeforeForm: "a bad bit is refused before a bad byte behind it",
    LabelBitsUnchecked: "label bits are not checked",
    FairBitsUnchecked: "fairness bits are not checked",
    NextBitsUnchecked: "next bits are not checked",
    StartBitsUnchecked: "start bits are not checked",
    CapitalsRefused: "capital hexadecimal digits are refused",
    CapitalsInTablesAlone: "capital digits are taken in tables and refused in logs",
    OneCaseInNumber: "capital and small digits may not stand in one number",
    CapitalsInKeys: "capital letters are taken in keys",
    CapitalsOneMore: "A is 11, B is 12 and so on",
    DigitG: "g and G are digits of value 16",
    DigitAt: "the byte before A is the digit 9",
    AlwaysTwoDigits: "sets of more than 8 propositions have two digits",
    AlwaysFourDigits: "sets of few propositions have four digits",
    NamesOfOneDigit: "no name has two digits",
    TextAfterTable: "bytes after the last line of a table are taken",
    LastLineOpen: "the last line of a table needs no LF",
    LogLineOpen: "the last line of a log needs no LF",
    PlantLimit: "plant.txt may have 2,347 bytes at most",
    LogLimit: "log.txt may have 65,500 bytes at most",
    NoPlantLimit: "plant.txt has no size limit",
    NoLogLimit: "log.txt has no size limit",
    FolderIsEmpty: "a folder in the place of a file is an empty file",
    MissingIsEmpty: "a missing log is an empty log",
    NumbersRestart: "n counts from the last restart",
    LinesCounted: "n counts lines, whatever their numbers",
    NumbersHex: "n is written in hexadecimal",
    NumbersRefused: "lines with numbers are refused",
    MixTaken: "numbered and plain lines may stand in one log",
    MixPlaceFirst: "a log that mixes is refused at its first line",
    MixPlaceBehind: "a log that mixes is refused at the second byte of the line that differs",
    GapOf17: "17 missing numbers are taken",
    GapOf16Refused: "16 missing numbers are refused",
    RepeatTaken: "a number that comes again is taken",
    BackTaken: "a number that goes back is taken",
    FirstFromZero: "numbers are missing before the first event too",
    NumbersAnew: "after a restart any number may come",
    NumbersWrap: "behind the last number of 32 bits comes 0",
    LastRefused: "the last number of 32 bits is refused",
    NumberBeforeEvent: "16 goes before 10",
    NumberPlaceZero: "a refused number has place 0",
    UnseenLeftOut: "missing events are passed over",
    UnseenBehind: "missing events are put in behind the event that shows it",
    UnseenOneMore: "one event too many is put in",
    UnseenRestart: "missing events are restarts",
    UnseenShown: "missing events get lines of their own",
    WordUnknown: "inconclusive is written unknown",
}
OF_TABLES {
    CapitalsWritten: "sets are written with capital digits",
    ZeroBeforeCount: "a count of one digit is written with a zero before it",
    ShortSets: "a set is written without its leading zeros",
    LabelsOfTwo: "labels are written with two digits for more than 8 propositions",
    LabelsOfFour: "labels are written with four digits for 8 propositions or fewer",
    NextBeforeLabel: "a state's next states are written before its label",
    LabelsTogether: "all labels are written before all next states",
}
OF_WRITING {
    BitsBeforeCounts: "2 goes before 1",
    RoomBeforeBits: "11 goes before 2",
    RoomForLongest: "11 is for a buffer shorter than the longest text",
    BytesBeyondCleared: "the bytes behind the text are cleared",
}
OF_SHEETS {
    SharedFirst: "the shared line goes before the local one",
    SharedUnread: "the shared sheet is not looked at where the local one has the key",
    SharedFormFirst: "the shared sheet is refused before the local one",
    MissingFirst: "17 goes before 18",
    LinesInAnyOrder: "lines may stand in any order",
    LineTwice: "a line may come twice",
    SheetLineOpen: "the last line of a sheet needs no LF",
    LeadingZeros: "numbers of a sheet may have zeros before them",
    EditionZero: "edition 0 is taken",
    Edition65536: "edition 65536 is taken",
    Closing100: "closing=100 is taken",
    RuleEmpty: "an empty rule is taken in a sheet",
    Rule513: "a rule of 513 bytes is taken in a sheet",
    Rule511: "a rule of 512 bytes is refused in a sheet",
    RuleTab: "bytes below 32 are taken in a sheet's rule",
    RuleDelete: "byte 127 is taken in a sheet's rule",
    RuleNoTilde: "byte 126 is refused in a sheet's rule",
    LongLookedAt: "a sheet over 1,024 bytes is looked at",
    LongPlaceLength: "a sheet over 1,024 bytes is refused at its length",
    PlaceOfLine: "a sheet is refused where its bad line begins",
    PlaceOfValue: "a sheet is refused where its bad value begins",
    PlaceOneBack: "a sheet that stops too soon is refused at its last byte",
    NoSheetNumber: "18 does not tell which sheet",
    ValueWithKey: "the key belongs to the value",
    ValueWithEnd: "the LF belongs to the value",
    SharedPlaceBehind: "a place in the shared sheet counts from the local one's start",
    UnknownKeyMissing: "an unknown key is 17",
    KeyAfterSheets: "an unknown key is refused behind the sheets",
}
OF_STORES {
    LongTaken: "a sheet over 1,024 bytes is looked at before it is kept",
    NewestDropped: "a full store drops the newest of its sheets",
    SevenHeld: "seven sheets are held",
    NineHeld: "nine sheets are held",
    SameEditionTaken: "an edition that is held already is taken again",
    AnyNewEdition: "any edition is taken that is not held",
    RefusedDrops: "a sheet that is refused by 19 drops the oldest",
    AllCounted: "all sheets ever taken are counted",
    EditionBeforeForm: "17 goes before 18 in a store",
    DamageLate: "a damaged store is refused behind the sheet's form",
    RoomBeforeHeld: "11 goes before 20",
    RoomForAnySheet: "a buffer of 1,024 bytes is asked for, however long the sheet is",
    RestCleared: "bytes behind a sheet that is copied out are cleared",
    EditionCutOff: "an edition is cut off to 16 bits",
}
OF_CLOSING {
    NextWeak: "X is true at the last event",
    FinallyOpen: "F that was not met might still be",
    GloballyOpen: "G is met only if it goes on for ever",
    UntilOpen: "U is the weak until within the events",
    ReleaseOpen: "R is met only where its left side comes",
    NegationPushed: "!X is X of the negation",
    RestartLeftOut: "a restart's own event is not counted",
    RestartsPassedOver: "all events are counted, whatever restarts there were",
    BlindPassedOver: "an event that did not see all is left out",
    BlindIsOff: "what an event did not see counts as off",
    BlindBeforeSpoils: "an event before the last restart must have seen all too",
    LostPassedOver: "lost events are passed over",
    AllPropsAsked: "all propositions of the table must be seen",
    NothingPresumed: "something is presumed where there is no event",
    DecidedPresumed: "a decided verdict is presumed too",
    FirstPresumes: "edition 1 presumes too",
    EditionsGoOn: "every later edition is as 2",
    EditionFromZero: "edition 0 is as 1",
    EditionFirst: "21 goes before all other refusals",
    EditionBeforeEvents: "21 goes before 10 and 16",
    ClosingPlaceZero: "an event is refused at place 0 at a day's end",
    ClosingNoCount: "the events before a refused one are not counted at a day's end",
}
OF_WHOLE {
    WholeRoomFirst: "11 goes before 12",
    WholeRoomForgotten: "a whole log writes what there is room for",
    WholeRoomForOneMore: "a whole log asks for a byte more than lines",
    WholeLineEndDropped: "a line end behind the rule of a whole log is dropped",
    WholePlaceNext: "an event of a whole log is refused at the next line",
    WholePlaceZero: "an event of a whole log is refused at place 0",
    WholeCountOneMore: "the event that a whole log is refused at is counted",
    WholeNoCount: "the events before a refused one of a whole log are not counted",
    WholeNothingWritten: "a refused event of a whole log leaves all bytes",
    WholeByteBeyond: "a byte is written behind the last verdict",
    WholeOpeningShown: "the first byte is what the opening shows",
    WholeLostShown: "an event that was lost has a byte",
}
OF_MACHINES {
    JoinedByVerdict: "rows are joined by the verdict alone",
    NothingJoined: "no rows are joined",
    OpeningAlone: "the opening is joined with no other state",
    NumberedByColumns: "rows are numbered going through columns first",
    ColumnsByVal: "columns are in order of val before see",
    ColumnsByRestart: "columns are in order of new before see",
    LeftBeforeVerdict: "left is written before the verdict",
    WordsBeforeProps: "11 for few words goes before 1 for many propositions",
    StatesBeforeWords: "15 goes before 11 for few words",
    WordsStayAtFifteen: "the words stay as they were at 15",
    WordsStayAtEleven: "the words stay as they were where the machine does not fit",
}
OF_ROWS {
    LinesFromOne: "the lines number the rows from 1",
    NamesValBeforeSee: "a column is named by val before see",
    LastRowLost: "the array leaves the last row out",
}
OF_LOOK_UPS {
    PartOfARow: "bytes behind the last whole row are passed over",
    EventBeforeBytes: "10 goes before 9",
    AnyVerdict: "a row may show a verdict over 3",
    OldRowShown: "what the row before the event shows is told",
}
OF_DAYS {
    DayRestartBefore: "a restart's event is counted in the stretch before",
    DayForgets: "what was decided is forgotten when out-of-model follows",
    DayUnseenUncounted: "unseen events are not counted",
    DayUnseenBehind: "unseen events before a restart belong to the stretch that it begins",
    DayFirstFlag: "a restart flag on the first event begins a second stretch",
    DayFirstVerdict: "the verdict is that of the stretch's first event",
    DayLastDecided: "the last event at which the verdict was true or false is told",
    DayDecidedOnce: "only the first stretch that is decided tells so",
    DaySixtyFive: "a sheet has up to 65 stretches",
    DaySixtyThree: "a sheet has up to 63 stretches",
    DayFullEarly: "23 goes before 10 and 16",
    DayFullTakes: "an event refused by 23 is taken by the monitor",
    DayDash: "a stretch that is not decided says 0",
    DayCountsNumbers: "first is the number of the stretch",
}
OF_REPORTS {
    FairnessBeforeMoves: "fairness is looked at before the moves",
    LoopNotClosed: "the loop's last state need not lead to its first",
    StemIsFair: "a fairness set may be met in the stem",
    OneTurnAgrees: "events beyond the loop's first turn are forgotten",
    JudgedAtStart: "the rule is judged at position 0 after a restart",
    OtherRunLookedAt: "a run that is not needed is looked at",
    BreakingFirst: "the run that breaks the rule is looked at first",
    RunsOf4095: "a run of 4,096 states is too long",
    RunIsEnough: "a right run is enough for a claim of true or false",
}
OF_MINUTES {
    MinutesPlaceZero: "an event of the day is refused at place 0",
    MinutesLinesStand: "the lines of the day stand before a refusal",
    MinutesVerdictFirst: "the closing verdict stands before the lines",
    MinutesLastOnly: "the line of the last stretch alone is written",
}
OF_SCRAPS {
    ScrapCountsAll: "a scrap's verdicts are counted for the whole log",
    ScrapPlaceWithin: "a place is counted within the scrap",
    ScrapEventAtEnd: "an event is refused where its scrap ends",
    ScrapForgets: "a refusal does not stick",
    ScrapRefusedUnwritten: "verdicts before a refusal are not written",
    ScrapPartLost: "a line that is not whole is forgotten between scraps",
    ScrapByteLate: "a bad byte is refused only at its line's end",
    ScrapLinesAlone: "an LF that ends no line is not counted for 11",
    ScrapRoomFirst: "11 and 24 go before the refusal that stands",
    ScrapRoomSticks: "11 sticks",
    ScrapRoomTakes: "11 takes the scrap",
    ScrapLengthFirst: "24 goes before 11",
    ScrapOneLess: "a log has up to 4,294,967,294 bytes",
    ScrapEndAtLine: "a line that is not whole is refused where it begins",
    ScrapEndSticks: "the end's 12 sticks",
}
OF_RUNS {
    RunStateChanged: "one state of a loop is another",
    RunStateBeyond: "a state is not in the table",
    RunSkipsFairness: "a loop leaves fairness sets out",
    RunPutsOff: "a loop puts F and U off for ever",
    RunSwapped: "stem and loop are swapped",
    RunLoopOpen: "the last state of a loop is left out",
    RunMovesFirst: "a run goes on from the state after this one",
    RunFromStart: "a run goes on from the start, not from the last event",
    RunLongLoop: "a loop is over 45,056 long",
    RunLongStem: "a stem is over 4,095 long",
    RunKindLeftOut: "a kind of which there is a run is left out",
    RunKindInvented: "a run is shown of a kind of which there is none",
    RunWrongKind: "the runs of the two kinds are exchanged",
    RunBreaksFirst: "the kind that breaks the rule comes first",
    RunOneLine: "the second line is not written",
    RunTwoDigits: "states are written with two digits",
}
}

/// Mistakes that only lamps show, and no line of a run.
pub const OF_LAMPS: &[Fault] = &[
    Fault::TrueOnNothing, Fault::LeftCountsPairs, Fault::LeftCountsTwice, Fault::LeftOfKeeping, Fault::LogLate, Fault::NumbersRestart, Fault::LinesCounted,
    Fault::NumbersHex, Fault::UnseenShown, Fault::WordUnknown,
];

thread_local! { static PLANTED: Cell<Option<Fault>> = Cell::new(None); }

/// Is this mistake planted in this thread?
pub fn is(fault: Fault) -> bool {
    PLANTED.with(|p| p.get() == Some(fault))
}

/// Puts back what was planted before, also when the work is given up.
struct Before(Option<Fault>);

impl Drop for Before {
    fn drop(&mut self) {
        PLANTED.with(|p| p.set(self.0));
    }
}

/// Runs `work` with the mistake planted.
pub fn with<T>(fault: Option<Fault>, work: impl FnOnce() -> T) -> T {
    let _before = Before(PLANTED.with(|p| p.replace(fault)));
    work()
}

pub fn named(name: &str) -> Option<Fault> {
    ALL.iter().chain(OF_TABLES).chain(OF_WRITING).chain(OF_SHEETS).chain(OF_STORES).chain(OF_CLOSING).chain(OF_WHOLE).chain(OF_RUNS).chain(OF_MACHINES).chain(OF_ROWS).chain(OF_LOOK_UPS).chain(OF_DAYS).chain(OF_REPORTS).chain(OF_MINUTES).chain(OF_SCRAPS).find(|f| f.1 == name).map(|f| f.0)
}
