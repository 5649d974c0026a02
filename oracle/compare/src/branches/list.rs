//! Every branch of the rules that a call can take.

macro_rules! branches {
    ($($group:literal { $($name:ident = $text:literal),+ $(,)? })+) => {
        /// A branch of the rules.
        #[derive(Debug, Clone, Copy, PartialEq, Eq)]
        pub enum Branch { $($($name),+),+ }

        /// Every branch with its group and what it is.
        pub const BRANCHES: &[(&str, &str, Branch)] = &[$($(($group, $text, Branch::$name)),+),+];
    };
}

branches! {
    "key" {
        Known = "known",
        New = "new",
        NewSharedHash = "new, and another key of its hash has a slot",
    }
    "touch" {
        MarkThere = "the mark was set",
        MarkSet = "the mark gets set",
        SeenRaised = "last-seen raised",
        SeenKept = "last-seen is not earlier: kept",
        SeenUntracked = "no idle time: last-seen kept",
    }
    "lookup" {
        LookedHome = "found at its home",
        LookedOn = "found further on",
        LookedToEmpty = "not found, up to an empty place",
        LookedAllRound = "not found, once round a full index",
        LookedRound = "goes on at the first place",
        LookedOver = "passes over a place that names no item",
    }
    "add to an index" {
        AddPlace = "at the end of its walk",
        AddNoPlace = "no place: the index is full",
    }
    "remove from an index" {
        GoneUnnamed = "no place on its walk names it",
        GoneUpToEmpty = "up to a place met empty",
        GoneAllRound = "once round: no place met empty",
        GoneAddedAgain = "another item is added again",
        GoneAgain = "the item itself, named twice, is added again",
        GoneNoItem = "a place that names no item is emptied",
        Renumbered = "the moved item gets its number",
        RenumberedNowhere = "the moved item has no place",
    }
    "take the debt" {
        TakeNone = "none",
        TakeLast = "the last one",
        TakeSwap = "the last one moves into the gap",
    }
    "idle sweep" {
        IdleOff = "no idle time",
        IdleNoSlots = "no slots",
        IdleGoneLast = "the last slot goes",
        IdleGoneSwap = "a slot goes, the last moves into the gap",
        IdleYoung = "stays: not idle for long enough",
        IdleOwing = "stays: idle, not full",
        IdleRound = "starts again at 0",
        IdleEmptied = "ends early: none left",
    }
    "ledger sweep" {
        SweepNoDebts = "no debts",
        SweepGoneLast = "the last debt goes",
        SweepGoneSwap = "a debt goes, the last moves into the gap",
        SweepKept = "stays: not settled",
        SweepRound = "starts again at 0",
        SweepEmptied = "ends early: none left",
    }
    "eviction" {
        EvictRoom = "not needed",
        EvictAtOnce = "a full slot without the mark, at once",
        EvictFirstFull = "the first full slot",
        EvictFirstUnmarked = "the first slot without the mark",
        EvictUnmarkedLater = "... which is not the first looked at",
        EvictFirstLooked = "the first looked at: all marked",
        EvictGoneLast = "the last slot goes",
        EvictGoneSwap = "a slot goes, the last moves into the gap",
        EvictRound = "the hand starts again at 0",
        EvictAllLooks = "32 looks, and more slots",
    }
    "record a debt" {
        RecordKept = "its hash has a later one",
        RecordRaised = "its hash has one, which gets later",
        RecordRoom = "appended, below the cap",
        RecordSettled = "a settled one is dropped",
        RecordForgets = "the soonest one is forgotten",
        RecordForgetsLater = "... which is not the first looked at",
        RecordNoRoom = "no room",
        RecordTie = "two looked at settle together",
        RecordRound = "the cursor starts again at 0",
        RecordAllLooks = "8 looks, and more debts",
    }
    "refused for space" {
        SpaceFloor = "1 ms, at least",
        SpaceSlot = "until a slot is full",
        SpaceLedger = "until a debt is settled",
        SpaceTry = "a try",
        SpaceReserve = "a reservation",
        SpacePutBack = "the debt is put back",
    }
    "restore a debt" {
        RestoreNone = "no debt",
        RestoreSettled = "settled: nothing",
        RestoreAsItIs = "the fresh bucket has no more than is left",
        RestoreCut = "cut to what is left",
        RestoreCharged = "charged beyond empty",
        RestoreHeld = "charged, held to the largest shortfall",
    }
    "bucket" {
        BucketLaterStamp = "read before its stamp",
        BucketGrown = "... and not full: it recovers later by the time up to the stamp",
        BucketGrownHeld = "... past what 64 bits hold",
        BucketFull = "a shortfall that has fallen to 0",
        BucketPart = "a shortfall that has fallen, not to 0",
        BucketReadCut = "a stored shortfall over the largest",
    }
    "try" {
        TryOver = "impossible",
        TryZero = "cost 0",
        TryGranted = "granted",
        TryDenied = "retry",
    }
    "reserve" {
        ReserveOver = "none: over the burst",
        ReserveZero = "cost 0",
        ReserveNow = "granted, wait 0",
        ReserveLater = "granted, to be waited for",
        ReserveLongest = "... the wait is the longest allowed",
        ReserveNone = "none: too long",
    }
    "peek" {
        PeekOver = "impossible",
        PeekZero = "cost 0",
        PeekSlotNow = "slot: acquired",
        PeekSlotRetry = "slot: retry",
        PeekFreshNow = "no state: acquired",
        PeekFreshRetry = "no state: retry",
        PeekDebtNow = "debt: acquired",
        PeekDebtRetry = "debt: retry",
    }
    "available" {
        AvailableSlot = "slot",
        AvailableFresh = "no state",
        AvailableDebt = "debt",
        AvailableBelow = "below empty: 0",
    }
    "refund" {
        RefundSlot = "slot",
        RefundSlotFull = "slot: full now",
        RefundDebt = "debt",
        RefundDebtGone = "debt: settles at 0 now",
        RefundHeld = "debt: the credit is held to 64 bits",
        RefundUnknown = "unknown",
    }
    "remove" {
        RemoveSlot = "slot only",
        RemoveDebt = "debt only",
        RemoveBoth = "slot and debt",
        RemoveUnknown = "unknown",
        RemoveSlotLast = "the last slot goes",
        RemoveSlotSwap = "a slot goes, the last moves into the gap",
    }
    "count of tries turned away" {
        CountFirst = "the first of a slot",
        CountAppended = "... by the call that appended the slot",
        CountAppendedNone = "none, by a call that appended the slot and that only a class denied",
        CountNext = "one more",
        CountStops = "at its most: it stays",
        CountCut = "a larger word: the most is stored",
        CountGrant = "not 0, and left by a grant",
        CountGrantLarger = "... a larger word",
        CountReserve = "not 0, and left by a reservation that gets none",
        CountClass = "not 0, and left by a try that only a class denied",
        CountGone = "not 0, and goes with its slot",
        CountMoved = "not 0, and moves with its slot into a gap",
    }
    "turned away" {
        TurnedAwayNone = "slot: 0",
        TurnedAwaySome = "slot: not 0",
        TurnedAwayLarger = "slot: a larger word reads as the most",
        TurnedAwayDebt = "debt alone: 0",
        TurnedAwayFresh = "no state: 0",
    }
    "try through a class" {
        ThroughOver = "impossible: over the modem's burst",
        ThroughOverClass = "impossible: over a burst on the chain alone",
        ThroughZero = "cost 0",
        ThroughGranted = "granted by all",
        ThroughLongest = "granted by all of a chain of 8",
        ThroughDeniedOwn = "denied by the modem's bucket alone",
        ThroughDeniedClass = "denied by the chain alone",
        ThroughDeniedOwnLonger = "denied by both, the modem's wait is no shorter",
        ThroughDeniedClassLonger = "denied by both, the chain's wait is longer",
        ThroughDeniedAbove = "... a class above the named one has the longest of the chain",
        ThroughSpace = "no room for the modem",
        ThroughSpaceDenied = "... and a class would deny",
    }
    "bucket of a class" {
        ClassLaterStamp = "read before its stamp",
        ClassGrown = "... and denies: the wait is longer by the time up to the stamp",
        ClassHeld = "... past what 64 bits hold",
        ClassFull = "a shortfall that has fallen to 0",
        ClassPart = "a shortfall that has not",
        ClassReadCut = "a stored shortfall over the largest",
    }
    "list of debts" {
        ListEmpty = "no debts",
        ListSettled = "all have settled",
        ListSome = "some have settled",
        ListAll = "none has settled",
        ListNow = "... one settles at the moment, and is left out",
        ListNoRecords = "no records, and none to be written",
        ListJust = "as many records as are written",
        ListMore = "more records: those past them stay",
        ListCursor = "the cursor is past the debts",
        ListSlots = "a slot count over the cap is not looked at",
        ListTotal = "a total that a call with a key refuses is not looked at",
    }
    "whole store" {
        SetUp = "set-up",
        SetUpClasses = "set-up with classes",
        ClearEmpty = "clear, all words 0 before",
        ClearHeld = "clear",
        ClearClasses = "... with buckets of classes that were not as at first",
        LengthNone = "length 0",
        LengthSome = "length, not 0",
    }
    "closed" {
        ClosedTryZero = "try, cost 0: acquired",
        ClosedTry = "try: impossible",
        ClosedThroughZero = "try through a class, cost 0: acquired",
        ClosedThrough = "try through a class: impossible",
        ClosedPeekZero = "peek, cost 0: acquired",
        ClosedPeek = "peek: impossible",
        ClosedReserveZero = "reserve, cost 0: none",
        ClosedReserve = "reserve: none",
        ClosedAvailable = "available: 0",
        ClosedRefund = "refund: unknown",
        ClosedRemove = "remove: known",
        ClosedRemoveUnknown = "remove: unknown",
        ClosedTurnedAway = "turned away: slot",
        ClosedTurnedAwayNone = "turned away: no slot",
        ClosedLength = "length",
        ClosedClear = "clear",
        ClosedList = "list of debts: some",
        ClosedListNone = "list of debts: none",
    }
}

/// Proved never to happen: a debt that was taken out leaves room in the ledger, so no refusal for space follows.
const DEAD: [Branch; 1] = [Branch::SpacePutBack];

/// Not to be had in stores grown from set-up under one settings record: grants leave no shortfall over the largest and no stamp after 2^62,
/// a closed limiter gets no keys, and an index names every item once, on its walk, and nothing else, so that half of its places or more are empty.
/// No count is over the most, and no trace is long enough for one at its most.
const ONLY_LOADED: [Branch; 21] = [
    Branch::BucketReadCut,
    Branch::BucketGrownHeld,
    Branch::ClassReadCut,
    Branch::ClassHeld,
    Branch::CountStops,
    Branch::CountCut,
    Branch::CountGrantLarger,
    Branch::TurnedAwayLarger,
    Branch::ClosedRemove,
    Branch::ClosedTurnedAway,
    Branch::LookedAllRound,
    Branch::LookedOver,
    Branch::AddNoPlace,
    Branch::GoneUnnamed,
    Branch::GoneAllRound,
    Branch::GoneAgain,
    Branch::GoneNoItem,
    Branch::RenumberedNowhere,
    Branch::ListSlots,
    Branch::ListTotal,
    Branch::ClosedList,
];

/// What is said beside a branch that need not be taken.
pub fn note(branch: Branch) -> &'static str {
    if DEAD.contains(&branch) {
        " (proved dead)"
    } else if ONLY_LOADED.contains(&branch) {
        " (not in grown stores)"
    } else {
        ""
    }
}

/// Whether a branch is proved never to be taken.
pub fn is_dead(branch: Branch) -> bool {
    DEAD.contains(&branch)
}
