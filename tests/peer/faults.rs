//! Rules that are broken on purpose: walks and drivers must notice each.

/// One rule that is broken on purpose: the walks must notice it.
#[derive(Clone, Copy, PartialEq, Eq, Debug)]
pub enum Fault {
    None,
    MajorityOfPresent,
    MajorityOfSite,
    PromiseClearedAtStop,
    PromisedInLast,
    FirstHeard,
    SharedBeforeStored,
    CountOfReplies,
    FullHundred,
    AboveRefused,
    TrimPastLast,
    OneTooMany,
    FirstNotRaised,
    TakenByPlace,
    KeptUnderGap,
    OldFirstInCommits,
    FullBeforeRaise,
    AckAccepts,
    AckWithPn,
    AckOfDiscarded,
    AckDroppedWhenFull,
    AckByPlace,
    HeardKept,
    HeardByMajority,
    NoProposeWhenHeard,
    ByReceiver,
    LeaderFirst,
    HeardLeftOut,
    RefusedCounted,
    DiscardNotCounted,
    TriedWithNoneLeft,
    OddEpochRuns,
    LargestFound,
    UnagreedFound,
    SlotFound,
    RightFound,
    FoundByPlace,
    FrameZeroAsked,
}

/// Where a fault shows.
#[derive(Clone, Copy, PartialEq, Eq, Debug)]
pub enum Shows {
    /// It breaks demand 3, or form.
    InDemand,
    /// It breaks its rule's own sentence. With a majority of all n the accepts still meet every
    /// later election, a box that was told too little is told the rest at the next one, a number
    /// that jumps too far is above the old one, a box that was told of a lower first keeps more
    /// than it need, and one that refuses a Begin for which it has room holds nothing wrong. Who
    /// heard a lease is told to the crew, and no record is agreed by it.
    InRule,
    /// On sites that the steps do not reach, and on no others.
    OnForeign,
    /// It breaks the run after an election, and no step of it.
    InRun,
    /// It breaks the question which load has a frame, and no step.
    InFind,
}

/// Each fault, its name, and where a walk notices it.
pub const FAULTS: [(Fault, &str, Shows); 37] = [
    (Fault::MajorityOfPresent, "majority-of-present", Shows::InDemand),
    (Fault::MajorityOfSite, "majority-of-site", Shows::InRule),
    (Fault::PromiseClearedAtStop, "promise-cleared-at-stop", Shows::InDemand),
    (Fault::PromisedInLast, "promised-in-last", Shows::InDemand),
    (Fault::FirstHeard, "first-heard", Shows::InDemand),
    (Fault::SharedBeforeStored, "shared-before-stored", Shows::InRule),
    (Fault::CountOfReplies, "count-of-replies", Shows::InDemand),
    (Fault::FullHundred, "full-hundred", Shows::InRule),
    (Fault::AboveRefused, "above-refused", Shows::OnForeign),
    (Fault::TrimPastLast, "trim-past-last", Shows::InDemand),
    (Fault::OneTooMany, "one-too-many", Shows::InDemand),
    (Fault::FirstNotRaised, "first-not-raised", Shows::InDemand),
    (Fault::TakenByPlace, "taken-by-place", Shows::InDemand),
    (Fault::KeptUnderGap, "kept-under-gap", Shows::InDemand),
    (Fault::OldFirstInCommits, "old-first-in-commits", Shows::InRule),
    (Fault::FullBeforeRaise, "full-before-raise", Shows::InRule),
    (Fault::AckAccepts, "ack-accepts", Shows::InDemand),
    (Fault::AckWithPn, "ack-with-pn", Shows::InDemand),
    (Fault::AckOfDiscarded, "ack-of-discarded", Shows::InRule),
    (Fault::AckDroppedWhenFull, "ack-dropped-when-full", Shows::InRule),
    (Fault::AckByPlace, "ack-by-place", Shows::OnForeign),
    (Fault::HeardKept, "heard-kept", Shows::InRule),
    (Fault::HeardByMajority, "heard-by-majority", Shows::InRule),
    (Fault::NoProposeWhenHeard, "no-propose-when-heard", Shows::InRule),
    (Fault::ByReceiver, "by-receiver", Shows::InRun),
    (Fault::LeaderFirst, "leader-first", Shows::InRun),
    (Fault::HeardLeftOut, "heard-left-out", Shows::InRun),
    (Fault::RefusedCounted, "refused-counted", Shows::InRun),
    (Fault::DiscardNotCounted, "discard-not-counted", Shows::InRun),
    (Fault::TriedWithNoneLeft, "tried-with-none-left", Shows::InRun),
    (Fault::OddEpochRuns, "odd-epoch-runs", Shows::InRun),
    (Fault::LargestFound, "largest-found", Shows::InFind),
    (Fault::UnagreedFound, "unagreed-found", Shows::InFind),
    (Fault::SlotFound, "slot-found", Shows::InFind),
    (Fault::RightFound, "right-found", Shows::InFind),
    (Fault::FoundByPlace, "found-by-place", Shows::InFind),
    (Fault::FrameZeroAsked, "frame-zero-asked", Shows::InFind),
];
