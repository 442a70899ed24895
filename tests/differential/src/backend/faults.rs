//! The deliberate faults.

/// Faults that an engine might have.
#[derive(Clone, Copy, Debug, PartialEq, Eq)]
pub enum Fault {
    /// Output's label leaves out P.
    OutputWithoutPlace,
    /// Bnz does not raise P.
    BranchWithoutPlace,
    /// Store is tested on the new label and not on the old one.
    StoreOnNewLabel,
    /// Ret keeps P.
    RetKeepsPlace,
    /// A page's last newline is missing.
    PageCut,
    /// The word after the last line is written too.
    LineTooMany,
    /// A −1 pair is taken as an allowed row at the start.
    DeniedRowAccepted,
    /// A fault too many is counted where there were any.
    FaultTooMany,
    /// The handler allows what the table does not.
    HandlerAllows,
    /// The end line's label is empty.
    EndUnlabelled,
    /// An end line is written where the allowance is spent.
    EndWhereSpent,
    /// The end without room for its line is stop 0.
    EndWithoutRoom,
    /// The kinds do not count for the room.
    RoomWithoutKinds,
    /// The pages do not count for the room.
    RoomWithoutPages,
    /// The end line is counted as a step.
    EndIsStep,
    /// The end line needs allowance.
    EndNeedsAllowance,
    /// Sums outside 64 bits wrap.
    SumWraps,
    /// 2^63−1 is taken for outside.
    LargestOutside,
    /// −2^63 is taken for outside.
    SmallestOutside,
    /// 2^63 is taken for inside, and wraps.
    LargestPassed,
    /// −2^63−1 is taken for inside, and wraps.
    SmallestPassed,
    /// Sub is tested as if it were next − top.
    SubTestedBackwards,
    /// Stop 9 before the rule is asked, as far as the rule memory and its counts show it.
    OverflowUnasked,
    /// Stop 9 where the rule does not allow the sum.
    OverflowBeforeDenied,
    /// A sum that meets stop 9 has dropped its operands.
    OverflowDrops,
    /// A sum that meets stop 9 is counted as a step.
    OverflowIsStep,
    /// A sum that meets stop 9 has left what it wraps to.
    OverflowLeavesSum,
    /// Output prints on the page of the line before.
    PageKept,
    /// Output leaves the page word as it came.
    PageUnwritten,
    /// Output prints on the page that the operand of the command before it names.
    PageOfOperandBefore,
    /// OutputTo prints on page 0.
    PageLost,
    /// The end line is on the page of the last line.
    EndOnLastPage,
    /// OutputTo's label leaves out P.
    OutputToWithoutPlace,
    /// OutputTo has no rule, and is not allowed.
    OutputToDenied,
    /// OutputTo has Output's code in the rule memory.
    OutputToAsOutput,
    /// A row of Output is taken for OutputTo.
    OutputRowTaken,
    /// A row of OutputTo is taken for Output.
    OutputToRowTaken,
    /// A rule memory with a row of OutputTo is refused.
    OutputToRowRefused,
    /// A rule memory with the code after RetV's is accepted, as Output's row.
    NextRowAccepted,
    /// A cut OutputTo is refused by 12.
    PageBeforeCut,
    /// Pages are checked when all commands have passed the other checks.
    PageCheckedLast,
    /// Page 16 is accepted.
    PageSixteen,
    /// Pages are read as signed: those over 127 are below 0, and accepted.
    PageSigned,
    /// Refusal 12 has the operand's offset.
    PageOffset,
    /// An end line is printed without its page.
    EndWithoutPage,
    /// Pages are printed in hexadecimal.
    PageInHex,
    /// `page` clears every page for the reader's owners only.
    PageClearsReader,
    /// A line that is not cleared is left out, and the run goes on.
    UnclearedLeftOut,
    /// Page 0's clearance is every page's.
    ClearanceOfPageZero,
    /// The clearance must flow to the label.
    ClearanceBackwards,
    /// The label that must flow is that of the number, without P.
    ClearedWithoutPlace,
    /// Numbers on page 0 need no clearance.
    PageZeroUncleared,
    /// Numbers need no clearance where the rule memory has the row.
    MatchUncleared,
    /// Stop 8 before 10, at a command.
    FullBeforeCleared,
    /// Stop 8 before 10, at the end.
    EndFullBeforeCleared,
    /// Stop 1 before 10, at the end.
    EndSpentBeforeCleared,
    /// The end line needs no clearance.
    EndUncleared,
    /// The end line needs the clearance of the last line's page.
    EndClearedByLastPage,
    /// Stop 10 before the rule is asked, as far as the rule memory and its counts show it.
    UnclearedUnasked,
    /// Stop 10 where the rule does not allow the line.
    UnclearedBeforeDenied,
    /// Stop 10 leaves the −1 pair, as stop 6 does.
    UnclearedLeavesDenied,
    /// A command that meets stop 10 is counted as a step.
    UnclearedIsStep,
    /// A command that meets stop 10 has dropped its number.
    UnclearedDrops,
    /// Clearances are checked before all else.
    ClearancesFirst,
    /// Clearances are checked before the cells' labels.
    ClearancesBeforeLabels,
    /// Clearances are checked after the table.
    ClearancesAfterTable,
    /// Clearances are checked after all else.
    ClearancesLast,
    /// A clearance of 2^32 is accepted, as its lower half.
    ClearanceAbove,
    /// A clearance of −1 is accepted, as its lower half.
    ClearanceBelow,
    /// The last page's clearance is not checked.
    LastClearanceUnchecked,
    /// The place of refusal 13 is 0.
    ClearancePlaceLost,
    /// The place of refusal 13 is the last page at fault.
    ClearancePlaceLast,
    /// Fifteen clearances are accepted.
    FifteenClearances,
    /// More than sixteen clearances are accepted.
    ManyClearances,
    /// The words of clearances are tested before their number.
    ClearancesCountedLast,
    /// The place of refusal 13 for another number of clearances than sixteen is that number.
    ClearancesCounted,
    /// Ret is accepted on a frame that owes a result.
    RetOnResult,
    /// RetV is accepted on a frame that owes none.
    RetVOnNone,
    /// RetV takes the next frame that owes a result, whatever stands over it.
    RetVReachesDown,
    /// Stop 11 before 4: a value under RetV's is taken for a frame that owes none.
    ResultsBeforeFrame,
    /// Stop 4 before 3, at RetV.
    FrameBeforeValue,
    /// Stop 11 before 3, at RetV.
    ResultsBeforeValue,
    /// Stop 11 after the rule is asked, and after 6.
    ResultsAfterRule,
    /// A frame is taken for an argument.
    FrameAsArgument,
    /// The last argument need not be there.
    ArgumentMissing,
    /// A frame is taken for a CallN's target.
    TargetIsFrame,
    /// Arguments come to stand above the frame in reverse order.
    ArgumentsReversed,
    /// One argument too few stays above the frame.
    ArgumentTooFew,
    /// One value too many stays above the frame.
    ArgumentTooMany,
    /// The frame goes above the arguments.
    FrameOnTop,
    /// A CallN's frame has the label of the place that it goes to.
    FrameRaised,
    /// A CallN's frame has the place of the call.
    FrameBack,
    /// An old Call's frame owes a result.
    CallOwes,
    /// The kind word of a frame that owes a result is 1.
    KindOneForBoth,
    /// The kind word of a frame that owes none is 2.
    KindTwoForAll,
    /// RetV's label leaves out P.
    RetVWithoutPlace,
    /// RetV goes on at P.
    RetVKeepsPlace,
    /// RetV goes on at L1+L2.
    RetVPlaceOfBoth,
    /// RetV is under Ret's rule.
    RetVUnderRet,
    /// RetV drops its value too.
    RetVDropsValue,
    /// RetV leaves its frame under the value.
    RetVKeepsFrame,
    /// RetV leaves its result in the old top entry too.
    TopLeft,
    /// RetV clears the old top entry.
    TopCleared,
    /// RetV leaves its result in the old top entry alone, and the frame's entry as it was.
    ResultAbove,
    /// The operand word is 16 times the second operand plus the first.
    OperandsSwapped,
    /// 16 arguments are accepted.
    SixteenArguments,
    /// 15 arguments are refused.
    FifteenRefused,
    /// 2 results are accepted.
    TwoResults,
    /// Operands are checked by their word: 00 10 is accepted, as 1 0.
    OperandsPacked,
    /// Operands of a CallN are read as signed: those over 127 are below 0, and accepted.
    OperandsSigned,
    /// The first operand of a CallN is not checked.
    FirstUnchecked,
    /// The second operand of a CallN is not checked.
    SecondUnchecked,
    /// Refusal 14 has the operand's offset.
    CallOffset,
    /// A CallN out of range is refused by 12.
    CallAsPage,
    /// A CallN whose first operand is over 15 is refused by 14 where the second is cut.
    CallBeforeCut,
    /// Operands of CallN are checked when all commands have passed the other checks.
    CallCheckedLast,
    /// CallN has Call's code in the rule memory.
    CallNAsCall,
    /// A row of Call is taken for CallN.
    CallRowTaken,
    /// A row of CallN is taken for Call.
    CallNRowTaken,
    /// A rule memory with a row of CallN is refused.
    CallNRowRefused,
    /// A rule memory with a row of RetV is refused.
    RetVRowRefused,
    /// A table without RetV's rule is accepted, with the standard one.
    OldTableAccepted,
}

/// Each of them once.
pub static FAULTS: [Fault; 122] = [
    Fault::OutputWithoutPlace,
    Fault::BranchWithoutPlace,
    Fault::StoreOnNewLabel,
    Fault::RetKeepsPlace,
    Fault::PageCut,
    Fault::LineTooMany,
    Fault::DeniedRowAccepted,
    Fault::FaultTooMany,
    Fault::HandlerAllows,
    Fault::EndUnlabelled,
    Fault::EndWhereSpent,
    Fault::EndWithoutRoom,
    Fault::RoomWithoutKinds,
    Fault::RoomWithoutPages,
    Fault::EndIsStep,
    Fault::EndNeedsAllowance,
    Fault::SumWraps,
    Fault::LargestOutside,
    Fault::SmallestOutside,
    Fault::LargestPassed,
    Fault::SmallestPassed,
    Fault::SubTestedBackwards,
    Fault::OverflowUnasked,
    Fault::OverflowBeforeDenied,
    Fault::OverflowDrops,
    Fault::OverflowIsStep,
    Fault::OverflowLeavesSum,
    Fault::PageKept,
    Fault::PageUnwritten,
    Fault::PageOfOperandBefore,
    Fault::PageLost,
    Fault::EndOnLastPage,
    Fault::OutputToWithoutPlace,
    Fault::OutputToDenied,
    Fault::OutputToAsOutput,
    Fault::OutputRowTaken,
    Fault::OutputToRowTaken,
    Fault::OutputToRowRefused,
    Fault::NextRowAccepted,
    Fault::PageBeforeCut,
    Fault::PageCheckedLast,
    Fault::PageSixteen,
    Fault::PageSigned,
    Fault::PageOffset,
    Fault::EndWithoutPage,
    Fault::PageInHex,
    Fault::PageClearsReader,
    Fault::UnclearedLeftOut,
    Fault::ClearanceOfPageZero,
    Fault::ClearanceBackwards,
    Fault::ClearedWithoutPlace,
    Fault::PageZeroUncleared,
    Fault::MatchUncleared,
    Fault::FullBeforeCleared,
    Fault::EndFullBeforeCleared,
    Fault::EndSpentBeforeCleared,
    Fault::EndUncleared,
    Fault::EndClearedByLastPage,
    Fault::UnclearedUnasked,
    Fault::UnclearedBeforeDenied,
    Fault::UnclearedLeavesDenied,
    Fault::UnclearedIsStep,
    Fault::UnclearedDrops,
    Fault::ClearancesFirst,
    Fault::ClearancesBeforeLabels,
    Fault::ClearancesAfterTable,
    Fault::ClearancesLast,
    Fault::ClearanceAbove,
    Fault::ClearanceBelow,
    Fault::LastClearanceUnchecked,
    Fault::ClearancePlaceLost,
    Fault::ClearancePlaceLast,
    Fault::FifteenClearances,
    Fault::ManyClearances,
    Fault::ClearancesCountedLast,
    Fault::ClearancesCounted,
    Fault::RetOnResult,
    Fault::RetVOnNone,
    Fault::RetVReachesDown,
    Fault::ResultsBeforeFrame,
    Fault::FrameBeforeValue,
    Fault::ResultsBeforeValue,
    Fault::ResultsAfterRule,
    Fault::FrameAsArgument,
    Fault::ArgumentMissing,
    Fault::TargetIsFrame,
    Fault::ArgumentsReversed,
    Fault::ArgumentTooFew,
    Fault::ArgumentTooMany,
    Fault::FrameOnTop,
    Fault::FrameRaised,
    Fault::FrameBack,
    Fault::CallOwes,
    Fault::KindOneForBoth,
    Fault::KindTwoForAll,
    Fault::RetVWithoutPlace,
    Fault::RetVKeepsPlace,
    Fault::RetVPlaceOfBoth,
    Fault::RetVUnderRet,
    Fault::RetVDropsValue,
    Fault::RetVKeepsFrame,
    Fault::TopLeft,
    Fault::TopCleared,
    Fault::ResultAbove,
    Fault::OperandsSwapped,
    Fault::SixteenArguments,
    Fault::FifteenRefused,
    Fault::TwoResults,
    Fault::OperandsPacked,
    Fault::OperandsSigned,
    Fault::FirstUnchecked,
    Fault::SecondUnchecked,
    Fault::CallOffset,
    Fault::CallAsPage,
    Fault::CallBeforeCut,
    Fault::CallCheckedLast,
    Fault::CallNAsCall,
    Fault::CallRowTaken,
    Fault::CallNRowTaken,
    Fault::CallNRowRefused,
    Fault::RetVRowRefused,
    Fault::OldTableAccepted,
];

/// Where this one stands among them.
fn index(of: Fault) -> usize {
    FAULTS.iter().position(|&fault| fault == of).expect("it is one of them")
}

/// Those that are in what either engine makes of clearances.
pub fn of_clearances() -> &'static [Fault] {
    &FAULTS[index(Fault::UnclearedLeftOut)..index(Fault::RetOnResult)]
}

/// Those that are in what either engine makes of calls that bring something back.
pub fn of_calls() -> &'static [Fault] {
    &FAULTS[index(Fault::RetOnResult)..]
}
