//! The tests tried: the model against itself differs nowhere, and every deliberate fault is found.

use differential::backend::faults::{of_calls, of_clearances, Fault, FAULTS};
use differential::backend::faulty::Faulty;
use differential::backend::{Answer, Backend, Itself};
use differential::compare::compare_case;
use differential::privacy::{privacy_case, Pairs};
use differential::tally::Tally;
use differential::text::{edge_cases, faults, tally, text_case};
use model::engine::Lent;

const SEED: u64 = 7;

#[test]
fn the_model_agrees_with_itself() {
    let mut tally = Tally::default();
    for case in 0..3_000 {
        compare_case(&Itself, SEED, case, &mut tally).unwrap();
    }
}

#[test]
fn the_model_keeps_secrets() {
    let mut pairs = Pairs::default();
    for case in 0..20_000 {
        privacy_case(&Itself, SEED, case, &mut pairs).unwrap();
    }
    assert_eq!(pairs.missing(), Vec::<String>::new());
}

/// The first of so many cases in which an engine with this fault differs from the model.
fn find_case(fault: Fault, engine: &dyn Backend, cases: u64) {
    let mut tally = Tally::default();
    let found = (0..cases).find_map(|case| compare_case(engine, SEED, case, &mut tally).err());
    println!("{fault:?}: {}", found.unwrap_or_else(|| panic!("{fault:?} is not found")));
}

#[test]
fn every_fault_is_found() {
    for fault in FAULTS {
        find_case(fault, &Faulty(fault), 10_000);
    }
}

/// A fault in the tag engine alone.
struct InTags(Faulty);

impl Backend for InTags {
    fn plain(&self, sheet: &[u8], lent: &mut Lent, clearances: &[i64], fuel: u64) -> Answer {
        Itself.plain(sheet, lent, clearances, fuel)
    }

    fn tagged(&self, sheet: &[u8], table: &[u8], lent: &mut Lent, clearances: &[i64], fuel: u64) -> Answer {
        self.0.tagged(sheet, table, lent, clearances, fuel)
    }

    fn handler_count(&self, table: &[u8]) -> u64 {
        Itself.handler_count(table)
    }

    fn page(&self, job: &[u8], buffer: &mut [u8]) -> (u64, u64) {
        Itself.page(job, buffer)
    }
}

#[test]
fn every_fault_of_clearances_is_found_in_the_tag_engine() {
    for &fault in of_clearances() {
        find_case(fault, &InTags(Faulty(fault)), 10_000);
    }
}

#[test]
fn every_fault_of_calls_is_found_in_the_tag_engine() {
    for &fault in of_calls() {
        find_case(fault, &InTags(Faulty(fault)), 10_000);
    }
}

/// The first pair of runs of which this is wrong.
fn find_pair(fault: Fault, wrong: &str) {
    let mut pairs = Pairs::default();
    let mut failure = |case| privacy_case(&Faulty(fault), SEED, case, &mut pairs).err();
    let found = (0..60_000).find_map(|case| failure(case).filter(|failure| failure.contains(wrong)));
    println!("{fault:?}: {}", found.unwrap_or_else(|| panic!("{fault:?} is not found")));
}

#[test]
fn every_leak_is_found() {
    for fault in [
        Fault::OutputWithoutPlace,
        Fault::OutputToWithoutPlace,
        Fault::BranchWithoutPlace,
        Fault::StoreOnNewLabel,
        Fault::EndUnlabelled,
        Fault::EndWhereSpent,
        Fault::PageKept,
        Fault::EndOnLastPage,
        // Hidden returns: without stop 11 the stack tells which way was taken.
        Fault::RetOnResult,
        Fault::RetVOnNone,
        Fault::RetVWithoutPlace,
        Fault::RetVUnderRet,
    ] {
        find_pair(fault, " differ");
    }
    // Lines of one page that differ; and lines that do not, page by page, but in their order or in what page they are on.
    find_pair(Fault::OutputToWithoutPlace, " differ on a page: ");
    find_pair(Fault::PageKept, " differ on a page: ");
    find_pair(Fault::OutputToWithoutPlace, " differ: ");
    find_pair(Fault::PageKept, " differ: ");
    // Lines that are left out under one run's clearances and not under the other's.
    find_pair(Fault::UnclearedLeftOut, " differ: ");
}

#[test]
fn every_page_that_is_not_closed_is_found() {
    for fault in [
        Fault::ClearanceOfPageZero,
        Fault::ClearanceBackwards,
        Fault::ClearedWithoutPlace,
        Fault::PageZeroUncleared,
        Fault::EndUncleared,
    ] {
        find_pair(fault, " have a line that is not cleared for its page: ");
        find_pair(fault, " differ on a closed page: ");
    }
    find_pair(Fault::EndClearedByLastPage, " have a line that is not cleared for its page: ");
}

#[test]
fn every_false_end_is_found() {
    for fault in [Fault::EndUnlabelled, Fault::EndWhereSpent, Fault::EndWithoutRoom] {
        find_pair(fault, " do not tell their runs' ends: ");
    }
}

#[test]
fn the_model_reads_and_lists_as_itself() {
    edge_cases(&Itself).unwrap();
    let mut tally = tally::Tally::default();
    for case in 0..20_000 {
        text_case(&Itself, SEED, case, &mut tally).unwrap();
    }
    assert_eq!(tally.missing(), Vec::<String>::new());
}

#[test]
fn every_fault_of_text_is_found() {
    for (way, fault) in faults::faults() {
        let faulty = faults::Faulty(way, fault);
        let mut tally = tally::Tally::default();
        let by_chance = (0..20_000).find_map(|case| text_case(&faulty, SEED, case, &mut tally).err());
        for found in [by_chance, edge_cases(&faulty).err()] {
            println!(
                "{way:?} {fault:?}: {}",
                found.unwrap_or_else(|| panic!("{way:?} {fault:?} is not found"))
            );
        }
    }
}
