//! The README's berth with the terminal's page closed to the shipping line's data. The sheet prints the gauge on page 0
//! and the depth of water on page 1, the terminal's, and then tries to print the water under the keel there too. That is
//! computed from the line's draught: cleared for the terminal alone page 1 does not take it, and the run stops; cleared
//! for both owners it does.
//!
//!     . wrapper/archive.sh
//!     cargo run --offline --release -p luvrodan --example closed

use luvrodan::{assemble, Atom, Clearances, Machine, Refusal};

const SHEET: &str = include_str!("berth-closed.txt");

/// Owner 0 and owner 1, as sets.
const TERMINAL: u32 = 1;
const LINE: u32 = 2;

/// In centimetres: the tide gauge, which is public, the berth's bed and the ship's draught.
const CELLS: [Atom; 3] = [
    Atom { number: 412, label: 0 },
    Atom { number: -985, label: TERMINAL },
    Atom { number: 1180, label: LINE },
];

/// Runs the sheet with page 1 cleared for this set and every other page for all owners.
fn run(sheet: &[u8], set: u32) -> Result<(), Refusal> {
    let mut machine = Machine::new(&CELLS, 100);
    machine.set_clearances(Clearances::ALL.with(1, set));
    let report = machine.run_plain(sheet, 1000)?;
    // All lines that were written, for whoever runs the machine; `machine.view(set)` has those that a reader may see.
    for line in machine.lines() {
        println!("{line}");
    }
    println!("stop {}: {}", report.stop.number(), report.stop);
    Ok(())
}

fn main() -> Result<(), Refusal> {
    let sheet = assemble(SHEET)?;
    println!("page 1 cleared for owner 0");
    run(&sheet, TERMINAL)?;
    println!("page 1 cleared for owners 0 and 1");
    run(&sheet, TERMINAL | LINE)
}
