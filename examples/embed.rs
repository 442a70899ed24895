//! Prints the page of a sheet that adds a public and a secret number, for a reader who is cleared for owner 0. All its
//! lines stand on page 0, and the last, `0 end 00000000`, says that nothing is missing. docs/MANUAL.md has the bytes of
//! jobs.
//!
//!     . wrapper/archive.sh
//!     cargo run --offline --release -p luvrodan --example embed

use luvrodan::{assemble, page, Atom, Machine, Refusal};
use std::io::Write;

const SHEET: &str = "\
Push 1
Load
Push 0
Load
Add
Output
Push 0
Load
Output
";
const CELLS: [Atom; 2] = [Atom { number: 7, label: 0 }, Atom { number: 5, label: 1 }];
const READER: u32 = 1;

/// The job: cells, the reader's set, the sheet.
fn job(sheet: &[u8]) -> Vec<u8> {
    let mut job = Vec::new();
    for cell in CELLS {
        job.push(0x40);
        job.extend(cell.number.to_le_bytes());
        job.extend(cell.label.to_le_bytes());
    }
    job.push(0x42);
    job.extend(READER.to_le_bytes());
    job.push(0x43);
    job.extend(sheet);
    job
}

fn main() -> Result<(), Refusal> {
    let sheet = assemble(SHEET)?;
    // In one call, as the program `page` does it.
    let page = page(&job(&sheet));
    std::io::stdout().write_all(&page).expect("standard output takes the page");
    // The same lines from a run on the plain engine: a new machine, too, clears every page for all owners.
    let mut machine = Machine::new(&CELLS, 100);
    let report = machine.run_plain(&sheet, 1000)?;
    let mut lines = String::new();
    for line in machine.view(READER) {
        lines += &format!("{line}\n");
    }
    assert_eq!(lines.as_bytes(), page);
    assert!(machine.view_is_whole(READER));
    eprintln!("{} after {} steps", report.stop, report.steps);
    Ok(())
}
