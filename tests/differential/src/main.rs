//! `differential [WHAT] [SEED] [COUNT] [FIRST]`: WHAT is `engines` (default: engines against the model), `privacy` or
//! `text` (reader and lister against the model, first at the edges). A failing case prints its seed and number; COUNT 1
//! with FIRST that number makes it again alone.

#[cfg(not(feature = "engine"))]
use differential::backend::Itself as Engine;
use differential::compare::compare_case;
#[cfg(feature = "engine")]
use differential::engine::Engine;
use differential::privacy::{privacy_case, Pairs};
use differential::tally::Tally;
use differential::text::{self, edge_cases, text_case};
use std::process::ExitCode;
use std::time::Instant;

/// Runs the cases until one fails; then what was missed, unless it was a look at a few cases only.
fn cases(first: u64, count: u64, mut case: impl FnMut(u64) -> Result<(), String>) -> Result<(), String> {
    let began = Instant::now();
    for number in first..first + count {
        case(number)?;
    }
    println!("{count} cases in {:.1} s", began.elapsed().as_secs_f64());
    Ok(())
}

fn reached(count: u64, missing: Vec<String>) -> Result<(), String> {
    if count < 100_000 || missing.is_empty() {
        return Ok(());
    }
    Err(format!("never reached: {}", missing.join(", ")))
}

fn main() -> ExitCode {
    let words: Vec<String> = std::env::args().skip(1).collect();
    let number = |index: usize, other| words.get(index).map_or(Ok(other), |word| word.parse::<u64>());
    let what = words.first().map_or("engines", String::as_str);
    let (Ok(seed), Ok(count), Ok(first)) = (number(1, 1), number(2, 200_000), number(3, 0)) else {
        eprintln!("usage: differential [engines|privacy|text] [SEED] [COUNT] [FIRST]");
        return ExitCode::from(2);
    };
    if cfg!(not(feature = "engine")) {
        eprintln!("built without the feature `engine`: the model is held against itself");
    }
    let outcome = match what {
        "engines" => {
            let mut tally = Tally::default();
            let outcome = cases(first, count, |case| compare_case(&Engine, seed, case, &mut tally));
            tally.print();
            outcome.and_then(|()| reached(count, tally.missing()))
        }
        "privacy" => {
            let mut pairs = Pairs::default();
            let outcome = cases(first, count, |case| privacy_case(&Engine, seed, case, &mut pairs));
            pairs.print();
            outcome.and_then(|()| reached(count, pairs.missing()))
        }
        "text" => {
            let mut tally = text::tally::Tally::default();
            let outcome = edge_cases(&Engine).and_then(|edges| {
                println!("{edges} cases at the edges");
                cases(first, count, |case| text_case(&Engine, seed, case, &mut tally))
            });
            tally.print();
            outcome.and_then(|()| reached(count, tally.missing()))
        }
        _ => Err(format!("{what}: neither engines nor privacy nor text")),
    };
    match outcome {
        Ok(()) => ExitCode::SUCCESS,
        Err(message) => {
            eprintln!("{message}");
            ExitCode::FAILURE
        }
    }
}
