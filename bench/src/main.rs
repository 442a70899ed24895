//! Measures the engines, the reader and the lister of texts and what they are held against in one run, and prints ratios.
//! The engines are all reached with the same memory, which is made anew before each run, outside the time. Processor time
//! is measured, the best of several runs counts, and the runs of one workload take turns, so that a busy machine slows
//! all of them alike.

use bench::workloads::{all, berth, idle, texts, walk, Workload};
use bench::{fast, safe, tags, text};
use differential::text::{Texts, Written};
use model::engine::{Lent, Report, CLEARED_FOR_ALL};
use model::rules::STANDARD;
use model::sheet;
use model::text::normal;
use std::hint::black_box;
use std::io::Write;
use std::process::{Command, Stdio};

const ROUNDS: usize = 31;
const FUEL: u64 = 1_000_000;

#[repr(C)]
struct Timespec {
    seconds: i64,
    nanoseconds: i64,
}

extern "C" {
    fn clock_gettime(clock: i32, time: *mut Timespec) -> i32;
}

/// Nanoseconds of processor time that this program has taken.
fn now() -> f64 {
    const PROCESS_TIME: i32 = 2;
    let mut time = Timespec { seconds: 0, nanoseconds: 0 };
    // SAFETY: the pointer is to a structure of C's layout, which the call fills.
    let status = unsafe { clock_gettime(PROCESS_TIME, &mut time) };
    assert_eq!(status, 0, "Linux has this clock");
    time.seconds as f64 * 1e9 + time.nanoseconds as f64
}

/// Runs a sheet on lent memory, under clearances, with an allowance; the tag engines find the handler's words there.
type Runner<'a> = Box<dyn Fn(&[u8], &mut Lent, &[i64], u64) -> [u64; 3] + 'a>;

struct Contestant<'a> {
    name: &'static str,
    run: Runner<'a>,
}

/// A reader and lister, by name.
type Converter = (&'static str, &'static dyn Texts);

fn counts(report: Report) -> [u64; 3] {
    [report.steps, report.faults, report.kernel_steps]
}

const ACCEPTED: &str = "nothing breaks a limit";

#[cfg(feature = "engine")]
mod engine {
    use super::*;
    use differential::backend::{Answer, Backend};
    use differential::engine::Engine;

    fn counts(answer: Answer) -> [u64; 3] {
        let [refusal, _, _, steps, _, _, _, _, faults, kernel_steps] = answer.words;
        assert_eq!(refusal, 0, "{ACCEPTED}");
        [steps, faults, kernel_steps]
    }

    pub fn contestants<'a>() -> Vec<Contestant<'a>> {
        vec![
            Contestant {
                name: PLAIN,
                run: Box::new(|sheet, lent, clearances, fuel| {
                    counts(Engine.plain(sheet, lent, clearances, fuel))
                }),
            },
            Contestant {
                name: TAGGED,
                run: Box::new(|sheet, lent, clearances, fuel| {
                    counts(Engine.tagged(sheet, &STANDARD, lent, clearances, fuel))
                }),
            },
        ]
    }

    pub fn converters() -> Vec<Converter> {
        vec![("proved", &Engine)]
    }

    /// The handler's words as the engine leaves them.
    pub fn handler() -> Vec<i64> {
        let mut lent = Lent::roomy(&[], 0);
        lent.handler.truncate(2 * Engine.handler_count(&STANDARD) as usize);
        counts(Engine.tagged(&[], &STANDARD, &mut lent, &CLEARED_FOR_ALL, 0));
        lent.handler
    }
}

#[cfg(not(feature = "engine"))]
mod engine {
    use super::*;
    use model::rules::Table;
    use model::sample::Sample;

    pub fn contestants<'a>() -> Vec<Contestant<'a>> {
        println!("built without the feature `engine`: only what the engines would be held against");
        vec![]
    }

    pub fn converters() -> Vec<Converter> {
        vec![]
    }

    pub fn handler() -> Vec<i64> {
        let table = Table::parse(&STANDARD).expect("the standard table is a table");
        Sample::of(&table).handler().words.to_vec()
    }
}

const PLAIN: &str = "plain engine";
const TAGGED: &str = "tag engine";
const SAFE: &str = "safe Rust";
const FAST: &str = "fast Rust";
const TAGS: &str = "Rust tags";
const LUA: &str = "Lua 5.4";

fn contestants<'a>(handler: &'a [i64]) -> Vec<Contestant<'a>> {
    let mut list = engine::contestants();
    list.push(Contestant {
        name: SAFE,
        run: Box::new(|sheet, lent, clearances, fuel| {
            counts(safe::plain(sheet, lent, clearances, fuel).expect(ACCEPTED))
        }),
    });
    list.push(Contestant {
        name: FAST,
        run: Box::new(|sheet, lent, clearances, fuel| {
            counts(fast::plain(sheet, lent, clearances, fuel).expect(ACCEPTED))
        }),
    });
    list.push(Contestant {
        name: TAGS,
        run: Box::new(|sheet, lent, clearances, fuel| {
            let report = tags::tagged(sheet, &STANDARD, handler.len() / 2, lent, clearances, fuel);
            counts(report.expect(ACCEPTED))
        }),
    });
    list
}

/// Holds the contestants to one another, outside the time: to the same steps and lent words, and the tag engines also to
/// the same counts and rule memory, which they alone write.
fn hold_together(contestants: &[Contestant], workload: &Workload, handler: &[i64]) {
    let (mut first, mut first_tags) = (None, None);
    for contestant in contestants {
        let mut lent = workload.lent(handler);
        let counts = (contestant.run)(&workload.sheet, &mut lent, &workload.clearances, FUEL);
        let rule_memory = std::mem::take(&mut lent.rule_memory);
        let words = (counts[0], lent);
        let agree = *first.get_or_insert_with(|| words.clone()) == words;
        assert!(agree, "{} {}: other words than {}", contestant.name, workload.name, contestants[0].name);
        if [TAGGED, TAGS].contains(&contestant.name) {
            let tags = (counts, rule_memory);
            let agree = *first_tags.get_or_insert_with(|| tags.clone()) == tags;
            assert!(agree, "{} {}: the tag engines differ", contestant.name, workload.name);
        }
    }
}

struct Measured {
    name: &'static str,
    /// Nanoseconds a step, of the best round.
    time: f64,
    counts: [u64; 3],
}

/// The best time of each contestant on a workload, and what the run counted.
fn measure(contestants: &[Contestant], workload: &Workload, handler: &[i64], fuel: u64) -> Vec<Measured> {
    let mut measured: Vec<Measured> = (contestants.iter())
        .map(|contestant| Measured { name: contestant.name, time: f64::INFINITY, counts: [0; 3] })
        .collect();
    for _ in 0..ROUNDS {
        for (contestant, measured) in contestants.iter().zip(&mut measured) {
            let mut lent = workload.lent(handler);
            let began = now();
            let counts = (contestant.run)(
                black_box(&workload.sheet),
                &mut lent,
                black_box(&workload.clearances),
                fuel,
            );
            let time = (now() - began) / fuel as f64;
            black_box(&lent);
            assert_eq!(counts[0], fuel, "{} {}: the allowance ends the run", contestant.name, workload.name);
            measured.counts = counts;
            measured.time = measured.time.min(time);
        }
    }
    measured
}

/// Nanoseconds for a step's worth of the workload in Lua, if it is installed.
fn lua(workload: &Workload) -> Option<f64> {
    let lua = workload.lua.as_ref()?;
    let rounds = FUEL / lua.steps;
    let script = format!(
        "local best = math.huge\nfor run = 1, {ROUNDS} do\n{}\nlocal began = os.clock()\nfor i = 1, {rounds} do {} end\n\
         best = math.min(best, os.clock() - began)\nend\nprint(best)\n",
        lua.setup, lua.round
    );
    let mut child =
        Command::new("lua5.4").arg("-").stdin(Stdio::piped()).stdout(Stdio::piped()).spawn().ok()?;
    child.stdin.take()?.write_all(script.as_bytes()).ok()?;
    let output = child.wait_with_output().ok()?;
    let seconds: f64 = String::from_utf8(output.stdout).ok()?.trim().parse().ok()?;
    Some(seconds * 1e9 / FUEL as f64)
}

fn print_speeds(handler: &[i64], contestants: &[Contestant]) {
    print!("{:>18}", "Msteps/s");
    for contestant in contestants {
        print!(" {:>13}", contestant.name);
    }
    println!(" {LUA:>13} {:>13} {:>13}", "faults/step", "kernel/step");
    let mut tables = Vec::new();
    for workload in all() {
        let mut measured = measure(contestants, &workload, handler, FUEL);
        print!("{:>18}", workload.name);
        for one in &measured {
            print!(" {:>13.1}", 1e3 / one.time);
        }
        let lua = lua(&workload);
        print!(" {:>13}", lua.map_or("-".into(), |time| format!("{:.1}", 1e3 / time)));
        let [steps, faults, kernel] =
            measured.iter().find(|one| one.name == TAGS).map_or([1, 0, 0], |one| one.counts);
        println!(" {:>13.3} {:>13.2}", faults as f64 / steps as f64, kernel as f64 / steps as f64);
        if let Some(time) = lua {
            measured.push(Measured { name: LUA, time, counts: [0; 3] });
        }
        tables.push((workload.name, measured));
    }
    print_ratios(&tables);
}

/// How many times as fast the first of each pair is as the second.
fn print_ratios(tables: &[(&str, Vec<Measured>)]) {
    let pairs = [
        (PLAIN, SAFE),
        (PLAIN, FAST),
        (PLAIN, LUA),
        (TAGGED, TAGS),
        (TAGGED, PLAIN),
        (TAGS, SAFE),
        (FAST, SAFE),
    ];
    println!("\nratios of speed: above 1 the first is faster");
    print!("{:>18}", "");
    for (first, second) in pairs {
        print!(" {:>25}", format!("{first} / {second}"));
    }
    println!();
    for (name, measured) in tables {
        print!("{name:>18}");
        let time = |name| measured.iter().find(|one| one.name == name).map(|one| one.time);
        for (first, second) in pairs {
            let ratio = time(first).zip(time(second)).map(|(first, second)| second / first);
            print!(" {:>25}", ratio.map_or("-".into(), |ratio| format!("{ratio:.2}")));
        }
        println!();
    }
}

/// Nanoseconds of the best of several runs of a sheet that is over soon, repeated within each run. Every page is cleared
/// for all.
fn short_time(contestant: &Contestant, sheet: &[u8], lent: &Lent, fuel: u64) -> f64 {
    const REPEATS: usize = 200;
    let mut lent = lent.clone();
    let mut best = f64::INFINITY;
    for _ in 0..ROUNDS {
        let began = now();
        for _ in 0..REPEATS {
            black_box((contestant.run)(black_box(sheet), &mut lent, black_box(&CLEARED_FOR_ALL), fuel));
        }
        best = best.min((now() - began) / REPEATS as f64);
    }
    best
}

fn header(title: &str, columns: &[&str]) {
    print!("\n{title:>34}");
    for column in columns {
        print!(" {column:>13}");
    }
    println!();
}

fn row(name: String, figures: Vec<f64>) {
    print!("{name:>34}");
    for figure in figures {
        print!(" {figure:>13.2}");
    }
    println!();
}

fn print_growth(handler: &[i64], contestants: &[Contestant]) {
    let names: Vec<&str> = contestants.iter().map(|contestant| contestant.name).collect();
    let header = |title: &str| header(title, &names);
    header("growth with steps: ns/step");
    for fuel in [1_000, 10_000, 100_000, 1_000_000] {
        let measured = measure(contestants, &walk(1024), handler, fuel);
        row(format!("{fuel} steps"), measured.into_iter().map(|one| one.time).collect());
    }
    header("growth with cells: ns/step");
    for cells in [2, 32, 1024] {
        let measured = measure(contestants, &walk(cells), handler, FUEL);
        row(format!("{cells} cells"), measured.into_iter().map(|one| one.time).collect());
    }
    header("start with no step: ns/command");
    for commands in [16, 256, 4096] {
        let workload = Workload { sheet: idle(commands), ..walk(2) };
        let lent = workload.lent(handler);
        let time =
            |contestant: &Contestant| short_time(contestant, &workload.sheet, &lent, 0) / commands as f64;
        row(format!("{commands} commands"), contestants.iter().map(time).collect());
    }
    header("start with no step: ns/cell");
    for cells in [32, 1024] {
        let lent = Workload { lines: 1, ..walk(cells) }.lent(handler);
        let time = |contestant: &Contestant| short_time(contestant, &[], &lent, 0) / cells as f64;
        row(format!("{cells} cells"), contestants.iter().map(time).collect());
    }
    header("a run to its end line: ns");
    let berth = berth();
    let lent = berth.lent(handler);
    let time = |contestant: &Contestant| short_time(contestant, &berth.sheet, &lent, FUEL);
    row("berth: 26 steps, 4 lines".into(), contestants.iter().map(time).collect());
}

/// Reads or lists.
type Convert = fn(&'static dyn Texts, &[u8], &mut [u8]) -> Written;

/// Nanoseconds of each converter's best round through all inputs.
fn convert_times(converters: &[Converter], convert: Convert, inputs: &[Vec<u8>]) -> Vec<f64> {
    // Room for the longest line of every command.
    let mut buffer = vec![0; 26 * sheet::COMMANDS];
    let mut times = vec![f64::INFINITY; converters.len()];
    for _ in 0..ROUNDS {
        for (&(name, texts), time) in converters.iter().zip(&mut times) {
            let began = now();
            for input in inputs {
                let [refusal, ..] = convert(texts, black_box(input), &mut buffer);
                assert_eq!(refusal, 0, "{name}: {ACCEPTED}");
            }
            *time = time.min(now() - began);
        }
    }
    times
}

fn print_texts() {
    let mut converters = engine::converters();
    converters.extend([(SAFE, &text::Straightforward as &dyn Texts), (FAST, &text::Fast)]);
    let names = converters.iter().map(|&(name, _)| name);
    let columns: Vec<&str> = names.chain(["times safe", "times fast"]).collect();
    let table = |title: &str, convert: Convert, input: fn(&[sheet::Command]) -> Vec<u8>| {
        header(title, &columns);
        for (name, commands) in texts() {
            for lines in [16, 256, 4096] {
                let inputs: Vec<Vec<u8>> = commands.chunks(lines).map(input).collect();
                let times = convert_times(&converters, convert, &inputs);
                let ratios = times[times.len() - 2..].iter().map(|time| times[0] / time);
                let line_times = times.iter().map(|time| time / commands.len() as f64);
                row(format!("{name}, {lines} lines"), line_times.chain(ratios).collect());
            }
        }
    };
    table("reading a text: ns/line", <dyn Texts>::assemble, |commands| normal(commands).into_bytes());
    table("listing a sheet: ns/line", <dyn Texts>::list, sheet::encode);
}

/// Microseconds from start to end of a program, the best of many, with a file as its standard input.
fn process_time(program: &str, input: &str) -> Option<f64> {
    const STARTS: usize = 300;
    let mut best = f64::INFINITY;
    for _ in 0..STARTS {
        let input = std::fs::File::open(input).ok()?;
        let began = std::time::Instant::now();
        Command::new(program).stdin(input).stdout(Stdio::null()).status().ok()?;
        best = best.min(began.elapsed().as_secs_f64() * 1e6);
    }
    Some(best)
}

fn print_startup() {
    const JOB: &str = "examples/berth-terminal.job";
    println!();
    for program in ["true", "crates/page/out/page"] {
        let time = process_time(program, JOB).map_or("not built".into(), |time| format!("{time:.0} µs"));
        println!("start to end of `{program}` on {JOB}: {time}");
    }
}

fn main() {
    let handler = engine::handler();
    let contestants = contestants(&handler);
    println!("processor time, best of {ROUNDS} runs of {FUEL} steps; memory made anew before each run, outside the time");
    println!("the standard table's handler has {} kernel commands", handler.len() / 2);
    for workload in all().iter().chain([&berth()]) {
        hold_together(&contestants, workload, &handler);
    }
    print_speeds(&handler, &contestants);
    print_growth(&handler, &contestants);
    print_texts();
    print_startup();
}
