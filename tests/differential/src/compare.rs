//! Holds an engine to the model: every word of the answer and every lent word, also of refused starts.

use crate::backend::{Answer, Backend, PAGE_LIMIT};
use crate::generate::{job, start, Start};
use crate::random::Random;
use crate::shrink::shrink;
use crate::tally::Tally;
use model::engine::{judged, plain, tagged, tagged_noted, Handler, Lent, ALLOWANCE, CLEARED_FOR_ALL};
use model::machine::{whole, Entry, Judge, Stack};
use model::page::{page, read};
use model::rules::{standard, Labels, Question, RuleMemory, Table, STANDARD};
use model::sheet::Command;
use model::Refusal;

/// Which lent words differ, if any do.
fn lent_difference(engine: &Lent, model: &Lent) -> Option<String> {
    let runs = [
        ("values", &engine.values, &model.values),
        ("labels", &engine.labels, &model.labels),
        ("rule memory", &engine.rule_memory, &model.rule_memory),
        ("program", &engine.program, &model.program),
        ("stack", &engine.stack, &model.stack),
        ("handler", &engine.handler, &model.handler),
        ("numbers", &engine.numbers, &model.numbers),
        ("line_labels", &engine.line_labels, &model.line_labels),
        ("kinds", &engine.kinds, &model.kinds),
        ("pages", &engine.pages, &model.pages),
    ];
    for (name, engine, model) in runs {
        if engine == model {
            continue;
        }
        let index = engine.iter().zip(model).position(|(left, right)| left != right)?;
        return Some(format!("{name}[{index}]: engine {}, model {}", engine[index], model[index]));
    }
    None
}

fn same(what: &str, engine: (Answer, &Lent), model: (Answer, &Lent)) -> Result<(), String> {
    if engine.0 != model.0 {
        return Err(format!("{what}: engine answers {:?}, model {:?}", engine.0.words, model.0.words));
    }
    match lent_difference(engine.1, model.1) {
        Some(difference) => Err(format!("{what}: {difference}")),
        None => Ok(()),
    }
}

/// The standard rules, with a note of all that they are asked.
struct Noted<'a>(&'a mut Tally);

impl Judge for Noted<'_> {
    fn judge(&mut self, question: &Question) -> Option<Labels> {
        self.0.judged(question);
        standard(question)
    }

    fn combine(&mut self, command: Command, top: i64, under: i64) -> Option<i64> {
        let number = i64::try_from(whole(command, top, under)).ok()?;
        self.0.combined(command, number);
        Some(number)
    }

    fn call(&mut self, stack: &mut Stack, command: Command, arguments: usize, frame: Entry) {
        self.0.carried.call(command);
        stack.call(arguments, frame);
    }

    fn printed(&mut self, _place: i64, command: Command) {
        self.0.printed(command);
    }
}

/// What would be refused of a start if every page were cleared for all owners, or 0; `run` is a run with this memory and
/// allowance. It is asked where a start is refused by 13.
fn later<T>(start: &Start, answer: &Answer, run: impl FnOnce(&mut Lent, u64) -> Result<T, Refusal>) -> u64 {
    if answer.words[0] != 13 {
        return 0;
    }
    // No step is needed to know.
    let fuel = if start.fuel > ALLOWANCE { start.fuel } else { 0 };
    run(&mut start.lent.clone(), fuel).err().map_or(0, |refusal| refusal.number)
}

fn compare_plain(backend: &dyn Backend, start: &Start, tally: &mut Tally) -> Result<(), String> {
    let Start { sheet, clearances, fuel, .. } = start;
    let mut by_engine = start.lent.clone();
    let engine = backend.plain(sheet, &mut by_engine, clearances, *fuel);
    let mut by_model = start.lent.clone();
    let model = Answer::from(judged(sheet, &mut by_model, clearances, *fuel, &mut Noted(tally)));
    tally.plain.note(&model, start, &by_model);
    let later = later(start, &model, |lent, fuel| plain(sheet, lent, &CLEARED_FOR_ALL, fuel));
    tally.plain.clearances.note(&model, start, &by_model, later);
    same("plain", (engine, &by_engine), (model, &by_model))
}

fn compare_tagged(backend: &dyn Backend, start: &Start, tally: &mut Tally) -> Result<(), String> {
    let count = backend.handler_count(&start.table) as usize;
    let table = Table::read(&start.table);
    let is_table = table.is_ok();
    if is_table != (1..=model::kernel::COMMANDS).contains(&count) {
        return Err(format!("handler count {count}, table: {is_table}"));
    }
    let Start { sheet, clearances, fuel, .. } = start;
    let mut by_engine = start.lent.clone();
    let engine = backend.tagged(sheet, &start.table, &mut by_engine, clearances, *fuel);
    let mut by_model = start.lent.clone();
    // The handler is the engine's own: the model takes its words from where the engine left them.
    let words = &by_engine.handler[..(2 * count).min(by_engine.handler.len())];
    let handler = Handler { count, words };
    let mut matched = false;
    let note = |memory: &RuleMemory, question: &Question| {
        tally.consulted(memory, question);
        matched = memory[..5] == question.words();
    };
    let model = tagged_noted(sheet, &start.table, handler, &mut by_model, clearances, *fuel, note);
    // Where the engine refused the start it left no handler.
    if let (0, Some(wrong)) = (engine.words[0], model.wrong) {
        return Err(format!("handler: {wrong:?}"));
    }
    let answer = Answer::from(model.answer);
    tally.tagged.note(&answer, start, &by_model);
    let later = later(start, &answer, |lent, fuel| {
        tagged(sheet, &start.table, handler, lent, &CLEARED_FOR_ALL, fuel).answer
    });
    tally.tagged.clearances.note(&answer, start, &by_model, later);
    tally.tagged.clearances.note_tagged(&answer, start, &by_model, table.as_ref().ok(), later, matched);
    tally.tagged.calls.note_tagged(&answer, start, &by_model, table.as_ref().ok());
    if answer.words[0] == 0 {
        if let (Ok(table), true) = (&table, start.table != STANDARD) {
            tally.other_table(table, count);
        }
        tally.filled_memories += u64::from(start.lent.rule_memory.iter().any(|&word| word != 0));
    }
    if let Ok(table) = &table {
        tally.started(&start.lent.rule_memory, table, answer.words[0]);
    }
    if let (6, Err((fault, _))) = (answer.words[0], table) {
        tally.table_fault(fault);
    }
    same("tagged", (engine, &by_engine), (answer, &by_model))
}

fn compare_page(backend: &dyn Backend, random: &mut Random, tally: &mut Tally) -> Result<(), String> {
    let job = job(random);
    let length = match random.weighted(&[90, 8, 2]) {
        0 => PAGE_LIMIT,
        1 => PAGE_LIMIT + random.below(40),
        _ => random.below(PAGE_LIMIT),
    };
    let filling = random.word() as u8;
    let mut buffer = vec![filling; length];
    let (status, written) = backend.page(&job, &mut buffer);
    let expected = if length < PAGE_LIMIT {
        tally.short_buffers += 1;
        if (status, written) != (1, PAGE_LIMIT as u64) {
            return Err(format!("page: a short buffer gives status {status}, length {written}"));
        }
        String::new()
    } else {
        let text = page(&job);
        if (status, written) != (0, text.len() as u64) {
            return Err(format!("page: status {status}, length {written}, model {}", text.len()));
        }
        text
    };
    if &buffer[..expected.len()] != expected.as_bytes() {
        let text = String::from_utf8_lossy(&buffer[..expected.len()]);
        return Err(format!("page: engine {text:?}, model {expected:?}"));
    }
    if buffer[expected.len()..].iter().any(|&byte| byte != filling) {
        return Err("page: bytes after the page are not as they came".into());
    }
    match read(&job) {
        Err((fault, _)) => tally.job_fault(fault),
        Ok(_) if expected.starts_with("refused") => {
            tally.job_refusals += 1;
            tally.job_pages_refused += u64::from(expected.starts_with("refused 12 "));
            tally.job_calls_refused += u64::from(expected.starts_with("refused 14 "));
        }
        Ok(_) => {
            tally.pages += 1;
            tally.page_bytes += expected.len() as u64;
            tally.page_ends += u64::from(expected.lines().any(|line| line.contains(" end ")));
            tally.other_pages += u64::from(expected.lines().any(|line| !line.starts_with("0 ")));
        }
    }
    Ok(())
}

/// Makes one case of a seed and holds the engine to the model on it.
pub fn compare_case(backend: &dyn Backend, seed: u64, case: u64, tally: &mut Tally) -> Result<(), String> {
    let mut random = Random::of_case(seed, case);
    if random.percent(15) {
        return compare_page(backend, &mut random, tally)
            .map_err(|difference| format!("seed {seed} case {case}: {difference}"));
    }
    let handler_count = |table: &[u8]| backend.handler_count(table);
    let start = start(&mut random, handler_count);
    compare_start(backend, &start, tally).map_err(|difference| {
        let fails = |start: &Start| compare_start(backend, start, &mut Tally::default()).is_err();
        let least = shrink(start, handler_count, fails);
        let least_difference = compare_start(backend, &least, &mut Tally::default());
        let least_difference = least_difference.err().unwrap_or_default();
        format!("seed {seed} case {case}: {difference}\nsmaller: {least_difference}\n{}", describe(&least))
    })
}

fn compare_start(backend: &dyn Backend, start: &Start, tally: &mut Tally) -> Result<(), String> {
    compare_plain(backend, start, tally)?;
    compare_tagged(backend, start, tally)
}

/// A start in words that a person can follow.
pub fn describe(start: &Start) -> String {
    let sheet = match model::sheet::decode(&start.sheet) {
        Ok(commands) => format!("{commands:?}"),
        Err(_) => format!("{:02x?}", start.sheet),
    };
    let lent = &start.lent;
    let cells = lent.values.len().min(12);
    format!(
        "  sheet {sheet}\n  table {:02x?}\n  values {:?}\n  labels {:?}\n  clearances {:x?}\n  rule memory {:?}\n  lengths: \
         cells {} {} program {} stack {} handler {} output {} {} {} {}\n  fuel {}",
        start.table,
        &lent.values[..cells],
        &lent.labels[..cells.min(lent.labels.len())],
        start.clearances,
        lent.rule_memory,
        lent.values.len(),
        lent.labels.len(),
        lent.program.len(),
        lent.stack.len(),
        lent.handler.len(),
        lent.numbers.len(),
        lent.line_labels.len(),
        lent.kinds.len(),
        lent.pages.len(),
        start.fuel
    )
}
