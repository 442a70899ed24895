//! Makes a failing case smaller, as long as it still fails.

use crate::generate::Start;
use model::engine::CLEARED_FOR_ALL;
use model::rules::STANDARD;
use model::sheet::{decode, encode};

/// Starts that are a little smaller than this one, the boldest first.
fn smaller(start: &Start, handler_count: &impl Fn(&[u8]) -> u64) -> Vec<Start> {
    let mut starts = Vec::new();
    let mut add = |change: &dyn Fn(&mut Start)| {
        let mut candidate = start.clone();
        change(&mut candidate);
        starts.push(candidate);
    };
    if let Ok(commands) = decode(&start.sheet) {
        for size in [64, 16, 4, 1] {
            for first in (0..commands.len()).step_by(size) {
                let last = (first + size).min(commands.len());
                let rest = [&commands[..first], &commands[last..]].concat();
                add(&|start| start.sheet = encode(&rest));
            }
        }
    }
    for fuel in [start.fuel / 2, start.fuel.saturating_sub(1)] {
        if fuel < start.fuel {
            add(&|start| start.fuel = fuel);
        }
    }
    if start.table != STANDARD {
        add(&|start| {
            start.table = STANDARD.to_vec();
            start.lent.handler = vec![9; 2 * handler_count(&STANDARD) as usize];
        });
    }
    if start.lent.rule_memory.iter().any(|&word| word != 0) {
        add(&|start| start.lent.rule_memory = vec![0; 7]);
    }
    if start.clearances != CLEARED_FOR_ALL {
        add(&|start| start.clearances = CLEARED_FOR_ALL.to_vec());
    }
    for (page, all) in (0..start.clearances.len()).zip(CLEARED_FOR_ALL) {
        if start.clearances[page] != all {
            add(&|start| start.clearances[page] = all);
        }
    }
    if !start.lent.values.is_empty() {
        add(&|start| {
            start.lent.values.pop();
            start.lent.labels.pop();
        });
    }
    starts
}

/// The smallest that was found on the way down from a failing case, by steps to the first smaller one that fails.
pub fn descend<T>(failing: T, smaller: impl Fn(&T) -> Vec<T>, fails: impl Fn(&T) -> bool) -> T {
    let mut least = failing;
    while let Some(next) = smaller(&least).into_iter().find(&fails) {
        least = next;
    }
    least
}

pub fn shrink(start: Start, handler_count: impl Fn(&[u8]) -> u64, fails: impl Fn(&Start) -> bool) -> Start {
    descend(start, |start| smaller(start, &handler_count), fails)
}
