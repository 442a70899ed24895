//! Makes clearances: sets that just hold or just miss labels of the cells, for some pages or all of them, and words that
//! are none.

use super::{label, page};
use crate::random::Random;
use model::machine::Clearances;
use model::sheet::PAGES;
use model::Label;

/// One of the set's owners, as a set; the empty set has none.
pub fn owner(random: &mut Random, set: Label) -> Label {
    let owners: Vec<Label> = (0..32).map(|owner| 1 << owner).filter(|owner| set & owner != 0).collect();
    if owners.is_empty() {
        return 0;
    }
    random.pick(&owners)
}

/// A page's clearance: a set that just holds one of the labels, or two, or just misses one, or any.
fn clearance(random: &mut Random, labels: &[Label]) -> Label {
    if labels.is_empty() || random.percent(15) {
        return label(random);
    }
    let one = random.pick(labels);
    match random.below(4) {
        0 => one,
        1 => one | random.pick(labels),
        2 => one & !owner(random, one),
        _ => !owner(random, one),
    }
}

/// Clearances for a run on cells of these labels: mostly all owners for every page.
pub fn clearances(random: &mut Random, labels: &[Label]) -> Clearances {
    let mut clearances = [Label::MAX; PAGES as usize];
    match random.weighted(&[60, 20, 10, 10]) {
        0 => {}
        1 => {
            for _ in 0..random.between(1, 3) {
                let page = usize::from(page(random));
                clearances[page] = clearance(random, labels);
            }
        }
        2 => clearances.fill(clearance(random, labels)),
        _ => clearances.fill_with(|| clearance(random, labels)),
    }
    clearances
}

/// Damages the words of clearances: one or two that are no set, at the first page, the last or any; or too few or too
/// many words, in some cases with such a word among them.
pub fn damage(random: &mut Random, words: &mut Vec<i64>) {
    let pages = usize::from(PAGES);
    if random.percent(40) {
        let length = random.pick(&[0, 1, pages - 1, pages - 1, pages + 1, pages + 1, 2 * pages]);
        words.resize(length, Label::MAX.into());
        if random.percent(60) {
            return;
        }
    }
    for _ in 0..random.between(1, 2) {
        let any = random.below(pages);
        let page = random.pick(&[0, pages - 1, any]);
        if let Some(word) = words.get_mut(page) {
            *word = random.pick(&[-1, 1 << 32, i64::MIN, i64::MAX]);
        }
    }
}
