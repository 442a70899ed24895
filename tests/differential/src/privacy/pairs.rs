//! What the pairs of runs were: a search that never meets two runs that part says nothing.

use super::Pair;
use model::machine::Stop;
use model::sheet::PAGES;

#[derive(Clone, Default)]
pub struct Pairs {
    pub pairs: u64,
    /// Pairs whose views both have lines.
    pub with_lines: u64,
    /// Pairs that went different ways: their steps or stops differ.
    pub apart: u64,
    /// Pairs of one run on each engine.
    pub mixed: u64,
    /// Lines that one view has beyond the other.
    pub cut: u64,
    pub lines: u64,
    /// Pairs whose views both have an end line, and pairs of which one view has one.
    pub both_end: u64,
    pub one_ends: u64,
    /// Runs that came to their end at a place whose label is outside the set.
    pub hidden_ends: u64,
    /// Pairs of which one run was stopped by an overflow, and those of them in which that cut its view short.
    pub one_overflows: u64,
    pub overflow_cuts: u64,
    /// Pairs of which one run was stopped by results that do not match, and those of them in which that cut its view
    /// short.
    pub one_differs: u64,
    pub differing_cuts: u64,
    /// Pairs from different cells whose runs both return values from places outside the set to frames inside it, and
    /// those of them whose views both have lines and that went different ways.
    pub hidden_returns: u64,
    pub returns_apart: u64,
    /// Pairs whose views both have lines of this page.
    pub pages: [u64; PAGES as usize],
    /// Pairs whose views have equally many lines of one page, and one has more of another.
    pub one_page_cut: u64,
    /// Pairs with different clearances whose views both have lines.
    pub cleared_apart: u64,
    /// Pairs of which one run was stopped by a page's clearance, and those of them in which that cut its view short.
    pub one_uncleared: u64,
    pub uncleared_cuts: u64,
    /// Runs that were stopped so at a page that is closed to owners outside the set: at a command, and at the end.
    pub kept_out: [u64; 2],
    /// Pairs from different cells whose runs both have lines of this page and both clear it for owners of the set only.
    pub closed: [u64; PAGES as usize],
    /// Pairs of which one run has more lines of such a page, and those of them with different clearances.
    pub closed_cut: u64,
    pub closed_apart: u64,
}

impl Pairs {
    pub fn print(&self) {
        println!(
            "pairs {}, views with lines {}, lines compared {}, different ways {}, one on each engine {}, one view longer {}",
            self.pairs, self.with_lines, self.lines, self.apart, self.mixed, self.cut
        );
        println!(
            "end lines in both views {}, in one {}, outside the set {}",
            self.both_end, self.one_ends, self.hidden_ends
        );
        println!("stop 9 in one run {}, its view the shorter {}", self.one_overflows, self.overflow_cuts);
        println!(
            "stop 11 in one run {}, its view the shorter {}; hidden returns in both {}, with lines and different ways {}",
            self.one_differs, self.differing_cuts, self.hidden_returns, self.returns_apart
        );
        println!("lines of a page in both views, by page: {:?}", self.pages);
        println!("one page longer and another alike {}", self.one_page_cut);
        println!(
            "other clearances and lines in both views {}; stop 10 in one run {}, its view the shorter {}, at a page closed to \
             others {:?}",
            self.cleared_apart, self.one_uncleared, self.uncleared_cuts, self.kept_out
        );
        println!(
            "lines of a page closed to others in both runs, by page: {:?}, one longer {}, other clearances {}",
            self.closed, self.closed_cut, self.closed_apart
        );
    }

    /// What was not reached though it should be.
    pub fn missing(&self) -> Vec<String> {
        let without = |pages: [u64; PAGES as usize], what: &'static str| {
            let never = (0..).zip(pages).filter(|&(_, count)| count == 0);
            never.map(move |(page, _)| format!("{what} {page}"))
        };
        let mut missing: Vec<String> = without(self.pages, "lines of page").collect();
        missing.extend(without(self.closed, "lines of a closed page"));
        let never = [
            ("views with lines", self.with_lines),
            ("different ways", self.apart),
            ("one on each engine", self.mixed),
            ("one view longer", self.cut),
            ("end lines in both views", self.both_end),
            ("an end line in one view", self.one_ends),
            ("an end outside the set", self.hidden_ends),
            ("stop 9 in one run", self.one_overflows),
            ("a view that stop 9 cut", self.overflow_cuts),
            ("stop 11 in one run", self.one_differs),
            ("a view that stop 11 cut", self.differing_cuts),
            ("hidden returns in both runs", self.hidden_returns),
            ("hidden returns, lines and different ways", self.returns_apart),
            ("one page longer and another alike", self.one_page_cut),
            ("different clearances", self.cleared_apart),
            ("stop 10 in one run", self.one_uncleared),
            ("a view that stop 10 cut", self.uncleared_cuts),
            ("stop 10 at a closed page", self.kept_out[0]),
            ("stop 10 at the end, page 0 closed", self.kept_out[1]),
            ("a closed page, one longer", self.closed_cut),
            ("a closed page, different clearances", self.closed_apart),
        ]
        .into_iter()
        .filter(|&(_, count)| count == 0);
        missing.extend(never.map(|(name, _)| name.into()));
        missing
    }

    /// Counts a pair.
    pub(super) fn note(&mut self, pair: &Pair) {
        let [one, two] = pair.runs();
        let common = one.view.len().min(two.view.len());
        self.pairs += 1;
        self.with_lines += u64::from(common > 0);
        self.apart += u64::from((one.stop, one.steps) != (two.stop, two.steps));
        self.mixed += u64::from(one.on_plain != two.on_plain);
        self.cut += u64::from(one.view.len() != two.view.len());
        self.lines += common as u64;
        let ends = [one.has_end_line(), two.has_end_line()];
        self.both_end += u64::from(ends == [true; 2]);
        self.one_ends += u64::from(ends[0] != ends[1]);
        let hidden_ends = pair.runs().into_iter().filter(|run| run.is_at_end() && !run.cleared);
        self.hidden_ends += hidden_ends.count() as u64;
        if let Some(cut) = stopped_alone(pair, Stop::Overflow) {
            self.one_overflows += 1;
            self.overflow_cuts += u64::from(cut);
        }
        self.note_returns(pair);
        self.note_pages(pair);
        self.note_clearances(pair);
        self.note_closed(pair);
    }

    fn note_returns(&mut self, pair: &Pair) {
        if let Some(cut) = stopped_alone(pair, Stop::ResultsDiffer) {
            self.one_differs += 1;
            self.differing_cuts += u64::from(cut);
        }
        let [one, two] = pair.runs();
        let returns = pair.cells_differ && pair.runs().into_iter().all(|run| run.hidden_returns > 0);
        let lines = pair.runs().into_iter().all(|run| !run.view.is_empty());
        self.hidden_returns += u64::from(returns);
        self.returns_apart += u64::from(returns && lines && (one.stop, one.steps) != (two.stop, two.steps));
    }

    fn note_pages(&mut self, pair: &Pair) {
        let lengths: Vec<[usize; 2]> =
            (0..PAGES).map(|page| pair.page(page).map(|lines| lines.len())).collect();
        for (count, [one, two]) in self.pages.iter_mut().zip(&lengths) {
            *count += u64::from(*one.min(two) > 0);
        }
        let alike = lengths.iter().any(|&[one, two]| one == two && one > 0);
        self.one_page_cut += u64::from(alike && lengths.iter().any(|[one, two]| one != two));
    }

    fn note_clearances(&mut self, pair: &Pair) {
        let lines = pair.runs().into_iter().all(|run| !run.view.is_empty());
        self.cleared_apart += u64::from(lines && cleared_apart(pair));
        if let Some(cut) = stopped_alone(pair, Stop::NotCleared) {
            self.one_uncleared += 1;
            self.uncleared_cuts += u64::from(cut);
        }
        for run in pair.runs() {
            if let Some((_, at_end)) = run.uncleared.filter(|&(page, _)| run.closes(page, pair.set)) {
                self.kept_out[usize::from(at_end)] += 1;
            }
        }
    }

    /// Pages that both runs close to owners outside the set. Cells that are the same would show nothing.
    fn note_closed(&mut self, pair: &Pair) {
        let mut longer = false;
        for page in (0..PAGES).filter(|_| pair.cells_differ) {
            let lines = pair.closed_page(page).filter(|runs| runs.iter().all(|lines| !lines.is_empty()));
            if let Some([one, two]) = lines {
                self.closed[usize::from(page)] += 1;
                longer |= one.len() != two.len();
            }
        }
        self.closed_cut += u64::from(longer);
        self.closed_apart += u64::from(longer && cleared_apart(pair));
    }
}

fn cleared_apart(pair: &Pair) -> bool {
    pair.one.clearances != pair.two.clearances
}

/// Where this stop ended one run alone: whether it has the shorter view.
fn stopped_alone(pair: &Pair, stop: Stop) -> Option<bool> {
    let [one, two] = pair.runs().map(|run| run.view.len());
    match pair.runs().map(|run| run.stop == stop as u64) {
        [true, false] => Some(one < two),
        [false, true] => Some(two < one),
        _ => None,
    }
}
