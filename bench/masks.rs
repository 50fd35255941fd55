// The search of docs/SEARCH.md once more, in plain Rust and with bit masks: what the engine's program is timed against.
//
// It reads a case file from standard input, puts the tariff over it, counts charges by the kind Sum, and goes from a new
// search until it is closed. The rules of the calculus, the order in which they are tried and the order of the literals and
// of the learned rules are those of the page, so the counts of conflicts and steps are those of the engine, not only the
// answer. Nothing here is proved. bench/run builds it with rustc -O and compares it with the engine's program.

use std::io::{self, Read, Write};
use std::process::ExitCode;

/// A set of literals: bit l stands for literal l. A case has at most 112 literals.
type Mask = u128;

const MOST_OPTIONS: usize = 56;
const MOST_RULES: usize = 512;
const MOST_LITERALS: usize = 24;
const MOST_ROWS: usize = 64;

/// What the tariff makes of the charge classes 0 to 15; a class above 15 is taken as 15.
const TARIFF: [u64; 16] = [0, 1, 2, 3, 5, 8, 12, 18, 27, 40, 60, 90, 135, 200, 300, 450];

fn bit(literal: u8) -> Mask {
    1 << literal
}

/// The literals 2v and 2v + 1 differ in their last bit only.
fn complement(literal: u8) -> u8 {
    literal ^ 1
}

fn lowest(set: Mask) -> u8 {
    set.trailing_zeros() as u8
}

fn at_most_one(set: Mask) -> bool {
    set & set.wrapping_sub(1) == 0
}

struct Case {
    options: usize,
    /// By literal, as the tariff has them.
    prices: [u64; 2 * MOST_OPTIONS],
    rules: Vec<Mask>,
}

/// The case of a file as docs/CASE-FILE.md has it; none if the file is faulty in any way.
fn parse(file: &[u8]) -> Option<Case> {
    let mut case = Case { options: 0, prices: [0; 2 * MOST_OPTIONS], rules: Vec::new() };
    let mut rest = file;
    let mut last_tag = 0;
    let mut last_amount = None;
    while last_tag != 4 {
        let (&[tag, high, low], after) = rest.split_first_chunk()?;
        let (content, after) = after.split_at_checked(u16::from_be_bytes([high, low]).into())?;
        // The options stand first and once; the tags never fall after them.
        if (tag == 1) != (last_tag == 0) || tag < last_tag {
            return None;
        }
        let known = |literal: u8| usize::from(literal) < 2 * case.options;
        match (tag, content) {
            (1, &[high, low]) => {
                case.options = u16::from_be_bytes([high, low]).into();
                if case.options > MOST_OPTIONS {
                    return None;
                }
            }
            (2, &[literal, a, b, c, d]) => {
                let amount = u32::from_be_bytes([a, b, c, d]);
                if !known(literal) || last_amount >= Some(literal) || amount == 0 {
                    return None;
                }
                last_amount = Some(literal);
                case.prices[usize::from(literal)] = TARIFF[amount.min(15) as usize];
            }
            (3, literals) => {
                if literals.len() > MOST_LITERALS || case.rules.len() == MOST_RULES || !literals.iter().all(|&l| known(l)) {
                    return None;
                }
                case.rules.push(literals.iter().fold(0, |rule, &l| rule | bit(l)));
            }
            (4, &[]) => {}
            _ => return None,
        }
        last_tag = tag;
        rest = after;
    }
    rest.is_empty().then_some(case)
}

struct Entry {
    literal: u8,
    /// The place of the rule that forced the literal; none if it was decided.
    reason: Option<u16>,
    /// The charge of the trail before the literal joined.
    charge_before: u64,
}

/// The trail as it was when a level began, so that going back to it takes no counting.
struct Mark {
    len: usize,
    set: Mask,
    falsified: Mask,
    charge: u64,
}

struct Search<'a> {
    case: &'a Case,
    /// The rules of the case and then the learned ones, oldest first, in one array: one scan finds the first of all.
    clauses: Vec<Mask>,
    trail: Vec<Entry>,
    /// The literals on the trail, and their complements. Both are kept up to date literal by literal.
    set: Mask,
    falsified: Mask,
    /// The sum of the trail's prices. The sum is the same in every order, so it can follow the trail.
    charge: u64,
    /// marks[k - 1] is from just before level k was opened, so there are as many as there are levels.
    marks: Vec<Mark>,
    /// The literals of the best choice, and its charge.
    best: Option<(Mask, u64)>,
    conflicts: u64,
    steps: u64,
}

impl<'a> Search<'a> {
    fn new(case: &'a Case) -> Self {
        let mut clauses = Vec::with_capacity(case.rules.len() + MOST_ROWS);
        clauses.extend_from_slice(&case.rules);
        Search {
            case,
            clauses,
            trail: Vec::with_capacity(MOST_OPTIONS),
            set: 0,
            falsified: 0,
            charge: 0,
            marks: Vec::with_capacity(MOST_OPTIONS),
            best: None,
            conflicts: 0,
            steps: 0,
        }
    }

    /// Until the conflict set is empty. A search has a conflict set or it has none, and each of the two has its own loop.
    fn run(&mut self) {
        loop {
            let conflict = self.forward();
            if !self.backward(conflict) {
                return;
            }
        }
    }

    /// Steps without a conflict set, the last of which finds one.
    fn forward(&mut self) -> Mask {
        let all: Mask = (1 << (2 * self.case.options)) - 1;
        loop {
            self.steps += 1;
            // A literal is alive if its complement is not set. A rule without one is false: ConflSat.
            let live = !self.falsified;
            if let Some(&clause) = self.clauses.iter().find(|&&clause| clause & live == 0) {
                self.conflicts += 1;
                return clause;
            }
            // ConflOpt: the complements of the whole trail.
            if self.best.is_some_and(|(_, charge)| charge <= self.charge) {
                self.conflicts += 1;
                return self.falsified;
            }
            let unset = all & !(self.set | self.falsified);
            if unset == 0 {
                // Improve
                self.best = Some((self.set, self.charge));
            } else if let Some((place, literal)) = self.first_unit(live) {
                // Propagate
                self.push(literal, Some(place as u16));
            } else {
                // Decide: both literals of an unset option are unset, so the lowest one sets the option on.
                let on = lowest(unset);
                let off = complement(on);
                let cheaper = self.case.prices[usize::from(on)] < self.case.prices[usize::from(off)];
                self.marks.push(Mark { len: self.trail.len(), set: self.set, falsified: self.falsified, charge: self.charge });
                self.push(if cheaper { on } else { off }, None);
            }
        }
    }

    /// The first rule with just one literal alive, which is not set yet, and that literal. No rule is false when this is asked.
    fn first_unit(&self, live: Mask) -> Option<(usize, u8)> {
        for (place, &clause) in self.clauses.iter().enumerate() {
            let alive = clause & live;
            if at_most_one(alive) && alive & self.set == 0 {
                return Some((place, lowest(alive)));
            }
        }
        None
    }

    /// Steps with a conflict set, the last of which learns it; false if the set becomes empty, which closes the search.
    /// The complements of the set's literals are all on the trail, before every step.
    fn backward(&mut self, mut conflict: Mask) -> bool {
        while conflict != 0 {
            self.steps += 1;
            if let Some(mark) = self.marks.last() {
                // What was not false when the last level began has that level.
                let last_level = conflict & !mark.falsified;
                if last_level != 0 && at_most_one(last_level) {
                    self.backtrack(conflict, last_level);
                    return true;
                }
            }
            // Skip; or Resolve, if the complement of the last literal is in the set. That literal was forced: a decided one is
            // the first of its level, so its complement would be the only literal of that level in the set.
            let last = self.pop().expect("a conflict set that is not empty needs a trail");
            let opposite = bit(complement(last.literal));
            if conflict & opposite != 0 {
                let place = last.reason.expect("a decided literal is never resolved");
                let reason = self.clauses[usize::from(place)];
                conflict = (conflict & !opposite) | (reason & !bit(last.literal));
            }
        }
        false
    }

    /// Backtrack: the conflict set is learned, and its one literal of the last level joins at the level of the others.
    fn backtrack(&mut self, conflict: Mask, literal: Mask) {
        let others = conflict & !literal;
        // The greatest level of the others is the last one that some of them needed: below it they were not all false.
        let mut level = self.marks.len() - 1;
        while level > 0 && others & !self.marks[level - 1].falsified == 0 {
            level -= 1;
        }
        let mark = &self.marks[level];
        self.trail.truncate(mark.len);
        self.set = mark.set;
        self.falsified = mark.falsified;
        self.charge = mark.charge;
        self.marks.truncate(level);

        if self.clauses.len() - self.case.rules.len() == MOST_ROWS {
            self.drop_row();
        }
        let place = self.clauses.len();
        self.clauses.push(conflict);
        self.push(lowest(literal), Some(place as u16));
    }

    /// Drops the oldest learned rule that is no reason. There is one: the rows are more than the trail is long.
    fn drop_row(&mut self) {
        let base = self.case.rules.len();
        let mut reasons = 0u64;
        for entry in &self.trail {
            if let Some(row) = entry.reason.and_then(|place| usize::from(place).checked_sub(base)) {
                reasons |= 1 << row;
            }
        }
        let place = base + (!reasons).trailing_zeros() as usize;
        self.clauses.remove(place);
        for entry in &mut self.trail {
            if let Some(reason) = &mut entry.reason {
                if usize::from(*reason) > place {
                    *reason -= 1;
                }
            }
        }
    }

    fn push(&mut self, literal: u8, reason: Option<u16>) {
        self.trail.push(Entry { literal, reason, charge_before: self.charge });
        self.set |= bit(literal);
        self.falsified |= bit(complement(literal));
        self.charge = self.charge.saturating_add(self.case.prices[usize::from(literal)]);
    }

    fn pop(&mut self) -> Option<Entry> {
        let last = self.trail.pop()?;
        self.set &= !bit(last.literal);
        self.falsified &= !bit(complement(last.literal));
        self.charge = last.charge_before;
        if last.reason.is_none() {
            self.marks.pop();
        }
        Some(last)
    }
}

fn report(search: &Search) -> String {
    let mut text = String::new();
    match search.best {
        None => text += "impossible\n",
        Some((set, charge)) => {
            text += "cheapest\nchoice ";
            for v in 0..search.case.options {
                text.push(if set >> (2 * v) & 1 == 1 { '1' } else { '0' });
            }
            text += &format!("\ncharge {charge}\n");
        }
    }
    text + &format!("conflicts {}\nsteps {}\n", search.conflicts, search.steps)
}

fn main() -> ExitCode {
    let mut file = Vec::new();
    let case = match io::stdin().lock().read_to_end(&mut file) {
        Ok(_) => parse(&file),
        Err(_) => None,
    };
    let Some(case) = case else {
        println!("bad file");
        return ExitCode::FAILURE;
    };
    let mut search = Search::new(&case);
    search.run();
    match io::stdout().write_all(report(&search).as_bytes()) {
        Ok(()) => ExitCode::SUCCESS,
        Err(_) => ExitCode::FAILURE,
    }
}
