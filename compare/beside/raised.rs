// Pairs of runs that differ in the limit of steps alone, each compared with the Rust's at every request. A run that
// ended with any status but 2 is the same under a larger limit, at every request and at its end; one that ended with 2
// has its requests before the end as the beginning of the longer run's.
use super::case::Case;
use super::draw::Draw;
use super::memory::{bits, Memory};
use super::ours::Ours;
use super::stop::insist;
use super::tally::{aside, count};
use std::hash::{DefaultHasher, Hasher};

// The largest limit that an opening takes.
const MOST: usize = 1_000_000;

// The status of a run that the limit ended.
const NEED_LARGER_N_MAX: u64 = 2;

// What is asked, and a sum of all memory then.
#[derive(Clone, Copy, PartialEq, Debug)]
pub struct Asked {
    told: [u64; 3],
    at: [u64; 2],
    memory: u64,
}

// Every request of a run, the last being its end, with the status and counts, and the bits of h and x.
#[derive(Default)]
pub struct Trace {
    asked: Vec<Asked>,
    result: Option<([u64; 9], [u64; 4])>,
}

fn sum(memory: &Memory) -> u64 {
    let mut hasher = DefaultHasher::new();
    for part in memory.doubles() {
        part.iter().for_each(|&x| hasher.write_u64(bits(x)));
    }
    for part in memory.pivots() {
        part.iter().for_each(|&row| hasher.write_usize(row));
    }
    hasher.finish()
}

impl Trace {
    pub fn note(&mut self, ours: &Ours) {
        self.asked.push(Asked { told: ours.told, at: ours.at.map(bits), memory: sum(&ours.memory) });
    }

    pub fn end(&mut self, numbers: [u64; 9], floats: [f64; 4]) {
        self.result = Some((numbers, floats.map(bits)));
    }

    fn over(&self) -> bool {
        self.result.is_some_and(|(numbers, _)| numbers[0] == NEED_LARGER_N_MAX)
    }
}

fn larger(limit: usize, d: &mut Draw) -> usize {
    d.one_of(&[limit + 1, limit + d.clone().from_to(1, 40), 2 * limit, MOST]).min(MOST)
}

// The first place at which the longer run asks another thing than the shorter, of so many requests.
fn first_other(shorter: &Trace, longer: &Trace, count: usize) -> Option<usize> {
    (0..count).find(|&place| shorter.asked.get(place) != longer.asked.get(place))
}

fn held_together(shorter: &Trace, longer: &Trace) {
    let over = shorter.over();
    let count = if over { shorter.asked.len() - 1 } else { shorter.asked.len().max(longer.asked.len()) };
    let other = first_other(shorter, longer, count);
    insist(other.is_none(), || format!("under a larger limit request {} is another", other.unwrap_or(0) + 1));
    insist(over || shorter.result == longer.result,
        || format!("under a larger limit the result is {:?}, and was {:?}", longer.result, shorter.result));
}

// `traced` compares a run of the case and gives what was asked in it; nothing of a refused opening.
pub fn compare(case: &mut Case, d: &mut Draw, traced: impl Fn(&Case, &mut Draw) -> Option<Trace>) {
    let limit = case.opening.settings.max_steps;
    if limit >= MOST {
        return;
    }
    let pair = aside(|| {
        let shorter = traced(case, d)?;
        case.opening.settings.max_steps = larger(limit, d);
        Some((shorter, traced(case, d)?))
    });
    if let Some((shorter, longer)) = pair {
        held_together(&shorter, &longer);
        count(|t| t.pairs[shorter.over() as usize + (shorter.over() && !longer.over()) as usize] += 1);
    }
}
