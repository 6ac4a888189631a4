// Our run, across the C interface (include/elchepur.h): the two arrays of its state, what it asks, and its memory.
use super::draw::Draw;
use super::memory::{bits, Memory, PARTS, PIVOTS};
use super::opening::Opening;
use crate::interface::{elchepur_advance, elchepur_held_step, elchepur_open, elchepur_result};
use crate::interface::places::{ACCEPTED, JAC, LU, MAX_STEPS, N, NEWTON_MAXITER, NEWT_ITER, NIND1, ODE, REJECTED};
use crate::interface::places::{ATOL, DOUBLES, RTOL, SAFETY_FACTOR, SCALE_MIN, SINGULAR_COUNT, TOTAL, UROUND, WORDS};

pub const DERIVATIVE: u64 = 1;
pub const JACOBIAN: u64 = 2;
pub const REPORT: u64 = 3;
pub const ENDED: u64 = 4;

pub const FILLED: u64 = 1;
pub const CONTINUE: u64 = 2;
pub const INTERRUPT: u64 = 3;
pub const MODIFIED: u64 = 4;
pub const MARK: u64 = 5;

// A number of a state that is another for one call.
#[derive(Clone, Copy, Debug)]
enum Spoilt {
    Word(usize, usize),
    Double(usize, f64),
}

pub struct Ours {
    words: [usize; WORDS],
    doubles: [f64; DOUBLES],
    pub told: [u64; 3],
    pub at: [f64; 2],
    pub memory: Memory,
}

impl Ours {
    // Opens a run in this memory; beside it document 01's number.
    pub fn open(opening: &Opening, memory: Memory) -> (Ours, u64) {
        let mut ours = Ours { words: [7; WORDS], doubles: [7.0; DOUBLES], told: [7; 3], at: [7.0; 2], memory };
        let (lists, rtol, atol) = opening.tolerance_words();
        let m = &mut ours.memory;
        let number = elchepur_open(
            &opening.numbers(), &opening.floats(), opening.n, opening.x0, opening.xend, lists, rtol, atol,
            &mut ours.words, &mut ours.doubles, &mut ours.told, &mut ours.at, &m.y, &mut m.f0, &mut m.scal,
                &mut m.cont,
            &mut m.z1, &mut m.z2, &mut m.z3, &mut m.f1, &mut m.f2, &mut m.f3, &mut m.rtol, &mut m.atol, &mut m.mass,
                &mut m.jac,
            &mut m.e1, &mut m.e2r, &mut m.e2i, &mut m.ip1, &mut m.ip2, &mut m.y_perturbed, &mut m.f_perturbed,
                &mut m.f_origin,
        );
        (ours, number)
    }

    pub fn advance(&mut self, reply: u64, value: f64) -> u64 {
        let m = &mut self.memory;
        elchepur_advance(
            &mut self.words, &mut self.doubles, reply, value, &mut self.told, &mut self.at, &mut m.y, &m.f0,
                &mut m.scal, &mut m.cont,
            &mut m.z1, &mut m.z2, &mut m.z3, &mut m.f1, &mut m.f2, &mut m.f3, &m.rtol, &m.atol, &m.mass, &mut m.jac,
            &mut m.e1, &mut m.e2r, &mut m.e2i, &mut m.ip1, &mut m.ip2, &mut m.y_perturbed, &mut m.f_perturbed,
                &mut m.f_origin,
        )
    }

    // The status and the counts of a run that has ended, its h and its x, behind document 01's number.
    pub fn result(&self) -> (u64, [u64; 9], [f64; 4]) {
        let (mut numbers, mut floats) = ([7; 9], [7.0; 4]);
        let number = elchepur_result(&self.words, &self.doubles, &mut numbers, &mut floats);
        (number, numbers, floats)
    }

    // Whether a refused opening left everything as it was.
    pub fn untouched(&self, before: &Memory) -> bool {
        self.words == [7; WORDS] && self.doubles == [7.0; DOUBLES] && self.told == [7; 3] && self.at == [7.0; 2]
            && self.memory.untouched(before)
    }

    // The amounts that a derivative at this place is asked of.
    pub fn amounts(&self, place: u64) -> &[f64] {
        let m = &self.memory;
        match place {
            1 | 6 => &m.y,
            7 => &m.y_perturbed,
            _ => &m.cont[..m.y.len()],
        }
    }

    // The part that it fills.
    pub fn target(&mut self, place: u64) -> &mut [f64] {
        let m = &mut self.memory;
        match place {
            1 => &mut m.f0,
            2 => &mut m.z1,
            3 => &mut m.z2,
            4 => &mut m.z3,
            5 => &mut m.f1,
            6 => &mut m.f_origin,
            _ => &mut m.f_perturbed,
        }
    }

    // The tolerances as converted, where they are scalars.
    pub fn scalars(&self) -> (u64, u64) {
        (bits(self.doubles[RTOL]), bits(self.doubles[ATOL]))
    }

    // What interpolation takes as h at a report.
    pub fn held_step(&self) -> f64 {
        elchepur_held_step(&self.words, &self.doubles)
    }

    // A number with which the state is unfit, by one of the clauses of 01's 'Unfit means one of'.
    fn spoilt(&self, d: &mut Draw) -> Spoilt {
        let (m, k, n) = (self.words[MAX_STEPS], self.words[NEWTON_MAXITER], self.words[N]);
        let mut words = vec![
            (N, 0), (N, 33), (N, n + 1), (MAX_STEPS, 0), (MAX_STEPS, 1_000_001), (NEWTON_MAXITER, 17),
            (NIND1, self.words[NIND1] + 1), (NEWT_ITER, k + 1), (ODE, 3 + 3 * (k + 1) * m), (JAC, 7 + 6 * m),
            (LU, 13 + 13 * m), (ACCEPTED, m + 1), (REJECTED, 2 * m + 1),
        ];
        if self.told[0] != ENDED {
            words.extend([(TOTAL, m + 1), (SINGULAR_COUNT, 6)]);
        }
        let doubles = [(UROUND, 1e-35), (SAFETY_FACTOR, 1.0), (SCALE_MIN, 0.0), (SCALE_MIN, f64::NAN)];
        let mut every: Vec<Spoilt> = words.into_iter().map(|(place, word)| Spoilt::Word(place, word)).collect();
        every.extend(doubles.map(|(place, double)| Spoilt::Double(place, double)));
        d.one_of(&every)
    }

    fn put(&mut self, spoilt: Spoilt) {
        match spoilt {
            Spoilt::Word(place, word) => self.words[place] = word,
            Spoilt::Double(place, double) => self.doubles[place] = double,
        }
    }

    // Tries a call that is to be refused by this number. What is wrong, in words.
    pub fn refused(&mut self, reply: u64, value: f64, number: u64) -> Option<String> {
        let (words, doubles, told) = (self.words, self.doubles.map(bits), self.told);
        let (at, memory) = (self.at.map(bits), self.memory.clone());
        let said = self.advance(reply, value);
        if said != number {
            return Some(format!("reply {reply} is answered by {said} and is to be refused by {number}"));
        }
        let untouched = self.words == words && self.doubles.map(bits) == doubles && self.told == told
            && self.at.map(bits) == at && self.memory.untouched(&memory);
        (!untouched).then(|| format!("reply {reply}, refused by {number}, wrote something"))
    }

    // The same by 13, with a number of the state that is spoilt.
    pub fn refused_state(&mut self, reply: u64, d: &mut Draw) -> Option<String> {
        let (words, doubles, spoilt) = (self.words, self.doubles, self.spoilt(d));
        self.put(spoilt);
        let wrong = self.refused(reply, d.any(), 13);
        (self.words, self.doubles) = (words, doubles);
        wrong.map(|words| format!("{spoilt:?} in the state: {words}"))
    }

    // And with memory that doesn't fit: a part too short or too long, or a pivot that is no row.
    pub fn refused_memory(&mut self, reply: u64, d: &mut Draw) -> Option<String> {
        let kept = self.memory.clone();
        let n = kept.y.len();
        if n > 1 && d.percent(30) {
            let pivots = d.below(PIVOTS.len());
            self.memory.pivots_mut()[pivots][d.below(n - 1)] = d.one_of(&[n, usize::MAX]);
        } else {
            self.memory.misfit(d.below(PARTS), d.one_of(&[-1, 1]));
        }
        let wrong = self.refused(reply, d.any(), 13);
        self.memory = kept;
        wrong.map(|words| format!("memory that doesn't fit: {words}"))
    }
}
