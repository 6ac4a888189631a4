// The shelf beside a run: ours in its two parts, filled through the C interface, and the Rust's steps in a list, the
// newest last, each of which the Rust's own `bounds` and `interpolate` look into.
use super::draw::Draw;
use super::memory::difference;
use super::stop::{insist, none};
use super::tally::count;
use crate::dense::DenseSegment;
use crate::interface::{elchepur_ask_shelf, elchepur_empty_shelf, elchepur_put_on_shelf};

const MOST: usize = 48;

// Words that are no shelf's.
const UNFIT: [[usize; 2]; 3] = [[49, 0], [0, 48], [usize::MAX, usize::MAX]];

pub struct Shelf {
    words: [usize; 2],
    coefficients: Vec<f64>,
    ends: Vec<f64>,
    theirs: Vec<DenseSegment>,
    // Of the steps of `theirs`, whether h was made shorter after the end was fixed.
    shortened: Vec<bool>,
    backward: bool,
    emptied: bool,
    draw: Draw,
}

impl Shelf {
    pub fn new(n: usize, backward: bool, mut draw: Draw) -> Shelf {
        let mut words = [7; 2];
        elchepur_empty_shelf(&mut words);
        let coefficients = draw.list(MOST * 4 * n, Draw::any);
        let ends = draw.list(MOST * 2, Draw::any);
        let (theirs, shortened, emptied) = (Vec::new(), Vec::new(), false);
        Shelf { words, coefficients, ends, theirs, shortened, backward, emptied, draw }
    }

    pub fn empty(&mut self) {
        elchepur_empty_shelf(&mut self.words);
        self.theirs.clear();
        self.shortened.clear();
        self.emptied = true;
    }

    // At a report at x after the first: ours from our memory, theirs from the Rust's.
    pub fn put(&mut self, cont: &[f64], xold: f64, h: f64, x: f64, theirs: DenseSegment) {
        if self.draw.percent(5) {
            self.refuse_step(cont, xold, h);
        }
        let said = elchepur_put_on_shelf(&mut self.words, cont, xold, h, &mut self.coefficients, &mut self.ends);
        insist(said == 0, || format!("a step is refused by {said}"));
        self.theirs.push(theirs);
        self.shortened.push(xold + h != x);
    }

    // What has a wrong length is refused by 2, a shelf that can't be by 13, and nothing is written.
    fn refuse_step(&mut self, cont: &[f64], xold: f64, h: f64) {
        let (mut coefficients, mut ends) = (self.coefficients.clone(), self.ends.clone());
        let mut words = self.draw.one_of(&UNFIT);
        let kept = words;
        let said = elchepur_put_on_shelf(&mut words, cont, xold, h, &mut coefficients, &mut ends);
        insist(said == 13, || format!("no shelf: {said}"));
        let room = coefficients.len() - self.draw.from_to(1, 4);
        let said = elchepur_put_on_shelf(&mut words, cont, xold, h, &mut coefficients[..room], &mut ends);
        insist(said == 2, || format!("a short room: {said}"));
        let said = elchepur_put_on_shelf(&mut words, cont, xold, h, &mut coefficients, &mut ends[1..]);
        insist(said == 2, || format!("short ends: {said}"));
        coefficients.push(1.0);
        let said = elchepur_put_on_shelf(&mut words, cont, xold, h, &mut coefficients, &mut ends);
        insist(said == 2 && coefficients.pop() == Some(1.0), || format!("a long room: {said}"));
        none(difference("room of a refused step", &coefficients, &self.coefficients));
        none(difference("ends of a refused step", &ends, &self.ends));
        insist(words == kept, || "a refused step moved the shelf".to_string());
    }

    // The same of a question: 2 comes before 13, and 13 before 25, also at a NaN.
    fn refuse_question(&mut self, n: usize, x: f64) {
        let (unfit, mut target) = (self.draw.one_of(&UNFIT), vec![1.0; n + 1]);
        let x = if self.draw.percent(20) { f64::NAN } else { x };
        let said = elchepur_ask_shelf(&unfit, x, &mut target, &self.coefficients, &self.ends);
        insist(said == 2, || format!("a long target: {said}"));
        let said = elchepur_ask_shelf(&unfit, x, &mut target[..n], &self.coefficients[1..], &self.ends);
        insist(said == 2, || format!("a short room: {said}"));
        let (room, ends) = ([&self.coefficients[..], &[1.0]].concat(), [&self.ends[..], &[1.0]].concat());
        let said = elchepur_ask_shelf(&self.words, x, &mut target[..n], &room, &self.ends);
        insist(said == 2, || format!("a long room: {said}"));
        let said = elchepur_ask_shelf(&self.words, x, &mut target[..n], &self.coefficients, &ends);
        insist(said == 2, || format!("long ends: {said}"));
        let said = elchepur_ask_shelf(&self.words, x, &mut target[..n], &self.coefficients, &self.ends[2..]);
        insist(said == 2, || format!("short ends: {said}"));
        let said = elchepur_ask_shelf(&unfit, x, &mut target[..n], &self.coefficients, &self.ends);
        insist(said == 13, || format!("no shelf: {said}"));
        none(difference("target of a refused question", &target, &vec![1.0; n + 1]));
    }

    // A point of some kept step, one of its ends, or any double, a NaN among them.
    fn point(&mut self) -> f64 {
        let back = self.theirs.len().min(MOST + 2);
        if back == 0 || self.draw.percent(10) {
            return self.draw.any();
        }
        let step = &self.theirs[self.theirs.len() - 1 - self.draw.below(back)];
        let (left, right) = step.bounds();
        match self.draw.below(4) {
            0 => left,
            1 => right,
            _ => left + (right - left) * self.draw.unit(),
        }
    }

    pub fn ask(&mut self, n: usize) {
        let x = self.point();
        if self.draw.percent(5) {
            self.refuse_question(n, x);
        }
        let holds = |step: &DenseSegment| step.bounds().0 <= x && x <= step.bounds().1;
        let kept = self.theirs.len().saturating_sub(MOST)..self.theirs.len();
        let found = kept.rev().find(|&place| holds(&self.theirs[place]));
        let (mut ours, mut theirs) = (vec![1.0; n], vec![1.0; n]);
        let said = elchepur_ask_shelf(&self.words, x, &mut ours, &self.coefficients, &self.ends);
        insist(said == if found.is_some() { 0 } else { 25 }, || format!("asked at {x:?}: {said}"));
        if let Some(place) = found {
            self.theirs[place].interpolate(x, &mut theirs);
        }
        none(difference("amounts of a past point", &ours, &theirs));
        let by_shortened = found.is_some_and(|place| self.shortened[place]);
        let past_most = self.theirs.len() > MOST;
        let classes = [found.is_some(), past_most, self.backward, self.emptied, by_shortened, x.is_nan()];
        count(|t| {
            t.asked += 1;
            t.past.iter_mut().zip(classes).for_each(|(class, is)| *class += is as u64);
        });
    }
}
