// The comparison: our run is held beside the Rust's. At each call of the host that the Rust makes, what ours asks and
// all its memory must be the Rust's; then one reply goes to both.
use super::draw::Draw;
use super::host::{Host, Told};
use super::memory::{bits, difference, Memory};
use super::opening::Opening;
use super::ours::{Ours, CONTINUE, DERIVATIVE, ENDED, FILLED, INTERRUPT, JACOBIAN, MARK, MODIFIED, REPORT};
use super::raised::Trace;
use super::shelf::Shelf;
use super::stop::{at_request, insist, none};
use super::tally::{self, count, CLASSES};
use crate::dense::{DenseSegment, StepInterpolant};
use crate::interface::{elchepur_bounds, elchepur_interpolate};
use crate::methods::IntegrationResult;
use crate::radau_rust::RADAU;

// The status that tells which matrix was singular.
const SINGULAR_MATRIX: u64 = 5;

pub struct Side {
    pub ours: Ours,
    // The Rust's parts as they stand at its call of the host, and its tolerances where they are scalars.
    pub theirs: Memory,
    pub scalars: Option<(f64, f64)>,
    // That of the derivative which the Rust asks for next.
    pub place: u64,
    host: Host,
    draw: Draw,
    shelf: Shelf,
    reports: u64,
    classes: [bool; CLASSES.len()],
    requests: u64,
    interrupted: bool,
    // What was asked so far, where it is wanted.
    pub trace: Option<Trace>,
}

impl Side {
    // A run that was opened; `theirs` is what the Rust's memory holds before its first call.
    pub fn new(opening: &Opening, ours: Ours, host: Host, draw: Draw) -> Side {
        let mut theirs = Memory::zeros(opening.n);
        opening.lay_out(&mut theirs);
        let mut classes = [false; CLASSES.len()];
        classes[tally::LISTS] = opening.lists();
        classes[tally::FULL] = opening.mass.is_some();
        classes[tally::INDEX] = opening.higher_index();
        classes[tally::HOST] = opening.settings.host_jacobian;
        classes[tally::BOOK] = opening.settings.book;
        classes[tally::BACKWARD] = opening.xend < opening.x0;
        let own = Draw::new(bits(opening.x0), bits(opening.xend));
        let shelf = Shelf::new(opening.n, classes[tally::BACKWARD], own);
        let (requests, reports, interrupted) = (0, 0, false);
        let (scalars, place, trace) = (None, 0, None);
        Side { ours, theirs, scalars, place, host, draw, shelf, reports, classes, requests, interrupted, trace }
    }

    pub fn interrupted(&self) -> bool {
        self.interrupted
    }

    // The Rust asks this. `flag` is the offer of coefficients, or the status of an end.
    fn compare(&mut self, kind: u64, place: u64, flag: u64, at: [f64; 2]) {
        self.requests += 1;
        at_request(self.requests);
        let (told, points) = (self.ours.told, self.ours.at);
        insist(told == [kind, place, flag],
            || format!("asked (kind, place, flag): ours {told:?}, the Rust's {:?}", [kind, place, flag]));
        none(difference("x", &points, &at));
        none(self.ours.memory.difference(&self.theirs));
        if let Some((rtol, atol)) = self.scalars {
            let ours = self.ours.scalars();
            let theirs = (bits(rtol), bits(atol));
            insist(ours == theirs, || format!("scalar tolerances: ours {ours:x?}, the Rust's {theirs:x?}"));
        }
        if let Some(trace) = &mut self.trace {
            trace.note(&self.ours);
        }
        count(|t| (0..CLASSES.len()).for_each(|class| t.classes[class] += self.classes[class] as u64));
        if self.draw.below(16) == 0 {
            self.try_refusals(kind);
        }
    }

    // A reply of another kind is refused by 15, a state or memory that is unfit by 13, any reply to a run that has
    // ended by 14; and nothing is written.
    fn try_refusals(&mut self, kind: u64) {
        let wrong = match kind {
            REPORT => self.draw.one_of(&[0, FILLED, 6, u64::MAX]),
            ENDED => self.draw.one_of(&[0, FILLED, CONTINUE, INTERRUPT, MODIFIED, MARK]),
            _ => self.draw.one_of(&[0, CONTINUE, INTERRUPT, MODIFIED, MARK, 6, u64::MAX]),
        };
        let right = if kind == REPORT { CONTINUE } else { FILLED };
        let number = if kind == ENDED { 14 } else { 15 };
        none(self.ours.refused(wrong, self.draw.any(), number));
        none(self.ours.refused_state(right, &mut self.draw));
        none(self.ours.refused_memory(right, &mut self.draw));
        count(|t| {
            t.unmoved[number as usize] += 1;
            t.unmoved[13] += 2;
        });
    }

    // Hands a reply to our run. The value of a reply that has none is anything.
    fn advance(&mut self, reply: u64, value: Option<f64>, written: &[f64]) {
        let value = value.unwrap_or_else(|| self.draw.any());
        let said = self.ours.advance(reply, value);
        insist(said == 0, || format!("reply {reply} is refused by {said}"));
        let carries = matches!(reply, MODIFIED | MARK);
        let not_finite = written.iter().any(|x| !x.is_finite()) || carries && !value.is_finite();
        self.classes[tally::WAS_NOT_FINITE] |= not_finite;
        self.classes[tally::WAS_MODIFIED] |= reply == MODIFIED;
        self.classes[tally::WAS_MARKED] |= reply == MARK;
        count(|t| {
            t.replies[reply as usize] += 1;
            t.not_finite += not_finite as u64;
        });
    }

    pub fn derivative(&mut self, x: f64, y: &[f64], out: &mut [f64]) {
        let place = self.place;
        self.compare(DERIVATIVE, place, 0, [x, x]);
        none(difference("amounts of the derivative", self.ours.amounts(place), y));
        none(difference("part to fill", self.ours.target(place), out));
        count(|t| t.requests[place as usize - 1] += 1);
        self.host.derivative(x, y, out);
        self.ours.target(place).copy_from_slice(out);
        self.advance(FILLED, None, out);
    }

    pub fn jacobian(&mut self, x: f64, y: &[f64], out: &mut [f64]) {
        self.compare(JACOBIAN, 0, 0, [x, x]);
        count(|t| t.requests[7] += 1);
        self.host.jacobian(x, y, out);
        self.ours.memory.jac.copy_from_slice(out);
        self.advance(FILLED, None, out);
    }

    pub fn report(&mut self, xold: f64, x: &mut f64, y: &mut [f64], offered: Option<&StepInterpolant<'_>>) -> Told {
        self.compare(REPORT, 0, offered.is_some() as u64, [xold, *x]);
        count(|t| t.requests[8 + offered.is_some() as usize] += 1);
        if let Some(step) = offered {
            self.dense(step, xold, *x);
        }
        self.shelve(xold, *x, offered);
        let told = self.host.report(*x, y);
        match told {
            Told::Continue => self.advance(CONTINUE, None, &[]),
            Told::Interrupt => {
                self.interrupted = true;
                self.advance(INTERRUPT, None, &[]);
            }
            Told::Modified(to) => {
                *x = to;
                self.shelf.empty();
                self.ours.memory.y.copy_from_slice(y);
                self.advance(MODIFIED, Some(to), y);
            }
            Told::Mark(mark) => self.advance(MARK, Some(mark), &[]),
        }
        self.shelf.ask(y.len());
        told
    }

    // Every step but the point of the first report goes on the shelf, offered or not. The Rust's own is kept where it
    // is offered; else it is made of the Rust's coefficients.
    fn shelve(&mut self, xold: f64, x: f64, offered: Option<&StepInterpolant<'_>>) {
        self.reports += 1;
        if self.reports > 1 {
            let h = self.ours.held_step();
            let made = || DenseSegment::new(self.theirs.cont.clone(), xold, h, RADAU::interpolate);
            let theirs = offered.map_or_else(made, StepInterpolant::to_segment);
            self.shelf.put(&self.ours.memory.cont, self.ours.at[0], h, x, theirs);
        }
    }

    // Dense output from the coefficients that are offered, at one point.
    fn dense(&mut self, step: &StepInterpolant<'_>, xold: f64, x: f64) {
        let n = self.theirs.y.len();
        let xi = if self.draw.percent(10) { self.draw.any() } else { xold + (x - xold) * self.draw.unit() };
        let h = self.ours.held_step();
        none(difference("step held", &[h], &[step.step_params().1]));
        let (mut ours, mut theirs) = (vec![1.0; n], vec![1.0; n]);
        let said = elchepur_interpolate(xi, &mut ours, &self.ours.memory.cont, self.ours.at[0], h);
        insist(said == 0, || format!("interpolate is refused by {said}"));
        step.interpolate(xi, &mut theirs);
        none(difference("interpolated", &ours, &theirs));
        let mut ends = [0.0; 2];
        elchepur_bounds(self.ours.at[0], h, &mut ends);
        let (left, right) = step.bounds();
        none(difference("bounds", &ends, &[left, right]));
        count(|t| t.dense += 1);
    }

    // The Rust's run has come to its end at x; what it returns is told a little later.
    pub fn end(&mut self, x: f64, result: &IntegrationResult) {
        let status = result.status as u64;
        self.compare(ENDED, 0, status, [0.0, 0.0]);
        let (evals, steps) = (&result.evals, &result.steps);
        let counts = [evals.ode, evals.jac, evals.lu, steps.total, steps.accepted, steps.rejected];
        let (matrix, column) = if status == SINGULAR_MATRIX { crate::stopped::latest() } else { (0, 0) };
        let (said, numbers, floats) = self.ours.result();
        insist(said == 0, || format!("the result is refused by {said}"));
        insist(numbers[0] == status, || format!("status: ours {}, the Rust's {status}", numbers[0]));
        let ours = &numbers[1..7];
        let theirs = counts.map(|count| count as u64);
        insist(ours == theirs,
            || format!("ode, jac, lu, total, accepted, rejected: ours {ours:?}, the Rust's {theirs:?}"));
        insist(numbers[7..] == [matrix, column],
            || format!("singular matrix and column: ours {:?}, the Rust's {:?}", &numbers[7..], [matrix, column]));
        let [smallest, largest] = crate::strides::ends();
        none(difference("h, x and strides of the result", &floats, &[result.h, x, smallest, largest]));
        if let Some(trace) = &mut self.trace {
            trace.end(numbers, floats);
        }
        count(|t| {
            t.ends[status as usize] += 1;
            t.classes[tally::BROKEN_OFF] += if self.interrupted { self.requests } else { 0 };
        });
    }
}
