// Our run as a host in Rust calls it: memory is lent, and each request is answered until the run has ended.
use super::models::Model;
use super::outcome::{Outcome, Way};
use super::points::Points;
use crate::interface::{elchepur_advance, elchepur_default_settings, elchepur_held_step, elchepur_interpolate,
    elchepur_open, elchepur_result};

const DERIVATIVE: u64 = 1;
const JACOBIAN: u64 = 2;
const REPORT: u64 = 3;
const FILLED: u64 = 1;
const CONTINUE: u64 = 2;

// Places in the settings and in the result.
const DENSE_OUTPUT: usize = 3;
const MASS: usize = 4;
const SOURCE: usize = 5;
const RULE: usize = 6;
const UROUND: usize = 0;

pub struct Run {
    words: [usize; 42],
    doubles: [f64; 31],
    pub told: [u64; 3],
    at: [f64; 2],
    y: Vec<f64>,
    f0: Vec<f64>,
    scal: Vec<f64>,
    cont: Vec<f64>,
    z1: Vec<f64>,
    z2: Vec<f64>,
    z3: Vec<f64>,
    f1: Vec<f64>,
    f2: Vec<f64>,
    f3: Vec<f64>,
    rtol: Vec<f64>,
    atol: Vec<f64>,
    mass: Vec<f64>,
    jac: Vec<f64>,
    pub e1: Vec<f64>,
    pub e2r: Vec<f64>,
    pub e2i: Vec<f64>,
    ip1: Vec<usize>,
    ip2: Vec<usize>,
    y_perturbed: Vec<f64>,
    f_perturbed: Vec<f64>,
    f_origin: Vec<f64>,
}

impl Run {
    pub fn open<M: Model>(way: Way) -> Run {
        let (n, nn) = (M::N, M::N * M::N);
        let [f0, scal, z1, z2, z3, f1, f2, f3, y_perturbed, f_perturbed, f_origin] = [const { Vec::new() }; 11]
            .map(|_: Vec<f64>| vec![0.0; n]);
        let [mass, jac, e1, e2r, e2i] = [const { Vec::new() }; 5].map(|_: Vec<f64>| vec![0.0; nn]);
        let mut r = Run {
            words: [0; 42],
            doubles: [0.0; 31],
            told: [0; 3],
            at: [0.0; 2],
            y: M::start(),
            cont: vec![0.0; 4 * n],
            rtol: vec![way.rtol; n],
            atol: vec![way.atol; n],
            ip1: vec![0; n],
            ip2: vec![0; n],
            f0, scal, z1, z2, z3, f1, f2, f3, y_perturbed, f_perturbed, f_origin, mass, jac, e1, e2r, e2i,
        };
        let (mut numbers, mut floats) = ([0; 17], [0.0; 8]);
        elchepur_default_settings(&mut numbers, &mut floats);
        numbers[DENSE_OUTPUT] = way.dense as u64;
        numbers[MASS] = 0;
        numbers[SOURCE] = !way.host_jacobian as u64;
        numbers[RULE] = way.book as u64;
        floats[UROUND] = way.uround;
        let refused = elchepur_open(
            &numbers, &floats, n, 0.0, way.xend, way.lists as u64, way.rtol, way.atol, &mut r.words, &mut r.doubles,
                &mut r.told, &mut r.at, &r.y, &mut r.f0, &mut r.scal, &mut r.cont,
            &mut r.z1, &mut r.z2, &mut r.z3, &mut r.f1, &mut r.f2, &mut r.f3, &mut r.rtol, &mut r.atol, &mut r.mass,
                &mut r.jac,
            &mut r.e1, &mut r.e2r, &mut r.e2i, &mut r.ip1, &mut r.ip2, &mut r.y_perturbed, &mut r.f_perturbed,
                &mut r.f_origin,
        );
        assert_eq!(refused, 0);
        r
    }

    fn advance(&mut self, reply: u64) {
        let r = self;
        let refused = elchepur_advance(
            &mut r.words, &mut r.doubles, reply, 0.0, &mut r.told, &mut r.at, &mut r.y, &r.f0, &mut r.scal, &mut r.cont,
            &mut r.z1, &mut r.z2, &mut r.z3, &mut r.f1, &mut r.f2, &mut r.f3, &r.rtol, &r.atol, &r.mass, &mut r.jac,
            &mut r.e1, &mut r.e2r, &mut r.e2i, &mut r.ip1, &mut r.ip2, &mut r.y_perturbed, &mut r.f_perturbed,
                &mut r.f_origin,
        );
        assert_eq!(refused, 0);
    }

    fn derive<M: Model>(&mut self) {
        let stage = &self.cont[..M::N];
        match self.told[1] {
            1 => M::derivative(&self.y, &mut self.f0),
            2 => M::derivative(stage, &mut self.z1),
            3 => M::derivative(stage, &mut self.z2),
            4 => M::derivative(stage, &mut self.z3),
            5 => M::derivative(stage, &mut self.f1),
            6 => M::derivative(&self.y, &mut self.f_origin),
            _ => M::derivative(&self.y_perturbed, &mut self.f_perturbed),
        }
    }

    fn report(&mut self, points: &mut Points) {
        if self.told[2] == 0 {
            return;
        }
        let h = elchepur_held_step(&self.words, &self.doubles);
        let (xold, cont) = (self.at[0], &self.cont);
        points.reached(self.at[1], |xi, yi| {
            elchepur_interpolate(xi, yi, cont, xold, h);
        });
    }

    // Answers the request that stands. Whether there was one.
    #[inline]
    pub fn answer<M: Model>(&mut self, points: &mut Points) -> bool {
        match self.told[0] {
            DERIVATIVE => self.derive::<M>(),
            JACOBIAN => M::jacobian(&self.y, &mut self.jac, |row, column| row * M::N + column),
            REPORT => {
                self.report(points);
                self.advance(CONTINUE);
                return true;
            }
            _ => return false,
        }
        self.advance(FILLED);
        true
    }

    pub fn outcome(self, points: &Points) -> Outcome {
        let (mut numbers, mut floats) = ([0; 9], [0.0; 4]);
        assert_eq!(elchepur_result(&self.words, &self.doubles, &mut numbers, &mut floats), 0);
        let [status, ode, jac, lu, total, accepted, rejected, ..] = numbers;
        Outcome { status: status as i64, accepted, rejected, total, ode, jac, lu, rounds: 0, y: self.y,
            sum: points.sum }
    }
}

pub fn run<M: Model>(way: Way) -> Outcome {
    let mut points = Points::new(M::N, way);
    let mut run = Run::open::<M>(way);
    while run.answer::<M>(&mut points) {}
    run.outcome(&points)
}
