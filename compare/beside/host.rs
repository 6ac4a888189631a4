// A host: what it replies to each request. A reply is made once, and handed to the Rust's run and to ours.
use super::draw::Draw;
use super::models::Model;

// The real root of 1/h that makes E1 singular for a Jacobian of U1/h, and the complex one of E2 (radau.rs:824-826).
const U1: f64 = 3.637_834_252_744_496;
const ALPH: f64 = 2.681_082_873_627_752_3;
const BETA: f64 = 3.050_430_199_247_410_5;

// How the host makes a Jacobian, where it does.
#[derive(Clone)]
pub enum Jacobian {
    // That of the model, multiplied: a wrong one makes Newton's iteration slow, or diverge.
    Scaled(f64),
    Zero,
    Noise,
    MildNoise(f64),
    // So many times one that makes the real or the complex matrix singular at a step of 1/scale, which doubles each
    // time; then that of the model.
    RealSingular { scale: f64, times: usize },
    ComplexSingular { scale: f64, times: usize },
}

// Derivatives from one on, counted from 0, of which one entry is written otherwise.
#[derive(Clone)]
pub struct Spoil {
    pub from: usize,
    pub count: usize,
    pub entry: usize,
    pub value: f64,
}

// How reports are replied to: broken off at one of them; modified, or a mark set, so many times in a hundred.
#[derive(Clone, Default)]
pub struct Reports {
    pub interrupt_at: Option<usize>,
    pub modified: usize,
    pub marked: usize,
}

#[derive(Clone, Copy)]
pub enum Told {
    Continue,
    Interrupt,
    // The new x; new amounts, if any, are written.
    Modified(f64),
    Mark(f64),
}

#[derive(Clone)]
pub struct Host {
    pub model: Model,
    pub jacobian: Jacobian,
    pub spoils: Vec<Spoil>,
    pub reports: Reports,
    // The end point, which a mark or a modified point may be at.
    pub xend: f64,
    // Past so many requests the host ends the run: by an interrupt, or, where no report comes, by
    // derivatives that are NaN.
    pub patience: usize,
    pub draw: Draw,
    pub derivatives: usize,
    pub jacobians: usize,
    pub reported: usize,
}

impl Host {
    fn requests(&self) -> usize {
        self.derivatives + self.jacobians + self.reported
    }

    pub fn derivative(&mut self, x: f64, y: &[f64], out: &mut [f64]) {
        self.model.derivative(x, y, out, &mut self.draw);
        for spoil in &self.spoils {
            if (spoil.from..spoil.from + spoil.count).contains(&self.derivatives) {
                out[spoil.entry] = spoil.value;
            }
        }
        if self.requests() > 2 * self.patience + 100 {
            out.fill(f64::NAN);
        }
        self.derivatives += 1;
    }

    // Differences of the model, with a step of the host's own.
    fn model_jacobian(&mut self, x: f64, y: &[f64], factor: f64, out: &mut [f64]) {
        let n = y.len();
        let (mut here, mut there) = (vec![0.0; n], vec![0.0; n]);
        self.model.derivative(x, y, &mut here, &mut self.draw);
        for column in 0..n {
            let mut moved = y.to_vec();
            moved[column] += 1.0 / 1_048_576.0;
            self.model.derivative(x, &moved, &mut there, &mut self.draw);
            for row in 0..n {
                out[row * n + column] = (there[row] - here[row]) * 1_048_576.0 * factor;
            }
        }
    }

    pub fn jacobian(&mut self, x: f64, y: &[f64], out: &mut [f64]) {
        let (n, made) = (y.len(), self.jacobians);
        let doubled = |scale: f64| (0..made).fold(scale, |s, _| 2.0 * s);
        match self.jacobian {
            Jacobian::Zero => out.fill(0.0),
            Jacobian::Noise => out.iter_mut().for_each(|entry| *entry = self.draw.pattern()),
            Jacobian::MildNoise(size) => out.iter_mut().for_each(|entry| *entry = self.draw.between(-1.0, 1.0) * size),
            Jacobian::RealSingular { scale, times } if made < times => rotation(n, U1 * doubled(scale), 0.0, out),
            Jacobian::ComplexSingular { scale, times } if made < times => {
                rotation(n, ALPH * doubled(scale), BETA * doubled(scale), out);
            }
            Jacobian::Scaled(factor) => self.model_jacobian(x, y, factor, out),
            _ => self.model_jacobian(x, y, 1.0, out),
        }
        self.jacobians += 1;
    }

    pub fn report(&mut self, x: f64, y: &mut [f64]) -> Told {
        let weary = self.requests() > self.patience;
        let at = self.reported;
        self.reported += 1;
        if weary || self.reports.interrupt_at == Some(at) {
            return Told::Interrupt;
        }
        let drawn = self.draw.below(100);
        if drawn < self.reports.modified {
            self.modify(y);
            return Told::Modified(self.other_point(x));
        }
        if drawn < self.reports.modified + self.reports.marked {
            return Told::Mark(self.other_point(x));
        }
        Told::Continue
    }

    // Near the point, or anywhere.
    fn other_point(&mut self, x: f64) -> f64 {
        let d = &mut self.draw;
        match d.below(9) {
            0 | 1 => x,
            2 | 3 => x + d.sized(-30, -2),
            4 => x - d.sized(-30, -2),
            5 => x + d.sized(-4, 4),
            6 => d.edge(),
            7 => self.xend,
            _ => x * (1.0 + d.sized(-52, -40)),
        }
    }

    fn modify(&mut self, y: &mut [f64]) {
        let d = &mut self.draw;
        match d.below(8) {
            0 | 1 => {}
            2 | 3 => {
                let factor = d.between(0.5, 1.5);
                y.iter_mut().for_each(|amount| *amount *= factor);
            }
            4 | 5 => y.iter_mut().for_each(|amount| *amount += d.between(-1e-3, 1e-3)),
            6 => y[d.below(y.len())] = d.any(),
            _ => y.iter_mut().for_each(|amount| *amount = d.any_finite()),
        }
    }
}

// Blocks of two on the diagonal: a and -b over b and a.
fn rotation(n: usize, a: f64, b: f64, out: &mut [f64]) {
    out.fill(0.0);
    for i in 0..n {
        out[i * n + i] = a;
        let other = i ^ 1;
        if other < n {
            out[i * n + other] = if i < other { -b } else { b };
        }
    }
}
