// What a run is opened with, and which number of document 01 refuses it: its table read row by
// row, apart from our code.
use super::memory::Memory;

#[derive(Clone)]
pub struct Settings {
    pub max_steps: usize,
    pub uround: f64,
    pub safety_factor: f64,
    pub scale_min: f64,
    pub scale_max: f64,
    pub max_step: Option<f64>,
    pub min_step: Option<f64>,
    pub newton_maxiter: usize,
    pub newton_tol: Option<f64>,
    pub predictive: bool,
    pub nind1: Option<usize>,
    pub nind2: Option<usize>,
    pub nind3: Option<usize>,
    pub host_jacobian: bool,
    pub first_step: Option<f64>,
    pub dense_output: bool,
    pub book: bool,
}

impl Default for Settings {
    // The Rust's.
    fn default() -> Settings {
        Settings {
            max_steps: 100_000,
            uround: 2.3e-16,
            safety_factor: 0.9,
            scale_min: 0.2,
            scale_max: 8.0,
            max_step: None,
            min_step: None,
            newton_maxiter: 7,
            newton_tol: None,
            predictive: true,
            nind1: None,
            nind2: None,
            nind3: None,
            host_jacobian: false,
            first_step: None,
            dense_output: true,
            book: false,
        }
    }
}

#[derive(Clone)]
pub enum Tolerances {
    Scalars(f64, f64),
    Lists(Vec<f64>, Vec<f64>),
}

#[derive(Clone)]
pub struct Opening {
    pub n: usize,
    pub x0: f64,
    pub xend: f64,
    pub settings: Settings,
    pub tolerances: Tolerances,
    pub y: Vec<f64>,
    // None is Identity.
    pub mass: Option<Vec<f64>>,
    // What a number that isn't looked at holds, and what a choice that is not 0 is.
    pub rubbish: u64,
}

// What stands in `numbers` where a choice is made or a setting is given.
fn choice(made: bool, yes: u64) -> u64 {
    if made {
        yes.max(1)
    } else {
        0
    }
}

impl Opening {
    pub fn lists(&self) -> bool {
        matches!(self.tolerances, Tolerances::Lists(..))
    }

    pub fn higher_index(&self) -> bool {
        self.settings.nind2.unwrap_or(0) + self.settings.nind3.unwrap_or(0) > 0
    }

    // The two arrays of settings that an opening takes (include/elchepur.h). Absent ones are rubbish:
    // nothing may look at them.
    pub fn numbers(&self) -> [u64; 17] {
        let (s, yes) = (&self.settings, self.rubbish);
        let whole = |given: Option<usize>| given.map_or(self.rubbish, |count| count as u64);
        [
            s.max_steps as u64,
            s.newton_maxiter as u64,
            choice(s.predictive, yes),
            choice(s.dense_output, yes),
            choice(self.mass.is_some(), yes),
            choice(!s.host_jacobian, yes),
            choice(s.book, yes),
            choice(s.max_step.is_some(), yes),
            choice(s.min_step.is_some(), yes),
            choice(s.newton_tol.is_some(), yes),
            choice(s.first_step.is_some(), yes),
            choice(s.nind1.is_some(), yes),
            whole(s.nind1),
            choice(s.nind2.is_some(), yes),
            whole(s.nind2),
            choice(s.nind3.is_some(), yes),
            whole(s.nind3),
        ]
    }

    pub fn floats(&self) -> [f64; 8] {
        let s = &self.settings;
        let number = |given: Option<f64>| given.unwrap_or(f64::from_bits(self.rubbish));
        [
            s.uround,
            s.safety_factor,
            s.scale_min,
            s.scale_max,
            number(s.max_step),
            number(s.min_step),
            number(s.newton_tol),
            number(s.first_step),
        ]
    }

    // `lists` and the two scalars of an opening.
    pub fn tolerance_words(&self) -> (u64, f64, f64) {
        let rubbish = f64::from_bits(self.rubbish);
        match self.tolerances {
            Tolerances::Scalars(rtol, atol) => (0, rtol, atol),
            Tolerances::Lists(..) => (choice(true, self.rubbish), rubbish, rubbish),
        }
    }

    // What is given lies in memory; the rest of it stays.
    pub fn lay_out(&self, memory: &mut Memory) {
        memory.y.clone_from(&self.y);
        if let Some(mass) = &self.mass {
            memory.mass.clone_from(mass);
        }
        if let Tolerances::Lists(rtol, atol) = &self.tolerances {
            memory.rtol.clone_from(rtol);
            memory.atol.clone_from(atol);
        }
    }

    fn tolerance_lists(&self) -> (Vec<f64>, Vec<f64>) {
        match &self.tolerances {
            Tolerances::Scalars(rtol, atol) => (vec![*rtol], vec![*atol]),
            Tolerances::Lists(rtol, atol) => (rtol.clone(), atol.clone()),
        }
    }

    // Row 3: every float that is given.
    fn all_finite(&self) -> bool {
        let s = &self.settings;
        let (rtol, atol) = self.tolerance_lists();
        let settings = [Some(s.uround), Some(s.safety_factor), Some(s.scale_min), Some(s.scale_max)];
        let maybe = [s.max_step, s.min_step, s.newton_tol, s.first_step];
        let given = [self.x0, self.xend].into_iter().chain(self.y.iter().copied());
        let given = given.chain(self.mass.iter().flatten().copied()).chain(rtol).chain(atol);
        given.chain(settings.into_iter().chain(maybe).flatten()).all(f64::is_finite)
    }

    // Row 10, sums exact.
    fn partition_wrong(&self) -> bool {
        let s = &self.settings;
        let count = |given: Option<usize>| given.unwrap_or(0) as u128;
        let sum = count(s.nind1) + count(s.nind2) + count(s.nind3);
        if s.nind1.is_some() {
            sum != self.n as u128
        } else {
            sum > self.n as u128
        }
    }

    // The number of the first row that holds, or 0. `fits`: every part has its length.
    pub fn refusal(&self, fits: bool) -> u64 {
        let s = &self.settings;
        let (rtol, atol) = self.tolerance_lists();
        let ceiling = s.max_step.unwrap_or((self.xend - self.x0).abs());
        let rows = [
            !(1..=32).contains(&self.n),
            !fits,
            !self.all_finite(),
            !(1..=1_000_000).contains(&s.max_steps),
            s.uround <= 1e-35 || s.uround >= 1.0,
            s.safety_factor <= 1e-4 || s.safety_factor >= 1.0,
            s.scale_min <= 0.0 || !(s.scale_min < s.scale_max),
            !(1..=16).contains(&s.newton_maxiter),
            rtol.iter().any(|&v| v <= 0.0) || atol.iter().any(|&v| v < 0.0),
            self.partition_wrong(),
            s.first_step == Some(0.0),
            s.max_step.is_some_and(|v| v < 0.0) || s.min_step.is_some_and(|v| v > ceiling),
        ];
        rows.iter().position(|&holds| holds).map_or(0, |row| row as u64 + 1)
    }

    // Whether the Rust has the row by which this is refused: the others are document 01's own (its +), and sums that
    // wrap there are exact here.
    pub fn rust_refuses(&self, number: u64) -> bool {
        let s = &self.settings;
        let sums_wrap = [s.nind1, s.nind2, s.nind3].iter().flatten().any(|&count| count > 1 << 60);
        match number {
            4 => s.max_steps == 0,
            8 => s.newton_maxiter == 0,
            10 => !sums_wrap,
            5 | 6 | 7 | 11 => true,
            _ => false,
        }
    }
}
