// How much nitric oxide a cylinder holds on the day of its label. README.md shows how this program was moved from ivp.

use elchepur::{dense::StepInterpolant, ivp::FirstOrderSystem, matrix::MatrixStorage, methods::RADAU, solout::*};

struct Cylinder;

impl FirstOrderSystem for Cylinder {
    fn derivative(&self, _day: f64, y: &[f64], dydx: &mut [f64]) {
        let (to_wall, back, lost) = (120.0 * y[0] * y[1], 300.0 * y[2], 0.002 * y[2]);
        dydx[0] = back - to_wall;
        dydx[1] = back - to_wall + lost;
        dydx[2] = to_wall - back - lost;
        dydx[3] = lost;
    }
}

struct Label {
    day: f64,
    left: f64,
}

impl SolOut for Label {
    fn solout(&mut self, xold: f64, x: &mut f64, y: &mut [f64], step: Option<&StepInterpolant<'_>>) -> ControlFlag {
        if let Some(step) = step.filter(|_| xold < self.day && self.day <= *x) {
            let mut there = y.to_vec();
            step.interpolate(self.day, &mut there);
            self.left = there[0];
        }
        ControlFlag::Continue
    }
}

fn main() {
    let mut label = Label { day: 604.0, left: f64::NAN };
    let solver = RADAU { mass_storage: MatrixStorage::Identity, max_steps: 500, ..RADAU::default() };
    let start = [10.0, 0.25, 0.0, 0.0];
    let answer = solver.solve(&Cylinder, 0.0, &start, 730.0, 1e-6.into(), 1e-10.into(), Some(&mut label));
    match answer {
        Ok(run) => println!("{:.3} left, {} steps", label.left, run.steps.accepted),
        Err(error) => println!("no forecast: {error}"),
    }
}
