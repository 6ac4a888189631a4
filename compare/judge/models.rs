// The two problems of the test set of stiff problems that the bench has not: derivatives and Jacobians as
// bench/whole/models.rs has them.
use super::models::Model;

// Van der Pol's oscillator with its small parameter at 1e-6.
pub struct VanDerPol;

const SMALL: f64 = 1e-6;

impl Model for VanDerPol {
    const NAME: &'static str = "van_der_Pol";
    const N: usize = 2;
    const XEND: f64 = 2.0;
    const OPERATIONS: u64 = 5;

    fn start() -> Vec<f64> {
        vec![2.0, 0.0]
    }

    fn derivative(y: &[f64], out: &mut [f64]) {
        out[0] = y[1];
        out[1] = ((1.0 - y[0] * y[0]) * y[1] - y[0]) / SMALL;
    }

    fn jacobian(y: &[f64], j: &mut [f64], at: impl Fn(usize, usize) -> usize) {
        j[at(0, 0)] = 0.0;
        j[at(0, 1)] = 1.0;
        j[at(1, 0)] = (-2.0 * y[0] * y[1] - 1.0) / SMALL;
        j[at(1, 1)] = (1.0 - y[0] * y[0]) / SMALL;
    }
}

// The Oregonator of Field and Noyes.
pub struct Oregonator;

impl Model for Oregonator {
    const NAME: &'static str = "Oregonator";
    const N: usize = 3;
    const XEND: f64 = 360.0;
    const OPERATIONS: u64 = 12;

    fn start() -> Vec<f64> {
        vec![1.0, 2.0, 3.0]
    }

    fn derivative(y: &[f64], out: &mut [f64]) {
        out[0] = 77.27 * (y[1] + y[0] * (1.0 - 8.375e-6 * y[0] - y[1]));
        out[1] = (y[2] - (1.0 + y[0]) * y[1]) / 77.27;
        out[2] = 0.161 * (y[0] - y[2]);
    }

    fn jacobian(y: &[f64], j: &mut [f64], at: impl Fn(usize, usize) -> usize) {
        j[at(0, 0)] = 77.27 * (1.0 - 2.0 * 8.375e-6 * y[0] - y[1]);
        j[at(0, 1)] = 77.27 * (1.0 - y[0]);
        j[at(0, 2)] = 0.0;
        j[at(1, 0)] = -y[1] / 77.27;
        j[at(1, 1)] = -(1.0 + y[0]) / 77.27;
        j[at(1, 2)] = 1.0 / 77.27;
        j[at(2, 0)] = 0.161;
        j[at(2, 1)] = 0.0;
        j[at(2, 2)] = -0.161;
    }
}
