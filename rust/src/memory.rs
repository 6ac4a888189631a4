//! The 22 parts of memory that a run is lent, under ivp's names, and where a derivative is asked of which.

use crate::numbers::*;

#[derive(Clone)]
pub(crate) struct Memory {
    pub y: Vec<f64>,
    pub f0: Vec<f64>,
    pub scal: Vec<f64>,
    pub cont: Vec<f64>,
    pub z1: Vec<f64>,
    pub z2: Vec<f64>,
    pub z3: Vec<f64>,
    pub f1: Vec<f64>,
    pub f2: Vec<f64>,
    pub f3: Vec<f64>,
    pub rtol: Vec<f64>,
    pub atol: Vec<f64>,
    pub mass: Vec<f64>,
    pub jac: Vec<f64>,
    pub e1: Vec<f64>,
    pub e2r: Vec<f64>,
    pub e2i: Vec<f64>,
    pub ip1: Vec<usize>,
    pub ip2: Vec<usize>,
    pub y_perturbed: Vec<f64>,
    pub f_perturbed: Vec<f64>,
    pub f_origin: Vec<f64>,
}

impl Memory {
    /// Memory for these amounts, zeros but for them. More amounts than a run may have are refused before any length is
    /// looked at, so no memory is made for them.
    pub fn of(y: &[f64]) -> Memory {
        let n = y.len().min(MOST);
        let (vector, matrix) = (vec![0.0; n], vec![0.0; n * n]);
        Memory {
            y: y.to_vec(),
            f0: vector.clone(),
            scal: vector.clone(),
            cont: vec![0.0; 4 * n],
            z1: vector.clone(),
            z2: vector.clone(),
            z3: vector.clone(),
            f1: vector.clone(),
            f2: vector.clone(),
            f3: vector.clone(),
            rtol: vector.clone(),
            atol: vector.clone(),
            mass: matrix.clone(),
            jac: matrix.clone(),
            e1: matrix.clone(),
            e2r: matrix.clone(),
            e2i: matrix,
            ip1: vec![0; n],
            ip2: vec![0; n],
            y_perturbed: vector.clone(),
            f_perturbed: vector.clone(),
            f_origin: vector,
        }
    }

    /// The amounts of which a derivative is asked, and the part that it fills.
    pub fn asked(&mut self, place: u64) -> (&[f64], &mut [f64]) {
        let stage = &self.cont[..self.y.len()];
        match place {
            PLACE_Y_TO_F0 => (&self.y, &mut self.f0),
            PLACE_CONT_TO_Z1 => (stage, &mut self.z1),
            PLACE_CONT_TO_Z2 => (stage, &mut self.z2),
            PLACE_CONT_TO_Z3 => (stage, &mut self.z3),
            PLACE_CONT_TO_F1 => (stage, &mut self.f1),
            PLACE_Y_TO_F_ORIGIN => (&self.y, &mut self.f_origin),
            PLACE_Y_PERTURBED_TO_F_PERTURBED => (&self.y_perturbed, &mut self.f_perturbed),
            _ => unreachable!("no derivative is asked for at place {place}"),
        }
    }
}
