//! The picture of a run: its amounts at even points, by the proved solver and its dense output. The run is that of the
//! row, or there is no picture: its last amounts have to have the row's bits.

use crate::cylinder::Asked;
use elchepur::prelude::*;

const POINTS: usize = 48;
// Two letters hold a height.
const LETTERS: &[u8; 64] = b"ABCDEFGHIJKLMNOPQRSTUVWXYZabcdefghijklmnopqrstuvwxyz0123456789-_";
const HEIGHTS: f64 = 4095.0;
const GAP: &str = "..";

/// The ends of the run, and of each species its least and largest amount and its heights between them.
pub struct Picture {
    pub ends: [f64; 2],
    pub curves: Vec<(f64, f64, String)>,
}

struct Model(Sheet);

impl FirstOrderSystem for Model {
    fn derivative(&self, _day: f64, y: &[f64], dydx: &mut [f64]) {
        dydx.fill(0.0);
        for Reaction { rate, reactants, products } in &self.0.reactions {
            let speed = places(reactants).fold(f64::from_bits(*rate), |speed, place| speed * y[place]);
            places(reactants).for_each(|place| dydx[place] -= speed);
            places(products).for_each(|place| dydx[place] += speed);
        }
    }
}

fn places(species: &[usize; 2]) -> impl Iterator<Item = usize> + '_ {
    species.iter().filter(|species| **species > 0).map(|species| species - 1)
}

/// The picture of a sheet's run whose last amounts have these bits.
pub fn of(asked: &Asked, last: &[u64]) -> Option<Picture> {
    let model = Model(Sheet::read(&asked.bytes).ok()?);
    let Sheet { x0, xend, rtol, atol, max_steps, rule, ref amounts, .. } = model.0;
    let [x0, xend, rtol, atol] = [x0, xend, rtol, atol].map(f64::from_bits);
    let start: Vec<f64> = amounts.iter().copied().map(f64::from_bits).collect();
    let rule = if rule == 0 { Rule::Rust } else { Rule::Book };
    let settings = RADAU::builder().mass_storage(MatrixStorage::Identity);
    let solver = settings.max_steps(usize::try_from(max_steps).ok()?).rule(rule).build();
    let even = |k: usize| x0 + (xend - x0) * (k as f64 / POINTS as f64);
    let mut points = AtPoints::new((0..POINTS).map(even).collect::<Vec<f64>>());
    let run = solver.solve(&model, x0, &start, xend, rtol.into(), atol.into(), Some(&mut points)).ok()?;
    if !run.y.iter().map(|amount| amount.to_bits()).eq(last.iter().copied()) {
        return None;
    }
    let mut read = points.amounts(&run).to_vec();
    read.push(Some(run.y.clone()));
    if !read.iter().flatten().flatten().all(|amount| amount.is_finite()) {
        return None;
    }
    Some(Picture { ends: [x0, run.x], curves: (0..run.y.len()).map(|place| curve(&read, place)).collect() })
}

fn curve(read: &[Option<Vec<f64>>], place: usize) -> (f64, f64, String) {
    let amounts = || read.iter().flatten().map(|amounts| amounts[place]);
    let (least, most) = (amounts().fold(f64::INFINITY, f64::min), amounts().fold(f64::NEG_INFINITY, f64::max));
    let height = |amount: f64| if most > least { (amount - least) / (most - least) * HEIGHTS } else { 0.0 };
    let letters = |amounts: &Option<Vec<f64>>| match amounts {
        Some(amounts) => two(height(amounts[place]).round() as usize),
        None => GAP.to_string(),
    };
    (least, most, read.iter().map(letters).collect())
}

fn two(height: usize) -> String {
    [LETTERS[height / 64 % 64], LETTERS[height % 64]].iter().map(|letter| *letter as char).collect()
}

#[cfg(test)]
mod tests {
    use super::*;

    #[test]
    fn heights_go_from_the_least_to_the_largest() {
        let read = [Some(vec![0.0, 1.0]), None, Some(vec![4.0, 1.0]), Some(vec![2.0, 1.0])];
        assert_eq!(curve(&read, 0), (0.0, 4.0, "AA..__gA".to_string()));
        assert_eq!(curve(&read, 1), (1.0, 1.0, "AA..AAAA".to_string()));
    }
}
