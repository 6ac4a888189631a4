// What is made of a run's reports: the amounts reached and, with dense output, a sum over 100
// points between 0 and the end.
use super::outcome::Way;

pub const POINTS: usize = 100;

pub struct Points {
    dense: bool,
    width: f64,
    next: usize,
    amounts: Vec<f64>,
    pub y: Vec<f64>,
    pub sum: f64,
}

impl Points {
    pub fn new(n: usize, way: Way) -> Points {
        Points { dense: way.dense, width: way.xend / POINTS as f64, next: 0, amounts: vec![0.0; n], y: vec![0.0; n],
            sum: 0.0 }
    }

    // A point was reached; `interpolate` has the amounts within the step that led there.
    pub fn reached(&mut self, x: f64, mut interpolate: impl FnMut(f64, &mut [f64])) {
        while self.dense && self.next < POINTS {
            let point = self.width * (self.next + 1) as f64;
            if point > x {
                break;
            }
            interpolate(point, &mut self.amounts);
            self.sum += self.amounts.iter().fold(0.0, |sum, amount| 0.5 * sum + amount);
            self.next += 1;
        }
    }
}
