// The 22 parts of memory that a run works on, under the Rust's names: those of our run, and a copy of the Rust's as
// they stand at its call of the host.
use super::draw::Draw;

#[derive(Clone, Default)]
pub struct Memory {
    pub y: Vec<f64>,
    pub f0: Vec<f64>,
    pub scal: Vec<f64>,
    pub cont: Vec<f64>,
    pub z1: Vec<f64>,
    pub z2: Vec<f64>,
    pub z3: Vec<f64>,
    pub f1: Vec<f64>,
    pub f2: Vec<f64>,
    pub f3: Vec<f64>,
    pub rtol: Vec<f64>,
    pub atol: Vec<f64>,
    pub mass: Vec<f64>,
    pub jac: Vec<f64>,
    pub e1: Vec<f64>,
    pub e2r: Vec<f64>,
    pub e2i: Vec<f64>,
    pub ip1: Vec<usize>,
    pub ip2: Vec<usize>,
    pub y_perturbed: Vec<f64>,
    pub f_perturbed: Vec<f64>,
    pub f_origin: Vec<f64>,
}

pub const DOUBLES: [&str; 20] = [
    "y", "f0", "scal", "cont", "z1", "z2", "z3", "f1", "f2", "f3", "rtol", "atol", "mass", "jac", "e1", "e2r", "e2i",
    "y_perturbed", "f_perturbed", "f_origin",
];
pub const PIVOTS: [&str; 2] = ["ip1", "ip2"];
pub const PARTS: usize = DOUBLES.len() + PIVOTS.len();

// The bits of a double, one pattern standing for every NaN.
pub fn bits(x: f64) -> u64 {
    if x.is_nan() {
        0x7ff8_0000_0000_0000
    } else {
        x.to_bits()
    }
}

// The first place at which two lists of doubles differ, one NaN standing for another.
pub fn first_difference(ours: &[f64], theirs: &[f64]) -> Option<usize> {
    if ours.len() != theirs.len() {
        return Some(ours.len().min(theirs.len()));
    }
    (0..ours.len()).find(|&i| bits(ours[i]) != bits(theirs[i]))
}

fn shown(list: &[f64], at: usize) -> String {
    list.get(at).map_or("nothing".to_string(), |x| format!("{:016x}", x.to_bits()))
}

// Where two lists differ, in words.
pub fn difference(name: &str, ours: &[f64], theirs: &[f64]) -> Option<String> {
    let at = first_difference(ours, theirs)?;
    Some(format!("{name}[{at}]: ours {}, the Rust's {}", shown(ours, at), shown(theirs, at)))
}

impl Memory {
    // Every part of its length, filled by `entry` and `pivot`.
    fn filled(n: usize, mut entry: impl FnMut() -> f64, mut pivot: impl FnMut() -> usize) -> Memory {
        let mut made = Memory::default();
        for (name, part) in DOUBLES.iter().zip(made.doubles_mut()) {
            let count = match *name {
                "cont" => 4 * n,
                "mass" | "jac" | "e1" | "e2r" | "e2i" => n * n,
                _ => n,
            };
            part.extend((0..count).map(|_| entry()));
        }
        for part in made.pivots_mut() {
            part.extend((0..n).map(|_| pivot()));
        }
        made
    }

    pub fn zeros(n: usize) -> Memory {
        Memory::filled(n, || 0.0, || 0)
    }

    // What memory may hold before an opening: anything.
    pub fn rubbish(n: usize, draw: &mut Draw) -> Memory {
        let mut other = draw.clone();
        Memory::filled(n, || draw.any(), || other.word() as usize)
    }

    // A part, by its number, gets more or fewer entries.
    pub fn misfit(&mut self, part: usize, by: isize) {
        if part < DOUBLES.len() {
            let part = &mut self.doubles_mut()[part];
            part.resize(part.len().saturating_add_signed(by), 1.0);
        } else {
            let part = &mut self.pivots_mut()[part - DOUBLES.len()];
            part.resize(part.len().saturating_add_signed(by), 0);
        }
    }

    pub fn doubles(&self) -> [&Vec<f64>; 20] {
        [
            &self.y, &self.f0, &self.scal, &self.cont, &self.z1, &self.z2, &self.z3, &self.f1, &self.f2, &self.f3,
            &self.rtol, &self.atol, &self.mass, &self.jac, &self.e1, &self.e2r, &self.e2i,
            &self.y_perturbed, &self.f_perturbed, &self.f_origin,
        ]
    }

    pub fn doubles_mut(&mut self) -> [&mut Vec<f64>; 20] {
        [
            &mut self.y, &mut self.f0, &mut self.scal, &mut self.cont, &mut self.z1, &mut self.z2, &mut self.z3,
            &mut self.f1, &mut self.f2, &mut self.f3, &mut self.rtol, &mut self.atol, &mut self.mass, &mut self.jac,
            &mut self.e1, &mut self.e2r, &mut self.e2i, &mut self.y_perturbed, &mut self.f_perturbed,
                &mut self.f_origin,
        ]
    }

    pub fn pivots(&self) -> [&Vec<usize>; 2] {
        [&self.ip1, &self.ip2]
    }

    pub fn pivots_mut(&mut self) -> [&mut Vec<usize>; 2] {
        [&mut self.ip1, &mut self.ip2]
    }

    // Where our memory differs from the Rust's, in words.
    pub fn difference(&self, theirs: &Memory) -> Option<String> {
        for ((name, ours), theirs) in DOUBLES.iter().zip(self.doubles()).zip(theirs.doubles()) {
            if let Some(words) = difference(name, ours, theirs) {
                return Some(format!("part {words}"));
            }
        }
        for ((name, ours), theirs) in PIVOTS.iter().zip(self.pivots()).zip(theirs.pivots()) {
            if ours != theirs {
                return Some(format!("part {name}: ours {ours:?}, the Rust's {theirs:?}"));
            }
        }
        None
    }

    // Whether not a bit differs, a NaN's bits too: nothing was written.
    pub fn untouched(&self, before: &Memory) -> bool {
        let same = |a: &Vec<f64>, b: &Vec<f64>| a.len() == b.len() && a.iter().zip(b)
            .all(|(x, y)| x.to_bits() == y.to_bits());
        let doubles = self.doubles().iter().zip(before.doubles()).all(|(a, b)| same(a, b));
        doubles && self.pivots() == before.pivots()
    }
}
