// The systems that a host answers for: derivatives by + - * / and comparisons alone, so that every machine has the same
// bits. Each stands for any n.
use super::draw::Draw;

// A reaction of document 01: a rate, two reactants, two products; species from 1, 0 is none.
#[derive(Clone)]
pub struct Reaction {
    rate: f64,
    reactants: [usize; 2],
    products: [usize; 2],
}

#[derive(Clone)]
pub enum Model {
    Zero,
    // The part to fill is left as it is.
    Silent,
    Constant(Vec<f64>),
    // A matrix times the amounts.
    Linear(Vec<f64>),
    // Each amount is drawn to x + 1 at a rate of its own.
    Forced(f64),
    Square(f64),
    Cubic(f64),
    // A jump at a level.
    Steep(f64, f64),
    Chain(f64),
    // In pairs.
    VanDerPol(f64),
    // In triples; the third is a sum that has to be 1 where the model is algebraic.
    Robertson { algebraic: bool },
    Reactions(Vec<Reaction>),
    // Half of the amounts follow x * x by means of the other, algebraic half.
    Index2,
    // A third of the amounts follow x * x * x by means of the third third.
    Index3,
    // Five amounts: a point on a circle, its speed, and the force that holds it there; held by the speed (index 2)
    // or by the place (index 3).
    Pendulum { index: usize },
    // Any pattern, or any number up to a size.
    Noise,
    MildNoise(f64),
}

fn reactions(n: usize, d: &mut Draw) -> Vec<Reaction> {
    let count = d.from_to(1, 2 * n.min(8));
    let species = |d: &mut Draw| [d.below(n + 1), d.below(n + 1)];
    let one = |d: &mut Draw| Reaction { rate: d.sized(-8, 14), reactants: species(d), products: species(d) };
    (0..count).map(|_| one(d)).collect()
}

// A matrix of decays at rates far apart, with some exchange between the amounts.
fn stiff(n: usize, d: &mut Draw) -> Vec<f64> {
    let exchange = d.one_of(&[0.0, 0.1, 1.0, 30.0]);
    let mut entries = d.list(n * n, |d| d.between(-1.0, 1.0) * exchange);
    for i in 0..n {
        entries[i * n + i] -= d.sized(-4, 18);
    }
    entries
}

impl Model {
    pub fn draw(n: usize, d: &mut Draw) -> Model {
        match d.below(20) {
            0 => Model::Zero,
            1 => Model::Silent,
            2 => Model::Constant(d.list(n, Draw::any)),
            3 | 4 => Model::Linear(stiff(n, d)),
            5 => Model::Linear(d.list(n * n, |d| d.between(-3.0, 3.0))),
            6 => Model::Forced(d.sized(-2, 14)),
            7 => Model::Square(d.between(-3.0, 3.0)),
            8 => Model::Cubic(d.sized(-2, 8)),
            9 => Model::Steep(d.sized(-2, 20), d.between(-1.0, 1.0)),
            10 => Model::Chain(d.sized(-2, 10)),
            11 => Model::VanDerPol(d.sized(0, 20)),
            12 => Model::Robertson { algebraic: d.percent(40) },
            13 | 14 => Model::Reactions(reactions(n, d)),
            15 => Model::Index2,
            16 => Model::Index3,
            17 if n == 5 => Model::Pendulum { index: d.from_to(2, 3) },
            17 => Model::Forced(d.sized(-2, 4)),
            18 => Model::Noise,
            _ => Model::MildNoise(d.sized(-20, 10)),
        }
    }

    pub fn derivative(&self, x: f64, y: &[f64], out: &mut [f64], draw: &mut Draw) {
        match self {
            Model::Zero => out.fill(0.0),
            Model::Silent => {}
            Model::Constant(values) => out.copy_from_slice(values),
            Model::Linear(matrix) => each(out, |i| product(&matrix[i * y.len()..], y)),
            Model::Forced(rate) => each(out, |i| -rate * (i + 1) as f64 * (y[i] - x - 1.0) + 1.0),
            Model::Square(rate) => each(out, |i| rate * y[i] * y[i]),
            Model::Cubic(rate) => each(out, |i| -rate * (y[i] * y[i] * y[i] - x)),
            Model::Steep(rate, level) => each(out, |i| if y[i] > *level { -rate } else { *rate }),
            Model::Chain(rate) => each(out, |i| rate * bend(y, i)),
            Model::VanDerPol(rate) => in_blocks(2, y, out, |y, out| van_der_pol(*rate, y, out)),
            Model::Robertson { algebraic } => in_blocks(3, y, out, |y, out| robertson(*algebraic, y, out)),
            Model::Reactions(list) => react(list, y, out),
            Model::Index2 => chained(2, x, y, out),
            Model::Index3 => chained(3, x, y, out),
            Model::Pendulum { index } => pendulum(*index, y, out),
            Model::Noise => each(out, |_| draw.pattern()),
            Model::MildNoise(size) => each(out, |_| draw.between(-1.0, 1.0) * size),
        }
    }

    // The mass matrix that the model's equations have, if it is not the identity.
    pub fn mass(&self, n: usize) -> Option<Vec<f64>> {
        let algebraic: Vec<usize> = match self {
            Model::Robertson { algebraic: true } => (2..n).step_by(3).collect(),
            Model::Index2 => (n - n / 2..n).collect(),
            Model::Index3 => (n - n / 3..n).collect(),
            Model::Pendulum { .. } => vec![4],
            _ => return None,
        };
        let mut mass = vec![0.0; n * n];
        for i in (0..n).filter(|i| !algebraic.contains(i)) {
            mass[i * n + i] = 1.0;
        }
        Some(mass)
    }

    // How many amounts have index 2 and 3, for a model whose equations have such.
    pub fn partition(&self, n: usize) -> Option<(usize, usize)> {
        match self {
            Model::Index2 => Some((n / 2, 0)),
            Model::Index3 => Some((n / 3, n / 3)),
            Model::Pendulum { index: 2 } => Some((1, 0)),
            Model::Pendulum { .. } => Some((2, 1)),
            _ => None,
        }
    }

    // Amounts from which the model goes on smoothly.
    pub fn amounts(&self, n: usize, d: &mut Draw) -> Vec<f64> {
        match self {
            Model::Robertson { .. } => (0..n).map(|i| if i % 3 == 0 { 1.0 } else { 0.0 }).collect(),
            Model::VanDerPol(_) => (0..n).map(|i| if i % 2 == 0 { 2.0 } else { -0.66 }).collect(),
            Model::Index2 | Model::Index3 => vec![0.0; n],
            Model::Pendulum { .. } => vec![1.0, 0.0, 0.0, 0.0, 0.0],
            Model::Reactions(_) => d.list(n, Draw::unit),
            _ => d.list(n, |d| d.between(-2.0, 2.0)),
        }
    }
}

fn each(out: &mut [f64], mut entry: impl FnMut(usize) -> f64) {
    for (i, value) in out.iter_mut().enumerate() {
        *value = entry(i);
    }
}

fn product(row: &[f64], y: &[f64]) -> f64 {
    row.iter().zip(y).fold(0.0, |sum, (entry, amount)| sum + entry * amount)
}

// What amount i lacks of its neighbours' mean, twice; beyond the ends there is nothing.
fn bend(y: &[f64], i: usize) -> f64 {
    let left = if i == 0 { 0.0 } else { y[i - 1] };
    let right = y.get(i + 1).copied().unwrap_or(0.0);
    left - 2.0 * y[i] + right
}

// The amounts in blocks, each with the same equations; what is left over decays.
fn in_blocks(size: usize, y: &[f64], out: &mut [f64], block: impl Fn(&[f64], &mut [f64])) {
    for (y, out) in y.chunks(size).zip(out.chunks_mut(size)) {
        if y.len() == size {
            block(y, out);
        } else {
            each(out, |i| -y[i]);
        }
    }
}

fn van_der_pol(rate: f64, y: &[f64], out: &mut [f64]) {
    out[0] = y[1];
    out[1] = ((1.0 - y[0] * y[0]) * y[1] - y[0]) * rate;
}

fn robertson(algebraic: bool, y: &[f64], out: &mut [f64]) {
    out[0] = -0.04 * y[0] + 1e4 * y[1] * y[2];
    out[1] = 0.04 * y[0] - 1e4 * y[1] * y[2] - 3e7 * y[1] * y[1];
    out[2] = if algebraic { y[0] + y[1] + y[2] - 1.0 } else { 3e7 * y[1] * y[1] };
}

fn react(list: &[Reaction], y: &[f64], out: &mut [f64]) {
    out.fill(0.0);
    for reaction in list {
        let present = |side: [usize; 2]| side.into_iter().filter(|&species| species > 0).map(|species| species - 1);
        let v = present(reaction.reactants).fold(reaction.rate, |v, i| v * y[i]);
        present(reaction.reactants).for_each(|i| out[i] -= v);
        present(reaction.products).for_each(|i| out[i] += v);
    }
}

// The amounts in `index` blocks: each is the derivative of the block before it, and the first follows a power of x.
// What is left over stands in front and decays.
fn chained(index: usize, x: f64, y: &[f64], out: &mut [f64]) {
    let (n, size) = (y.len(), y.len() / index);
    let front = n - index * size;
    each(&mut out[..front], |i| -y[i]);
    for i in front..n - size {
        out[i] = y[i + size];
    }
    for i in 0..size {
        out[n - size + i] = y[front + i] - (0..index).fold((i + 1) as f64, |p, _| p * x);
    }
}

fn pendulum(index: usize, y: &[f64], out: &mut [f64]) {
    out[0] = y[2];
    out[1] = y[3];
    out[2] = -y[0] * y[4];
    out[3] = -y[1] * y[4] - 9.81;
    out[4] = if index == 2 { y[0] * y[2] + y[1] * y[3] } else { y[0] * y[0] + y[1] * y[1] - 1.0 };
}
