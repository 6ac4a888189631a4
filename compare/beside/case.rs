// A case: an opening and a host, drawn from a case's own stream. Each setting is now usual, now anywhere in its
// permitted range, now at an end of it.
use super::draw::Draw;
use super::host::{Host, Jacobian, Reports, Spoil};
use super::limits;
use super::models::Model;
use super::opening::{Opening, Settings, Tolerances};
use super::spoilt;

// How often a case is run: once; broken off at each of its reports in turn; or with one number moved to the place where
// the run goes another way.
pub enum Runs {
    One,
    InterruptEach,
    SeekEdge,
}

pub struct Case {
    pub opening: Opening,
    pub host: Host,
    pub runs: Runs,
    // A part that is lent too short or too long: its number, and by how many entries.
    pub misfit: Option<(usize, isize)>,
}

fn order(d: &mut Draw) -> usize {
    match d.below(100) {
        0..=23 => 1,
        24..=49 => 2,
        50..=69 => 3,
        70..=79 => 4,
        80..=93 => d.from_to(5, 8),
        94..=97 => d.from_to(9, 16),
        98 => d.from_to(17, 31),
        _ => d.one_of(&[16, 32]),
    }
}

fn max_steps(d: &mut Draw) -> usize {
    match d.below(10) {
        0 => d.from_to(1, 3),
        1..=5 => d.from_to(4, 30),
        6 => d.from_to(31, 1000),
        7 => 1_000_000,
        _ => 100_000,
    }
}

// From just above `low` to just below `high`, both above 0.
fn inside(low: f64, high: f64, d: &mut Draw) -> f64 {
    match d.below(6) {
        0 => f64::from_bits(low.to_bits() + 1),
        1 => f64::from_bits(high.to_bits() - 1),
        2 => f64::from_bits(low.to_bits() + 1 + d.below((high.to_bits() - low.to_bits() - 1) as usize) as u64),
        _ => (high * d.unit()).max(f64::from_bits(low.to_bits() + 1)),
    }
}

fn scales(d: &mut Draw) -> (f64, f64) {
    match d.below(8) {
        0 => (5e-324, f64::MAX),
        1 => (1.0, 1.000_000_000_000_000_2),
        2 => (0.1, 0.9),
        3 => (2.0, 4.0),
        4 => (1e-300, d.sized(-900, 1000)),
        5 => (0.5, 1.5),
        _ => {
            let low = d.sized(-10, 2);
            (low, low * (1.0 + d.sized(-20, 8)))
        }
    }
}

fn ends(d: &mut Draw) -> (f64, f64) {
    let (x0, length, little) = (d.between(-2.0, 2.0), d.sized(-6, 6), d.sized(-40, -20));
    match d.below(16) {
        0..=7 => (0.0, d.one_of(&[0.1, 1.0, 1.0, 10.0, 40.0])),
        8 => (x0, x0 + length),
        9 | 10 => (x0, x0 - length),
        11 => (d.one_of(&[0.0, -0.0]), d.one_of(&[0.0, -0.0])),
        12 => (x0, d.one_of(&[x0, f64::from_bits(x0.to_bits() + 1), x0 + little])),
        13 => d.one_of(&[(-1e308, 1e308), (1.7e308, -1.7e308), (0.0, 1e300), (1e300, 0.0), (-1e-300, 1e-300)]),
        14 => (1e6, 1e6 + length),
        _ => (d.any_finite(), d.any_finite()),
    }
}

fn maybe(chance: usize, d: &mut Draw, value: impl Fn(&mut Draw) -> f64) -> Option<f64> {
    d.percent(chance).then(|| value(d))
}

// The ceiling of a step, and a least step that is not above it.
fn step_limits(distance: f64, chance: usize, d: &mut Draw) -> (Option<f64>, Option<f64>) {
    let max_step = maybe(chance, d, |d| match d.below(6) {
        0 => d.one_of(&[0.0, -0.0, 5e-324, f64::MAX]),
        1 => distance.min(f64::MAX),
        _ => distance.min(1e300) * d.sized(-8, 2),
    });
    let ceiling = max_step.unwrap_or(distance).min(f64::MAX);
    let min_step = maybe(chance, d, |d| match d.below(6) {
        0 => d.one_of(&[0.0, -0.0, -1.0, f64::MIN]),
        1 => ceiling,
        _ => ceiling * d.sized(-20, -1),
    });
    (max_step, min_step)
}

fn first_step(distance: f64, d: &mut Draw) -> f64 {
    match d.below(6) {
        0 => d.one_of(&[5e-324, -5e-324, 1e308, -1e-6]),
        1 => d.sized(-40, 0),
        _ => {
            let step = (distance.min(1e300) * d.sized(-12, 1)).max(1e-300);
            d.signed(step)
        }
    }
}

// nind1, nind2, nind3, whose sum is n where nind1 is given.
fn partition(n: usize, model: &Model, d: &mut Draw) -> [Option<usize>; 3] {
    if d.percent(55) && model.partition(n).is_none() {
        return [None; 3];
    }
    let (two, three) = model.partition(n).unwrap_or_else(|| {
        let two = d.from_to(0, n);
        (two, d.from_to(0, n - two))
    });
    match d.below(6) {
        0 if three == 0 => [None, Some(two), None],
        1 if two == 0 => [None, None, Some(three)],
        0 | 1 | 2 => [None, Some(two), Some(three)],
        3 if two + three == 0 => [Some(n), None, None],
        _ => [Some(n - two - three), Some(two), Some(three)],
    }
}

fn settings(n: usize, model: &Model, distance: f64, d: &mut Draw) -> Settings {
    // Of the settings that are usually left alone, so many in a hundred are drawn.
    let wild = d.one_of(&[0, 0, 10, 60]);
    let mut s = Settings { max_steps: max_steps(d), ..Settings::default() };
    if d.percent(wild) {
        s.uround = inside(1e-35, 1.0, d);
    }
    if d.percent(wild) {
        s.safety_factor = inside(1e-4, 1.0, d);
    }
    if d.percent(wild) {
        (s.scale_min, s.scale_max) = scales(d);
    }
    (s.max_step, s.min_step) = step_limits(distance, wild / 2, d);
    if d.percent(30) {
        s.newton_maxiter = d.from_to(1, 16);
    }
    s.newton_tol = maybe(10 + wild / 4, d, |d| match d.below(4) {
        0 => d.one_of(&[0.0, -0.0, -1.0, 5e-324, f64::MAX]),
        _ => d.sized(-30, 10),
    });
    s.predictive = d.percent(70);
    [s.nind1, s.nind2, s.nind3] = partition(n, model, d);
    s.host_jacobian = d.percent(45);
    s.first_step = maybe(40, d, |d| first_step(distance, d));
    s.dense_output = d.percent(60);
    s.book = d.percent(45);
    s
}

fn tolerance_pair(wild: bool, d: &mut Draw) -> (f64, f64) {
    if wild {
        let rtol = d.one_of(&[5e-324, 1e-300, 1e-16, 1.0, 1e100, f64::MAX]);
        return (rtol, d.one_of(&[0.0, -0.0, 5e-324, 1e-300, 1.0, f64::MAX]));
    }
    (d.sized(-36, -3), if d.percent(10) { 0.0 } else { d.sized(-44, -3) })
}

fn tolerances(n: usize, d: &mut Draw) -> Tolerances {
    let wild = d.percent(8);
    if d.percent(55) {
        let (rtol, atol) = tolerance_pair(wild, d);
        return Tolerances::Scalars(rtol, atol);
    }
    let same = tolerance_pair(wild, d);
    let one_sort = d.percent(30);
    let (rtol, atol) = (0..n).map(|_| if one_sort { same } else { tolerance_pair(wild, d) }).unzip();
    Tolerances::Lists(rtol, atol)
}

// A Full mass of its own: regular, singular, or odd.
fn full_mass(n: usize, d: &mut Draw) -> Vec<f64> {
    let kind = d.below(10);
    let side = d.list(n, |d| d.between(-1.0, 1.0));
    let mut mass = vec![0.0; n * n];
    for row in 0..n {
        for column in 0..n {
            let diagonal = if row == column { 1.0 } else { 0.0 };
            mass[row * n + column] = match kind {
                0 | 1 => diagonal,
                2 | 3 => diagonal + d.between(-0.3, 0.3),
                // Rows of zeros.
                4 | 5 if row % 2 == 1 => 0.0,
                4 | 5 => diagonal + d.between(-0.3, 0.3),
                6 => side[row] * side[column],
                7 => d.one_of(&[0.0, -0.0]),
                8 => diagonal * d.sized(-1074, 900),
                _ => d.any_finite(),
            };
        }
    }
    mass
}

fn mass(n: usize, model: &Model, d: &mut Draw) -> Option<Vec<f64>> {
    if d.percent(90) && model.mass(n).is_some() {
        return model.mass(n);
    }
    d.percent(35).then(|| full_mass(n, d))
}

fn amounts(n: usize, model: &Model, d: &mut Draw) -> Vec<f64> {
    match d.below(12) {
        0 => d.list(n, Draw::finite_edge),
        1 => d.list(n, Draw::any_finite),
        _ => model.amounts(n, d),
    }
}

fn jacobian(d: &mut Draw) -> Jacobian {
    match d.below(20) {
        0 => Jacobian::Zero,
        1 => Jacobian::Noise,
        2 => Jacobian::MildNoise(d.sized(-10, 10)),
        3..=9 => Jacobian::Scaled(d.one_of(&[-1.0, 0.0, 0.3, 0.7, 0.9, 0.99, 1.1, 1.3, 2.0, 5.0])),
        _ => Jacobian::Scaled(1.0),
    }
}

fn spoils(n: usize, d: &mut Draw) -> Vec<Spoil> {
    if d.percent(75) {
        return vec![];
    }
    let one = |d: &mut Draw| Spoil {
        from: d.below(60),
        count: d.one_of(&[1, 1, 1, 3, 20]),
        entry: d.below(n),
        value: d.any(),
    };
    (0..d.from_to(1, 3)).map(|_| one(d)).collect()
}

fn reports(d: &mut Draw) -> Reports {
    let mut found = Reports::default();
    match d.below(10) {
        0..=2 => {}
        3 => found.interrupt_at = Some(d.below(12)),
        4 => found.modified = 60,
        5 => found.marked = 50,
        6 => found.modified = 15,
        _ => {
            found.interrupt_at = d.percent(20).then(|| d.below(20));
            found.modified = d.below(50);
            found.marked = d.below(50);
        }
    }
    found
}

// A step and a Jacobian with which a matrix is singular.
fn make_singular(opening: &mut Opening, host: &mut Host, d: &mut Draw) {
    let scale = d.one_of(&[1.0, 2.0, 1024.0]);
    let times = d.from_to(1, 7);
    (opening.x0, opening.xend, opening.mass) = (0.0, 4.0, None);
    let s = &mut opening.settings;
    (s.max_step, s.min_step, s.first_step, s.host_jacobian) = (None, None, Some(1.0 / scale), true);
    host.jacobian = if d.percent(50) {
        Jacobian::RealSingular { scale, times }
    } else {
        Jacobian::ComplexSingular { scale, times }
    };
}

impl Case {
    // One that opens.
    fn sound(d: &mut Draw) -> Case {
        let n = order(d);
        let model = Model::draw(n, d);
        let (x0, xend) = ends(d);
        let mut opening = Opening {
            n,
            x0,
            xend,
            settings: settings(n, &model, (xend - x0).abs(), d),
            tolerances: tolerances(n, d),
            y: amounts(n, &model, d),
            mass: mass(n, &model, d),
            rubbish: d.word(),
        };
        let mut host = Host {
            model,
            jacobian: jacobian(d),
            spoils: spoils(n, d),
            reports: reports(d),
            xend,
            patience: d.sized(4, 9) as usize,
            draw: d.clone(),
            derivatives: 0,
            jacobians: 0,
            reported: 0,
        };
        if d.percent(3) {
            make_singular(&mut opening, &mut host, d);
        }
        Case { opening, host, runs: Runs::One, misfit: None }
    }

    pub fn draw(d: &mut Draw) -> Case {
        let mut case = Case::sound(d);
        match d.below(100) {
            0..=7 => spoilt::spoil(&mut case, d),
            8 | 9 => case.runs = Runs::InterruptEach,
            10 => limits::put_at_limit(&mut case, d),
            11 | 12 => {
                // Many runs, so each is kept short.
                case.host.patience = 40;
                case.runs = Runs::SeekEdge;
            }
            _ => {}
        }
        case
    }
}
