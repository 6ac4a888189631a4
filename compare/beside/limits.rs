// Cases in which a number stands just at a limit that neither chance nor a search meets: an error of 1, a rate of 0.99,
// a step longer by just the factor 1.2.
use super::case::Case;
use super::draw::Draw;
use super::host::Spoil;
use super::models::Model;
use super::opening::Tolerances;
use super::plain::two_thirds;

fn spoil(from: usize, count: usize, value: f64) -> Spoil {
    Spoil { from, count, entry: 0, value }
}

// One amount from 0 to 1, and otherwise as the case was drawn.
fn small(case: &mut Case, model: Model, rtol: f64, atol: f64) {
    let o = &mut case.opening;
    (o.n, o.x0, o.xend, o.y, o.mass) = (1, 0.0, 1.0, vec![1.0], None);
    o.tolerances = Tolerances::Scalars(rtol, atol);
    let s = &mut o.settings;
    (s.host_jacobian, s.max_step, s.min_step, s.first_step) = (false, None, None, None);
    [s.nind1, s.nind2, s.nind3] = [None; 3];
    (case.host.model, case.host.spoils) = (model, vec![]);
}

// 0 = -y: the error is the first derivative, and what the host says in a round is that round's change. The first three
// derivatives are the first and the two of a difference Jacobian; then come the rounds, three at a time.
fn algebraic(case: &mut Case, newton_tol: f64, spoils: Vec<Spoil>) {
    small(case, Model::Linear(vec![-1.0]), 1e-3, 1e-6);
    case.opening.mass = Some(vec![0.0]);
    case.opening.settings.newton_tol = Some(newton_tol);
    case.host.spoils = spoils;
}

pub fn put_at_limit(case: &mut Case, d: &mut Draw) {
    match d.below(3) {
        0 => {
            let rtol = 0.1 * two_thirds(1e-3);
            let scale = rtol * (1e-6 / 1e-3) + rtol;
            algebraic(case, 1e9, vec![spoil(0, 1, scale), spoil(3, 3, 0.0), spoil(6, 1, scale)]);
        }
        1 => {
            let change = d.one_of(&[1.0, 1.625, 7.0]);
            algebraic(case, 1e-9, vec![spoil(3, 3, change), spoil(6, 3, change * 0.99)]);
        }
        _ => {
            small(case, Model::Cubic(1.0), 1e-2, 1e-2);
            let (first, most) = d.one_of(&[(0.01, 0.01), (0.01, 0.012), (0.02, 0.024), (0.0625, 0.075)]);
            (case.opening.settings.first_step, case.opening.settings.max_step) = (Some(first), Some(most));
        }
    }
}
