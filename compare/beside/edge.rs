// The place where a run goes another way. Between two values of one number for which the Rust takes unlike branches it
// is sought by halving, down to two neighbouring doubles; so the tests of `solve` are met just at their limits. Every
// run on the way is compared.
use super::case::Case;
use super::draw::Draw;
use super::opening::Tolerances;
use super::tally::count;

// The numbers that are moved, and how many of them are tried until a run goes another way.
const MOVED: usize = 10;
const TRIES: usize = 5;
// It has to stay below 1.
const SAFETY_FACTOR: usize = 6;

fn number(case: &mut Case, which: usize) -> &mut f64 {
    let o = &mut case.opening;
    let s = &mut o.settings;
    match which {
        0 => &mut o.xend,
        1 => &mut o.y[0],
        2 | 3 => s.newton_tol.get_or_insert(1e-3),
        4 => s.first_step.get_or_insert(1e-3),
        5 => s.max_step.get_or_insert(0.1),
        SAFETY_FACTOR => &mut s.safety_factor,
        7 => &mut s.uround,
        _ => match &mut o.tolerances {
            Tolerances::Scalars(rtol, atol) => if which == 8 { rtol } else { atol },
            Tolerances::Lists(rtol, atol) => if which == 8 { &mut rtol[0] } else { &mut atol[0] },
        },
    }
}

// Halves between two patterns, of which the first goes this way and the second another.
fn halve(mut here: u64, mut there: u64, mut same_way: impl FnMut(u64) -> bool) {
    while here.abs_diff(there) > 1 {
        let middle = here.min(there) + here.abs_diff(there) / 2;
        if same_way(middle) {
            here = middle;
        } else {
            there = middle;
        }
    }
    count(|t| t.edges += 1);
}

// `run` compares a run of the case and tells by a number which way it went.
pub fn seek(case: &mut Case, d: &mut Draw, run: impl Fn(&Case, &mut Draw) -> u64) {
    for _ in 0..TRIES {
        let which = d.below(MOVED);
        let here = *number(case, which);
        let there = here * if which == SAFETY_FACTOR { d.sized(-4, -1) } else { d.sized(-8, 8) };
        let mut way_at = |pattern: u64| {
            *number(case, which) = f64::from_bits(pattern);
            run(case, d)
        };
        let way = way_at(here.to_bits());
        if way_at(there.to_bits()) != way {
            return halve(here.to_bits(), there.to_bits(), |pattern| way_at(pattern) == way);
        }
        *number(case, which) = here;
    }
}
