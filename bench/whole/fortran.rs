// The published RADAU5 in Fortran, called with the same models. tests/support/fortran.py compiles it; without it
// nothing here is compiled.
use super::models::Model;
use super::outcome::{Outcome, Way};
use super::points::Points;

type Derivative = extern "C" fn(&i32, &f64, *const f64, *mut f64, *mut Points, *const i32);
type Jacobian = extern "C" fn(&i32, &f64, *const f64, &i32, &i32, *mut f64, &i32, *mut Points, *const i32);
type Report = extern "C" fn(&i32, &f64, &f64, *const f64, *const f64, &i32, &i32, *mut Points, *const i32, &mut i32);

extern "C" {
    fn radau5_(
        n: &i32, fcn: Derivative, x: &mut f64, y: *mut f64, xend: &f64, h: &mut f64, rtol: *mut f64, atol: *mut f64,
            itol: &i32,
        jac: Jacobian, ijac: &i32, mljac: &mut i32, mujac: &mut i32, mas: extern "C" fn(), imas: &i32, mlmas: &mut i32,
            mumas: &mut i32,
        solout: Report, iout: &i32, work: *mut f64, lwork: &i32, iwork: *mut i32, liwork: &i32,
        rpar: *mut Points, ipar: *const i32, idid: &mut i32,
    );
    fn contr5_(n: &i32, x: &f64, cont: *const f64, lrc: &i32, y: *mut f64);
}

extern "C" fn derivative<M: Model>(_: &i32, _: &f64, y: *const f64, out: *mut f64, _: *mut Points, _: *const i32) {
    let (y, out) = unsafe { (std::slice::from_raw_parts(y, M::N), std::slice::from_raw_parts_mut(out, M::N)) };
    M::derivative(y, out);
}

extern "C" fn jacobian<M: Model>(_: &i32, _: &f64, y: *const f64, _: &i32, _: &i32, j: *mut f64, _: &i32,
    _: *mut Points, _: *const i32) {
    let (y, j) = unsafe { (std::slice::from_raw_parts(y, M::N), std::slice::from_raw_parts_mut(j, M::N * M::N)) };
    M::jacobian(y, j, |row, column| column * M::N + row);
}

extern "C" fn report(number: &i32, _: &f64, x: &f64, _: *const f64, cont: *const f64, lrc: &i32, n: &i32,
    points: *mut Points, _: *const i32, _: &mut i32) {
    if *number > 1 {
        unsafe { &mut *points }.reached(*x, |xi, yi| unsafe { contr5_(n, &xi, cont, lrc, yi.as_mut_ptr()) });
    }
}

// The identity is not asked for.
extern "C" fn mass() {}

// What the package prints its messages by, which come at a refusal or a failure only.
#[no_mangle]
extern "C" fn rprintf_() {}
#[no_mangle]
extern "C" fn rprintfd1_() {}
#[no_mangle]
extern "C" fn rprintfd2_() {}
#[no_mangle]
extern "C" fn rprintfi1_() {}
#[no_mangle]
extern "C" fn rprintfi2_() {}
#[no_mangle]
extern "C" fn rprintfi3_() {}

// Status 0 is success, as ours; `lu` has the pairs of decompositions, which is what the Fortran counts.
pub fn run<M: Model>(way: Way) -> Outcome {
    let n = M::N;
    let (lwork, liwork) = (4 * n * n + 12 * n + 20, 3 * n + 20);
    let (mut work, mut iwork) = (vec![0.0; lwork], vec![0i32; liwork]);
    work[0] = way.uround;
    let mut points = Points::new(n, way);
    let mut y = M::start();
    let (mut x, mut h, mut idid, mut full, mut also_full) = (0.0, 1e-6, 0, n as i32, n as i32);
    let (mut rtol, mut atol) = (vec![way.rtol; n], vec![way.atol; n]);
    let (mut unused, mut also_unused) = (0, 0);
    unsafe {
        radau5_(
            &(n as i32), derivative::<M>, &mut x, y.as_mut_ptr(), &way.xend, &mut h, rtol.as_mut_ptr(),
                atol.as_mut_ptr(), &(way.lists as i32),
            jacobian::<M>, &(way.host_jacobian as i32), &mut full, &mut also_full, mass, &0, &mut unused,
                &mut also_unused,
            report, &(way.dense as i32), work.as_mut_ptr(), &(lwork as i32), iwork.as_mut_ptr(), &(liwork as i32),
            &mut points, std::ptr::null(), &mut idid,
        );
    }
    let count = |place: usize| iwork[place - 1] as u64;
    Outcome {
        status: if idid == 1 { 0 } else { idid as i64 },
        accepted: count(17),
        rejected: count(18),
        total: count(16),
        ode: count(14),
        jac: count(15),
        lu: count(19),
        rounds: count(20),
        y,
        sum: points.sum,
    }
}
