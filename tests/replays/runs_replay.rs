// The advance of crates/radau, its contracts taken out, beside the traced Rust: request by request, all parts of memory
// (tests/replays/runs.py).
use crate::program::*;
use state::run::*;
use state::settings::*;
use state::talk::*;
use std::io::Read;
fn pat(x: f64) -> u64 {
    if x.is_nan() {
        0x7ff8_0000_0000_0000
    } else {
        x.to_bits()
    }
}
pub struct Mem {
    f: Vec<Vec<f64>>,
    ip1: Vec<usize>,
    ip2: Vec<usize>,
} // f: y f0 scal cont z1 z2 z3 f1 f2 f3 rtol atol mass jac e1 e2r e2i yp fp fo
impl Mem {
    fn parts(&self) -> Parts {
        let mut p: Parts = self.f[..17]
            .iter()
            .map(|v| v.iter().map(|&x| pat(x)).collect())
            .collect();
        p.push(self.ip1.iter().map(|&x| x as u64).collect());
        p.push(self.ip2.iter().map(|&x| x as u64).collect());
        p.extend(
            self.f[17..]
                .iter()
                .map(|v| v.iter().map(|&x| pat(x)).collect::<Vec<u64>>()),
        );
        p
    }
}
fn num(o: &Opening, bit: u32, place: usize) -> Option<f64> {
    o.chosen(bit).then(|| o.float(place))
}
fn whole(o: &Opening, bit: u32, place: usize) -> Option<usize> {
    o.chosen(bit).then(|| o.words[place] as usize)
}
fn settings(o: &Opening) -> Settings {
    Settings {
        max_steps: o.words[4] as usize,
        uround: o.float(6),
        safety_factor: o.float(7),
        scale_min: o.float(8),
        scale_max: o.float(9),
        max_step: num(o, 0, 10),
        min_step: num(o, 1, 11),
        newton_maxiter: o.words[5] as usize,
        newton_tol: num(o, 2, 12),
        predictive: o.chosen(7),
        nind1: whole(o, 4, 16),
        nind2: whole(o, 5, 17),
        nind3: whole(o, 6, 18),
        mass: if o.full() { Mass::Full } else { Mass::Identity },
        source: if o.chosen(10) {
            Source::Host
        } else {
            Source::Differences
        },
        first_step: num(o, 3, 13),
        dense_output: o.chosen(8),
        rule: if o.chosen(11) { Rule::Book } else { Rule::Rust },
    }
}
fn status(s: Status) -> u64 {
    match s {
        Status::Success => 0,
        Status::UserInterrupt => 1,
        Status::NeedLargerNMax => 2,
        Status::StepSizeTooSmall => 3,
        Status::SingularMatrix => 5,
    }
}
fn place(p: Place) -> u64 {
    match p {
        Place::Nowhere => 0,
        Place::YToF0 => 1,
        Place::ContToZ1 => 2,
        Place::ContToZ2 => 3,
        Place::ContToZ3 => 4,
        Place::ContToF1 => 5,
        Place::YToFOrigin => 6,
        Place::YPerturbedToFPerturbed => 7,
    }
}
// head without reply, floats
fn request(r: Request, p: Place) -> (u64, Vec<u64>) {
    let (k, flag, f) = match r {
        Request::Derivative(x) => (1, 0, vec![pat(x)]),
        Request::Jacobian(x) => (2, 0, vec![pat(x)]),
        Request::Report(a, b, c) => (3, c as u64, vec![pat(a), pat(b)]),
        Request::Ended(s) => (4, status(s), vec![]),
    };
    (k << 12 | place(p) << 8 | flag << 4, f)
}
fn target(p: u64) -> usize {
    match p {
        1 => 1,
        2 => 4,
        3 => 5,
        4 => 6,
        5 => 7,
        6 => 19,
        7 => 18,
        _ => panic!(),
    }
}
fn differ(mem: &Mem, asked: &Asked) -> Option<String> {
    let mine = mem.parts();
    for (k, name) in NAMES.iter().enumerate() {
        if mine[k] != asked.parts[k] {
            let at = (0..mine[k].len().max(asked.parts[k].len()))
                .find(|&i| mine[k].get(i) != asked.parts[k].get(i))
                .unwrap();
            return Some(format!(
                "part {name}[{at}] port {:x?} rust {:x?}",
                mine[k].get(at),
                asked.parts[k].get(at)
            ));
        }
    }
    assert_eq!(hash(&mine), asked.words[1]);
    None
}
fn advance(run: Run, reply: Reply, m: &mut Mem) -> Result<Call, Refused> {
    let [y, f0, scal, cont, z1, z2, z3, f1, f2, f3, rtol, atol, mass, jac, e1, e2r, e2i, yp, fp, fo] =
        &mut m.f[..] else { unreachable!() };
    radau::advance::Resumed { run, reply }.advance(
        y, f0, scal, cont, z1, z2, z3, f1, f2, f3, rtol, atol, mass, jac, e1, e2r, e2i, &mut m.ip1,
        &mut m.ip2, yp, fp, fo,
    )
}

// Runs that one number each makes unfit; crates/replay_admission takes document 01's clauses one by one.
fn unfit(run: Run) -> Vec<Run> {
    let m = run.settings.max_steps;
    let k = run.settings.newton_maxiter;
    let between = |smallest, largest| Some(Strides { smallest, largest });
    let mut all = vec![run; 21];
    all[0].shape.n = 0;
    all[1].shape.n = 33;
    all[2].shape.n += 1;
    all[3].settings.max_steps = 0;
    all[4].settings.max_steps = 1_000_001;
    all[5].settings.uround = 1e-35;
    all[6].settings.safety_factor = 1.0;
    all[7].settings.scale_min = 0.0;
    all[8].settings.newton_maxiter = 17;
    all[9].shape.nind2 += 1;
    all[10].shape.nind3 = usize::MAX;
    all[11].control.newt_iter = k + 1;
    all[12].counts.ode = 3 + 3 * (k + 1) * m;
    all[13].counts.jac = 7 + 6 * m;
    all[14].counts.lu = 13 + 13 * m;
    all[15].counts.accepted = m + 1;
    all[16].counts.rejected = 2 * m + 1;
    all[17].notes.strides = between(-f64::MIN_POSITIVE, 1.0);
    all[18].notes.strides = between(f64::NAN, f64::NEG_INFINITY);
    // these two only while the run has not ended
    all[19].counts.total = m + 1;
    all[20].control.singular_count = 6;
    all
}

// Refused: 13 for a state that is unfit, 15 for a reply of another kind, and past the end 14 for any; the run and the
// memory stay as they were.
fn tried(run: Run, kind: u64, m: &mut Mem, asked: &Asked) -> Result<(), String> {
    let right = if kind == 3 {
        Reply::Continue
    } else {
        Reply::Filled
    };
    let wrong = if kind == 3 {
        Reply::Filled
    } else {
        Reply::Continue
    };
    let mut calls = vec![(
        run,
        wrong,
        if kind == 4 {
            Refusal::HasEnded
        } else {
            Refusal::WrongReply
        },
    )];
    if kind == 4 {
        calls.push((run, right, Refusal::HasEnded));
    }
    let bad = unfit(run);
    let count = if kind == 4 { 19 } else { 21 };
    calls.extend(bad[..count].iter().map(|&r| (r, right, Refusal::Unfit)));
    for (state, reply, refusal) in calls {
        let answer = advance(state, reply, m);
        let wanted = Err(Refused { run: state, refusal });
        // a NaN is no equal of itself, but is shown like itself
        if answer != wanted && format!("{answer:?}") != format!("{wanted:?}") {
            return Err(format!("not refused as {refusal:?}: {answer:?}"));
        }
    }
    match differ(m, asked) {
        Some(d) => Err(format!("a refusal wrote {d}")),
        None => Ok(()),
    }
}

fn replay(o: &Opening, asked: &[Asked]) -> Result<usize, String> {
    let n = o.n();
    let s = n * n;
    let len = [
        n,
        n,
        n,
        4 * n,
        n,
        n,
        n,
        n,
        n,
        n,
        n,
        n,
        s,
        s,
        s,
        s,
        s,
        n,
        n,
        n,
    ];
    let mut m = Mem {
        f: len.iter().map(|&k| vec![-7.25; k]).collect(),
        ip1: vec![77; n],
        ip2: vec![99; n],
    };
    m.f[0] = o.y();
    if let Some(mass) = o.mass() {
        m.f[12] = mass;
    }
    if o.lists() {
        m.f[10] = o.list(0);
        m.f[11] = o.list(1);
    }
    let tol = if o.lists() {
        Tolerances::Lists
    } else {
        Tolerances::Scalars(o.float(14), o.float(15))
    };
    let opened = {
        let [y, f0, scal, cont, z1, z2, z3, f1, f2, f3, rtol, atol, mass, jac, e1, e2r, e2i, yp, fp, fo] =
            &mut m.f[..] else { unreachable!() };
        opening::open(
            settings(o),
            n,
            o.float(1),
            o.float(2),
            tol,
            y,
            f0,
            scal,
            cont,
            z1,
            z2,
            z3,
            f1,
            f2,
            f3,
            rtol,
            atol,
            mass,
            jac,
            e1,
            e2r,
            e2i,
            &mut m.ip1,
            &mut m.ip2,
            yp,
            fp,
            fo,
        )
    };
    let (mut run, mut req, mut pl) = match opened {
        Ok(call) => (call.run, call.request, call.place),
        Err(r) => return Err(format!("refused {r:?}")),
    };
    for (k, a) in asked.iter().enumerate() {
        let (head, floats) = request(req, pl);
        if head != a.words[0] & !15 || floats != a.words[2..] {
            return Err(format!(
                "request {k}: port {head:x} {floats:x?} rust {:x?}",
                a.words
            ));
        }
        if let Some(d) = differ(&m, a) {
            return Err(format!("request {k} ({:x}): {d}", a.words[0]));
        }
        let kind = a.words[0] >> 12;
        tried(run, kind, &mut m, a).map_err(|e| format!("request {k}: {e}"))?;
        let floats: Vec<f64> = a.reply.iter().map(|&w| f64::from_bits(w)).collect();
        let reply = match (kind, a.words[0] & 15) {
            (1, 1) => {
                m.f[target(a.words[0] >> 8 & 15)] = floats;
                Reply::Filled
            }
            (2, 1) => {
                m.f[13] = floats;
                Reply::Filled
            }
            (3, 2) => Reply::Continue,
            (3, 3) => Reply::Interrupt,
            (3, 4) => {
                m.f[0] = floats[1..].to_vec();
                Reply::Modified(floats[0])
            }
            (3, 5) => Reply::Mark(floats[0]),
            (4, 0) => {
                let r = match run.result() {
                    Some(r) => r,
                    None => return Err(format!("request {k}: not ended")),
                };
                let c = r.counts;
                let mine = vec![
                    pat(r.h),
                    pat(r.x),
                    c.ode as u64,
                    c.jac as u64,
                    c.lu as u64,
                    c.total as u64,
                    c.accepted as u64,
                    c.rejected as u64,
                    state::blame_kind(r.blame) as u64,
                    state::blame_column(r.blame) as u64,
                    pat(r.smallest),
                    pat(r.largest),
                ];
                if mine != a.reply {
                    return Err(format!("result: port {mine:x?} rust {:x?}", a.reply));
                }
                if k + 1 != asked.len() {
                    return Err("more".into());
                }
                return Ok(asked.len());
            }
            other => panic!("{other:?}"),
        };
        match advance(run, reply, &mut m) {
            Ok(call) => {
                run = call.run;
                req = call.request;
                pl = call.place;
            }
            Err(refused) => return Err(format!("request {k}: refused {:?}", refused.refusal)),
        }
    }
    Err("the Rust ended earlier".into())
}
pub fn go() {
    let mut text = String::new();
    std::io::stdin().read_to_string(&mut text).unwrap();
    let (mut runs, mut requests, mut bad) = (0, 0, 0);
    for (number, line) in text.lines().enumerate() {
        let (o, host) = read_line(line);
        let asked = traced(&o, &host);
        runs += 1;
        let got = std::panic::catch_unwind(|| replay(&o, &asked));
        match got {
            Ok(Ok(k)) => requests += k,
            Ok(Err(e)) => {
                bad += 1;
                if bad <= 40 {
                    println!(
                        "run {} ({}): {e}",
                        number + 1,
                        line.split('|').nth(1).unwrap()
                    )
                }
            }
            Err(_) => {
                bad += 1;
                println!("run {} panics", number + 1)
            }
        }
    }
    println!("{runs} runs {requests} requests {bad} differ");
    // How often each branch of the advance was taken (tests/support/port.py).
    let taken = radau_core::taken::TAKEN.iter().map(|k| k.load(std::sync::atomic::Ordering::Relaxed).to_string());
    println!("{}", taken.collect::<Vec<String>>().join(" "));
}
