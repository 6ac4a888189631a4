// Which stored answers notice a slip, for tests/repository/slips.py: the Rust's text, in which one slip is switched
// on, is run again on what is stored. It stands beside tests/replays/runs.rs and tests/replays/replay_matrix.rs. The
// words are how many stored runs that notice a slip are wanted, and the files of the stored runs, of the sheets'
// runs, and of the matrix cases; standard input has a line for each slip, its number and the lists that may notice
// it: rust, book, sheets, matrix.
use crate::dense::StepInterpolant;
use crate::ivp::FirstOrderSystem;
use crate::matrix::Matrix;
use crate::matrix_cases;
use crate::program::{begin, hash, patterns, read_line, solve, with, Host, Opening};
use crate::program::{DERIVATIVE, INTERRUPT, JACOBIAN, MARK, MODIFIED, REPORT};
use crate::slips::{allow, plant, ticks};
use crate::solout::{ControlFlag, SolOut};
use std::cell::Cell;
use std::panic::{catch_unwind, resume_unwind, AssertUnwindSafe};

// --- Stored runs ---------------------------------------------------------------------------------

struct Request {
    head: u64,
    hash: u64,
    floats: Vec<u64>,
    reply: Vec<u64>,
}

struct Stored {
    opening: Opening,
    requests: Vec<Request>,
}

// How many floats and how many words of a reply or a result follow a head and its hash.
fn lengths(n: usize, head: u64) -> (usize, usize) {
    match (head >> 12, head & 15) {
        (1, _) => (1, n),
        (2, _) => (1, n * n),
        (3, MODIFIED) => (2, n + 1),
        (3, MARK) => (2, 1),
        (3, _) => (2, 0),
        _ => (0, 12),
    }
}

fn stored_runs(text: &str) -> Vec<Stored> {
    let mut words = text.split_whitespace().map(|word| u64::from_str_radix(word, 16).expect("a word")).peekable();
    let mut found = vec![];
    while words.peek().is_some() {
        let mut take = |count: usize| -> Vec<u64> { words.by_ref().take(count).collect() };
        let mut opening = Opening { words: take(20) };
        let n = opening.n();
        let given = n + if opening.full() { n * n } else { 0 } + if opening.lists() { 2 * n } else { 0 };
        opening.words.extend(take(given));
        let count = opening.words[19];
        let requests = (0..count).map(|_| {
            let head = take(2);
            let (floats, reply) = lengths(n, head[0]);
            Request { head: head[0], hash: head[1], floats: take(floats), reply: take(reply) }
        });
        let requests = requests.collect();
        found.push(Stored { opening, requests });
    }
    found
}

// Plays the host that was stored, and leaves the run at the first request that is another.
struct Player<'a> {
    run: &'a Stored,
    at: Cell<usize>,
}

impl Player<'_> {
    fn asked(&self, kind: u64, flag: u64, floats: &[f64]) -> &Request {
        let place = if kind == DERIVATIVE { with(|t| t.place) } else { 0 };
        let request = self.run.requests.get(self.at.get());
        let head = kind << 8 | place << 4 | flag;
        match request {
            Some(r) if r.head >> 4 == head && r.floats == patterns(floats) && r.hash == with(|t| hash(&t.parts)) => {
                self.at.set(self.at.get() + 1);
                r
            }
            _ => resume_unwind(Box::new(())),
        }
    }

    fn filled(&self, kind: u64, x: f64, target: &mut [f64]) {
        let request = self.asked(kind, 0, &[x]);
        for (entry, &word) in target.iter_mut().zip(&request.reply) {
            *entry = f64::from_bits(word);
        }
    }

    fn mass(&self, m: &mut Matrix) {
        if let Some(entries) = self.run.opening.mass() {
            m.data.copy_from_slice(&entries);
        }
    }
}

struct Plain<'a>(&'a Player<'a>);

impl FirstOrderSystem for Plain<'_> {
    fn derivative(&self, x: f64, _: &[f64], dydx: &mut [f64]) {
        self.0.filled(DERIVATIVE, x, dydx);
    }

    fn mass(&self, m: &mut Matrix) {
        self.0.mass(m);
    }
}

struct Making<'a>(&'a Player<'a>);

impl FirstOrderSystem for Making<'_> {
    fn derivative(&self, x: f64, _: &[f64], dydx: &mut [f64]) {
        self.0.filled(DERIVATIVE, x, dydx);
    }

    fn jac(&self, x: f64, _: &[f64], j: &mut Matrix) {
        self.0.filled(JACOBIAN, x, &mut j.data);
    }

    fn mass(&self, m: &mut Matrix) {
        self.0.mass(m);
    }
}

struct Reports<'a>(&'a Player<'a>);

impl SolOut for Reports<'_> {
    fn solout(&mut self, xold: f64, x: &mut f64, y: &mut [f64], offered: Option<&StepInterpolant<'_>>) -> ControlFlag {
        let request = self.0.asked(REPORT, offered.is_some() as u64, &[xold, *x]);
        let mut said = request.reply.iter().map(|&word| f64::from_bits(word));
        match request.head & 15 {
            INTERRUPT => ControlFlag::Interrupt,
            MODIFIED => {
                *x = said.next().expect("a point");
                y.iter_mut().zip(said).for_each(|(amount, value)| *amount = value);
                ControlFlag::ModifiedSolution
            }
            MARK => ControlFlag::XOut(said.next().expect("a mark")),
            _ => ControlFlag::Continue,
        }
    }
}

const MOST_TICKS: u64 = 100_000;

// Whether a stored run notices the slip: a request or the end is another, or the Rust panics or goes on for ever.
fn run_notices(run: &Stored) -> bool {
    let player = Player { run, at: Cell::new(0) };
    begin(&run.opening);
    allow(MOST_TICKS);
    let done = catch_unwind(AssertUnwindSafe(|| {
        if run.opening.chosen(10) {
            solve(&run.opening, &Making(&player), &mut Reports(&player));
        } else {
            solve(&run.opening, &Plain(&player), &mut Reports(&player));
        }
    }));
    let last = run.requests.last().expect("a run has an end");
    let ended = with(|t| {
        let said = t.asked.first();
        said.is_some_and(|end| end.words == [last.head, last.hash] && end.reply == last.reply)
    });
    done.is_err() || !ended || player.at.get() + 1 != run.requests.len()
}

// --- Sheets --------------------------------------------------------------------------------------

struct Model<'a>(&'a Host);

impl FirstOrderSystem for Model<'_> {
    fn derivative(&self, x: f64, y: &[f64], dydx: &mut [f64]) {
        self.0.formula(x, y, dydx);
    }
}

struct Silent;

impl SolOut for Silent {
    fn solout(&mut self, _: f64, _: &mut f64, _: &mut [f64], _: Option<&StepInterpolant<'_>>) -> ControlFlag {
        ControlFlag::Continue
    }
}

// The words that are printed of a sheet's run: status, x, the counts, the strides, the amounts; none where the Rust has
// no end.
fn printed(opening: &Opening, host: &Host, most: u64) -> Option<Vec<u64>> {
    begin(opening);
    allow(most);
    let done = catch_unwind(AssertUnwindSafe(|| solve(opening, &Model(host), &mut Silent)));
    done.ok()?;
    with(|t| {
        let end = t.asked.first()?;
        let mut words = vec![end.words[0]];
        words.extend(&end.reply[1..8]);
        words.extend(&end.reply[10..]);
        words.extend(&end.parts[0]);
        Some(words)
    })
}

struct Sheet {
    opening: Opening,
    host: Host,
    wanted: Option<Vec<u64>>,
    most: u64,
}

fn sheets(text: &str) -> Vec<Sheet> {
    let made = text.lines().map(|line| {
        let (opening, host) = read_line(line);
        let wanted = printed(&opening, &host, u64::MAX);
        Sheet { opening, host, wanted, most: 4 * ticks() + 100 }
    });
    made.collect()
}

// The first of these sheets that notices the slip; it is tried first the next time.
fn sheet_notices(sheets: &mut [Sheet], book: Option<bool>) -> bool {
    let asked = |s: &Sheet| book.is_none_or(|book| s.opening.chosen(11) == book);
    let found = sheets.iter().position(|s| asked(s) && printed(&s.opening, &s.host, s.most) != s.wanted);
    if let Some(place) = found {
        sheets[..=place].rotate_right(1);
    }
    found.is_some()
}

// --- All lists -----------------------------------------------------------------------------------

struct Lists {
    runs: Vec<Stored>,
    most: usize,
    sheets: Vec<Sheet>,
    // The matrix cases, and what is answered without a slip.
    cases: String,
    answers: String,
}

// What of these lists notices a slip: whether sheets and matrix answers do, and which runs.
fn told(number: u32, names: &str, lists: &mut Lists) -> String {
    plant(number);
    let named: Vec<&str> = names.split(',').collect();
    let asks = |run: &Stored| named.contains(&if run.opening.chosen(11) { "book" } else { "rust" });
    let noticing = lists.runs.iter().enumerate().filter(|(_, run)| asks(run) && run_notices(run));
    let noticing: Vec<String> = noticing.take(lists.most).map(|(place, _)| place.to_string()).collect();
    let book = (named.contains(&"rust") != named.contains(&"book")).then(|| named.contains(&"book"));
    let sheet = named.contains(&"sheets") && sheet_notices(&mut lists.sheets, book);
    let answered = || catch_unwind(|| matrix_cases::answers(&lists.cases)).ok();
    let matrix = named.contains(&"matrix") && answered().as_ref() != Some(&lists.answers);
    plant(0);
    format!("{number} {} {} {}", sheet as u8, matrix as u8, noticing.join(","))
}

pub fn go() {
    std::panic::set_hook(Box::new(|_| {}));
    plant(0);
    let words: Vec<String> = std::env::args().skip(1).collect();
    let most = words[0].parse().expect("a number");
    let texts: Vec<String> = words[1..].iter().map(|file| std::fs::read_to_string(file).expect("a list")).collect();
    let (runs, sheets, answers) = (stored_runs(&texts[0]), sheets(&texts[1]), matrix_cases::answers(&texts[2]));
    let mut lists = Lists { runs, most, sheets, cases: texts[2].clone(), answers };
    let astray = lists.runs.iter().position(run_notices);
    println!("{}", astray.map_or("as stored".to_string(), |place| format!("without a slip run {place} is another")));
    for line in std::io::stdin().lines() {
        let line = line.expect("a line");
        let (number, names) = line.split_once(' ').expect("a slip with its lists");
        println!("{}", told(number.parse().expect("a number"), names, &mut lists));
    }
}
