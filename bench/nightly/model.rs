// A model as a sheet has it, ready to be solved: what a program in Rust would hold.

pub struct Reaction {
    pub rate: f64,
    // Two reactants, two products, counted from 1; 0 is none.
    pub species: [usize; 4],
}

pub struct Model {
    pub x0: f64,
    pub xend: f64,
    pub rtol: f64,
    pub atol: f64,
    pub max_steps: usize,
    pub amounts: Vec<f64>,
    pub reactions: Vec<Reaction>,
}

fn float(line: &str) -> f64 {
    f64::from_bits(u64::from_str_radix(line, 16).expect("a float"))
}

fn whole(line: &str) -> usize {
    line.parse().expect("a whole number")
}

fn reaction(line: &str) -> Reaction {
    let words: Vec<&str> = line.split(' ').collect();
    Reaction { rate: float(words[0]), species: [1, 2, 3, 4].map(|k| whole(words[k])) }
}

impl Model {
    pub fn read(sheet: &[u8]) -> Model {
        let text = std::str::from_utf8(sheet).expect("a sheet that was drawn");
        let mut lines = text.lines();
        let mut next = || lines.next().expect("another line");
        assert_eq!(next(), "6");
        let [x0, xend, rtol, atol] = [(); 4].map(|()| float(next()));
        let max_steps = whole(next());
        assert_eq!(next(), "0", "the Rust knows its own rule alone");
        let amounts = (0..whole(next())).map(|_| float(next())).collect();
        let reactions = (0..whole(next())).map(|_| reaction(next())).collect();
        Model { x0, xend, rtol, atol, max_steps, amounts, reactions }
    }

    // Document 01's sentence.
    pub fn derivative(&self, y: &[f64], dydx: &mut [f64]) {
        dydx.fill(0.0);
        for Reaction { rate, species: [a, b, c, d] } in &self.reactions {
            let mut v = *rate;
            for used in [*a, *b] {
                if used != 0 {
                    v *= y[used - 1];
                }
            }
            for used in [*a, *b] {
                if used != 0 {
                    dydx[used - 1] -= v;
                }
            }
            for made in [*c, *d] {
                if made != 0 {
                    dydx[made - 1] += v;
                }
            }
        }
    }
}
