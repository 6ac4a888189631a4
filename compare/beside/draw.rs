// Numbers drawn at random: SplitMix64 (Steele, Lea and Flood, 2014), and doubles of the sorts that the cases want.
// Every machine draws the same.
const GOLDEN: u64 = 0x9e37_79b9_7f4a_7c15;

// Doubles at the ends of their ranges; those past FINITE are not finite.
const EDGES: [f64; 19] = [
    0.0,
    -0.0,
    1.0,
    -1.0,
    1.000_000_000_000_000_2,
    0.999_999_999_999_999_9,
    5e-324,
    -5e-324,
    2.225_073_858_507_201e-308,
    2.225_073_858_507_201_4e-308,
    1e-160,
    -1e-300,
    1e150,
    -1e300,
    f64::MAX,
    f64::MIN,
    f64::INFINITY,
    f64::NEG_INFINITY,
    f64::NAN,
];
const FINITE: usize = 16;

// The bit that makes a NaN a quiet one.
const QUIET: u64 = 1 << 51;

// Whether a double is a signalling NaN. Of such a one the Rust's own max and min are NaN on Arm and the other number on
// x86-64, so it decides nothing.
pub fn signals(x: f64) -> bool {
    x.is_nan() && x.to_bits() & QUIET == 0
}

fn mixed(z: u64) -> u64 {
    let z = (z ^ (z >> 30)).wrapping_mul(0xbf58_476d_1ce4_e5b9);
    let z = (z ^ (z >> 27)).wrapping_mul(0x94d0_49bb_1331_11eb);
    z ^ (z >> 31)
}

#[derive(Clone)]
pub struct Draw {
    state: u64,
}

impl Draw {
    // A stream of its own for each case of a seed, so that a case can be run alone.
    pub fn new(seed: u64, case: u64) -> Draw {
        let start = mixed(seed.wrapping_add(GOLDEN)) ^ case.wrapping_mul(GOLDEN);
        Draw { state: mixed(start) }
    }

    pub fn word(&mut self) -> u64 {
        self.state = self.state.wrapping_add(GOLDEN);
        mixed(self.state)
    }

    pub fn below(&mut self, count: usize) -> usize {
        ((self.word() as u128 * count as u128) >> 64) as usize
    }

    pub fn from_to(&mut self, low: usize, high: usize) -> usize {
        low + self.below(high - low + 1)
    }

    // True so many times in a hundred.
    pub fn percent(&mut self, chance: usize) -> bool {
        self.below(100) < chance
    }

    pub fn one_of<T: Copy>(&mut self, list: &[T]) -> T {
        list[self.below(list.len())]
    }

    // From 0 on, below 1.
    pub fn unit(&mut self) -> f64 {
        (self.word() >> 11) as f64 / (1u64 << 53) as f64
    }

    pub fn between(&mut self, low: f64, high: f64) -> f64 {
        low + (high - low) * self.unit()
    }

    // From 2^low on, below 2^(high + 1), each power of two alike.
    pub fn sized(&mut self, low: i64, high: i64) -> f64 {
        let exponent = low + self.below((high - low + 1) as usize) as i64;
        let digits = self.word() >> 12;
        f64::from_bits(((exponent + 1023) as u64) << 52 | digits)
    }

    pub fn signed(&mut self, size: f64) -> f64 {
        if self.percent(50) {
            -size
        } else {
            size
        }
    }

    // Any pattern, but that signalling NaNs become quiet.
    pub fn pattern(&mut self) -> f64 {
        let word = self.word();
        let quiet = if signals(f64::from_bits(word)) { QUIET } else { 0 };
        f64::from_bits(word | quiet)
    }

    pub fn edge(&mut self) -> f64 {
        self.one_of(&EDGES)
    }

    pub fn finite_edge(&mut self) -> f64 {
        self.one_of(&EDGES[..FINITE])
    }

    // A double of any sort: an edge, a pattern, or a number of a modest size.
    pub fn any(&mut self) -> f64 {
        match self.below(4) {
            0 => self.edge(),
            1 => self.pattern(),
            2 => self.between(-2.0, 2.0),
            _ => {
                let size = self.sized(-40, 40);
                self.signed(size)
            }
        }
    }

    // Any finite one.
    pub fn any_finite(&mut self) -> f64 {
        let found = self.any();
        if found.is_finite() {
            found
        } else {
            1.5
        }
    }

    pub fn list(&mut self, count: usize, entry: impl Fn(&mut Draw) -> f64) -> Vec<f64> {
        (0..count).map(|_| entry(self)).collect()
    }
}
