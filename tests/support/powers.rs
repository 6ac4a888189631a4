// Document 01's powers, written plainly: what the Rust's power calls are directed to, and what ours are held against.

// The root of order m: halving between the patterns of +0 and infinity, middle rounded down.
pub fn root(m: u32, v: f64) -> f64 {
    assert!((1..=17).contains(&m));
    if v.is_nan() || v < 0.0 {
        return f64::NAN;
    }
    if v == 0.0 {
        return 0.0;
    }
    if v.is_infinite() {
        return v;
    }
    let (mut low, mut high) = (0u64, f64::INFINITY.to_bits());
    while high - low > 1 {
        let middle = (low + high) / 2;
        let x = f64::from_bits(middle);
        let product = (1..m).fold(x, |p, _| p * x);
        if product <= v {
            low = middle;
        } else {
            high = middle;
        }
    }
    f64::from_bits(low)
}

pub fn power(k: usize, x: f64) -> f64 {
    (0..k).fold(1.0, |p, _| p * x)
}

pub fn two_thirds(v: f64) -> f64 {
    power(2, root(3, v))
}

pub fn four_fifths(v: f64) -> f64 {
    power(4, root(5, v))
}

pub fn quarter(v: f64) -> f64 {
    root(4, v)
}

// The exponent -1/m.
pub fn inverse_root(m: usize, v: f64) -> f64 {
    1.0 / root(m as u32, v)
}
