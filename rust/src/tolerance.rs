//! Tolerances: one number for all amounts, or a list.

/// A tolerance. Both of a run are numbers, or both are lists.
///
/// ```
/// use elchepur::methods::Tolerance;
///
/// assert_eq!(Tolerance::from(1e-6), Tolerance::Scalar(1e-6));
/// assert_eq!(Tolerance::from([1e-6, 1e-9]), Tolerance::Vector(vec![1e-6, 1e-9]));
/// ```
#[derive(Clone, Debug, PartialEq)]
pub enum Tolerance {
    /// One number for all amounts.
    Scalar(f64),
    /// One for each amount.
    Vector(Vec<f64>),
}

impl From<f64> for Tolerance {
    fn from(value: f64) -> Tolerance {
        Tolerance::Scalar(value)
    }
}

impl From<&[f64]> for Tolerance {
    fn from(values: &[f64]) -> Tolerance {
        Tolerance::Vector(values.to_vec())
    }
}

impl<const N: usize> From<[f64; N]> for Tolerance {
    fn from(values: [f64; N]) -> Tolerance {
        Tolerance::Vector(values.to_vec())
    }
}

impl From<Vec<f64>> for Tolerance {
    fn from(values: Vec<f64>) -> Tolerance {
        Tolerance::Vector(values)
    }
}
