//! A model of reactions, read from a sheet that is well formed, as a system that can be solved.

use elchepur::prelude::*;

/// A reaction: its rate, its two reactants and its two products; species count from 1, and 0 is none.
pub struct Reaction {
    rate: f64,
    species: [usize; 4],
}

pub struct Model {
    pub x0: f64,
    pub xend: f64,
    pub rtol: f64,
    pub atol: f64,
    pub max_steps: usize,
    pub rule: Rule,
    pub amounts: Vec<f64>,
    pub reactions: Vec<Reaction>,
}

/// The words of a sheet, one after the other.
struct Words<'a>(std::str::SplitWhitespace<'a>);

impl Words<'_> {
    fn number(&mut self) -> Result<usize, String> {
        let word = self.0.next().ok_or("the sheet ends early")?;
        word.parse().map_err(|_| format!("'{word}' is no number"))
    }

    fn float(&mut self) -> Result<f64, String> {
        let word = self.0.next().ok_or("the sheet ends early")?;
        let bits = u64::from_str_radix(word, 16).map_err(|_| format!("'{word}' is no float"))?;
        Ok(f64::from_bits(bits))
    }

    fn reaction(&mut self, species: usize) -> Result<Reaction, String> {
        let rate = self.float()?;
        let mut reaction = Reaction { rate, species: [0; 4] };
        for place in &mut reaction.species {
            *place = self.number()?;
            if *place > species {
                return Err(format!("there is no species {place}"));
            }
        }
        Ok(reaction)
    }
}

impl Model {
    /// Reads a sheet that the proved reader takes; of another it may make anything.
    pub fn read(sheet: &str) -> Result<Model, String> {
        let mut words = Words(sheet.split_whitespace());
        if words.number()? != 6 {
            return Err("a sheet has 6 settings".to_string());
        }
        let (x0, xend, rtol, atol) = (words.float()?, words.float()?, words.float()?, words.float()?);
        let max_steps = words.number()?;
        let rule = if words.number()? == 0 { Rule::Rust } else { Rule::Book };
        let species = words.number()?;
        if species == 0 {
            return Err("the sheet has no species".to_string());
        }
        let amounts = (0..species).map(|_| words.float()).collect::<Result<_, _>>()?;
        let reactions = words.number()?;
        let reactions = (0..reactions).map(|_| words.reaction(species)).collect::<Result<_, _>>()?;
        Ok(Model { x0, xend, rtol, atol, max_steps, rule, amounts, reactions })
    }

    pub fn solver(&self) -> RADAU {
        let settings = RADAU::builder().max_steps(self.max_steps).rule(self.rule);
        settings.mass_storage(MatrixStorage::Identity).build()
    }

    pub fn solve<S: SolOut>(&self, solver: &RADAU, solout: Option<&mut S>) -> Result<IntegrationResult, Error> {
        solver.solve(self, self.x0, &self.amounts, self.xend, self.rtol.into(), self.atol.into(), solout)
    }
}

impl FirstOrderSystem for Model {
    fn derivative(&self, _x: f64, y: &[f64], dydx: &mut [f64]) {
        dydx.fill(0.0);
        for Reaction { rate, species } in &self.reactions {
            let (reactants, products) = species.split_at(2);
            let present =
                |places: &[usize]| places.iter().filter(|place| **place > 0).map(|place| place - 1).collect::<Vec<_>>();
            let (reactants, products) = (present(reactants), present(products));
            let v = reactants.iter().fold(*rate, |v, place| v * y[*place]);
            for place in reactants {
                dydx[place] -= v;
            }
            for place in products {
                dydx[place] += v;
            }
        }
    }
}
