// A screen asks how much nitric oxide a cylinder held on past days, after the run has moved on to the day of its label.

use elchepur::prelude::*;

struct Cylinder(Sheet);

impl FirstOrderSystem for Cylinder {
    fn derivative(&self, _day: f64, y: &[f64], dydx: &mut [f64]) {
        dydx.fill(0.0);
        for reaction in &self.0.reactions {
            let used = reaction.reactants.iter().filter(|species| **species > 0);
            let speed = used.fold(f64::from_bits(reaction.rate), |speed, species| speed * y[species - 1]);
            reaction.reactants.iter().filter(|species| **species > 0).for_each(|species| dydx[species - 1] -= speed);
            reaction.products.iter().filter(|species| **species > 0).for_each(|species| dydx[species - 1] += speed);
        }
    }
}

/// What the screen shows of a sheet.
fn shown(sheet: &[u8]) -> Result<String, Box<dyn std::error::Error>> {
    let cylinder = Cylinder(Sheet::read(sheet)?);
    let Sheet { x0, xend, rtol, atol, max_steps, rule, ref amounts, .. } = cylinder.0;
    let [x0, xend, rtol, atol] = [x0, xend, rtol, atol].map(f64::from_bits);
    let start: Vec<f64> = amounts.iter().copied().map(f64::from_bits).collect();
    let rule = if rule == 0 { Rule::Rust } else { Rule::Book };
    let solver =
        RADAU::builder().mass_storage(MatrixStorage::Identity).max_steps(max_steps as usize).rule(rule).build();
    let mut shelf = Shelf::new();
    let run = solver.solve(&cylinder, x0, &start, xend, rtol.into(), atol.into(), Some(&mut shelf))?;
    let past = [14.0, 90.0, 365.0].map(|day| match shelf.at(day) {
        Some(amounts) => format!("day {day}: {:.3}\n", amounts[0]),
        None => format!("day {day}: no longer kept\n"),
    });
    Ok(format!("{}day {}: {:.3}, {} steps kept\n", past.concat(), run.x, run.y[0], shelf.len()))
}

fn main() -> Result<(), Box<dyn std::error::Error>> {
    let file = std::env::args().nth(1).unwrap_or_else(|| "../cylinders/nitric_oxide.sheet".to_string());
    print!("{}", shown(&std::fs::read(file)?)?);
    Ok(())
}
