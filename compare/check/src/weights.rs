//! Weights to lend: of every kind that number 18 accepts or turns away.

use crate::rng::Rng;
use std::fmt;

/// Lent weights, 128 or not. A report shows how many there are and which are not 1.
#[derive(Clone, PartialEq, Eq)]
pub struct Weights(pub Vec<u8>);

impl fmt::Debug for Weights {
    fn fmt(&self, f: &mut fmt::Formatter) -> fmt::Result {
        write!(f, "{} of 1", self.0.len())?;
        for (i, w) in self.0.iter().enumerate().filter(|(_, &w)| w != 1) {
            write!(f, ", [{i}] {w}")?;
        }
        Ok(())
    }
}

pub fn all(weight: u8) -> Weights {
    Weights(vec![weight; 128])
}

/// Another weight for each of the low seven bits, so that one looked up elsewhere shows.
pub fn distinct() -> Weights {
    Weights((0..128).map(|i| 255 - 2 * i).collect())
}

pub fn random(rng: &mut Rng) -> Weights {
    Weights((0..128).map(|_| 1 + rng.below(255) as u8).collect())
}

/// With so many zeros at the most.
pub fn zeros(rng: &mut Rng, many: usize) -> Weights {
    let mut weights = random(rng);
    for _ in 0..many {
        let i = if rng.once_in(4) { rng.pick(&[0, 1, 82, 83, 126, 127]) } else { rng.below(128) };
        weights.0[i] = 0;
    }
    weights
}

/// Too few or too many, at times with a zero among them.
pub fn miscounted(rng: &mut Rng) -> Weights {
    let n = rng.pick(&[0, 1, 2, 64, 127, 129, 130, 255, 256, 257, 384]);
    let mut weights = Weights((0..n).map(|_| 1 + rng.below(255) as u8).collect());
    if n > 0 && rng.once_in(2) {
        weights.0[rng.below(n)] = 0;
    }
    weights
}

/// Weights that are accepted: random, few and so often equal in sum, all 1, all 255.
pub fn sound(rng: &mut Rng) -> Weights {
    match rng.below(8) {
        0 => all(1),
        1 => all(255),
        2 => distinct(),
        3 => Weights((0..128).map(|_| 1 + rng.below(3) as u8).collect()),
        4 => Weights((0..128).map(|_| rng.pick(&[1, 255])).collect()),
        _ => random(rng),
    }
}

/// Any, one in eight turned away.
pub fn any(rng: &mut Rng) -> Weights {
    match rng.below(24) {
        0 => zeros(rng, 1),
        1 => {
            let many = 2 + rng.below(127);
            zeros(rng, many)
        }
        2 => miscounted(rng),
        _ => sound(rng),
    }
}

/// With these weights made 1; a zero and the count stay.
pub fn plain(weights: &Weights, at: impl Fn(usize) -> bool) -> Weights {
    let one = |(i, &w): (usize, &u8)| if at(i) { w.min(1) } else { w };
    Weights(weights.0.iter().enumerate().map(one).collect())
}

/// With one weight, or all, made 1.
pub fn smaller(weights: &Weights) -> Vec<Weights> {
    let mut each = vec![plain(weights, |_| true)];
    each.extend((0..weights.0.len()).map(|i| plain(weights, |j| i == j)));
    each.retain(|w| w != weights);
    each
}
