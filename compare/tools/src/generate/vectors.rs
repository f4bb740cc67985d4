//! Random vectors: spread, clustered, equal, zero, tiny, huge, on a grid, of any finite pattern.
use crate::random::Random;

/// How the vectors of an index are made.
#[derive(Clone, Copy, Debug)]
pub enum Kind {
    Spread,
    Clustered,
    Few,
    Zeros,
    Tiny,
    Huge,
    Grid,
    Axis,
    Patterns,
    Mixed,
}

const KINDS: [Kind; 10] =
    [Kind::Spread, Kind::Clustered, Kind::Few, Kind::Zeros, Kind::Tiny, Kind::Huge, Kind::Grid, Kind::Axis, Kind::Patterns, Kind::Mixed];

/// Makes vectors of one kind and dimension.
pub struct Maker {
    kind: Kind,
    dimension: usize,
    centres: Vec<Vec<f32>>,
}

impl Maker {
    pub fn new(random: &mut Random, dimension: usize) -> Maker {
        let kind = *random.of(&KINDS);
        let count = random.from(1, 12);
        let centres = (0..count).map(|_| spread(random, dimension)).collect();
        Maker { kind, dimension, centres }
    }

    pub fn vector(&self, random: &mut Random) -> Vec<f32> {
        let kind = match self.kind {
            Kind::Mixed => *random.of(&KINDS[..9]),
            kind => kind,
        };
        let d = self.dimension;
        match kind {
            Kind::Few => random.of(&self.centres).clone(),
            Kind::Clustered => near(random, &self.centres),
            Kind::Zeros if !random.one_in(4) => (0..d).map(|_| zero(random)).collect(),
            Kind::Tiny => scaled(random, d, -150, -28),
            Kind::Huge => scaled(random, d, 50, 127),
            Kind::Grid => (0..d).map(|_| random.below(3) as f32 - 1.0).collect(),
            Kind::Axis => axis(random, d),
            Kind::Patterns => (0..d).map(|_| pattern(random)).collect(),
            _ => spread(random, d),
        }
    }
}

fn spread(random: &mut Random, d: usize) -> Vec<f32> {
    (0..d).map(|_| random.unit()).collect()
}

/// Near one of the centres.
fn near(random: &mut Random, centres: &[Vec<f32>]) -> Vec<f32> {
    let centre = random.of(centres).clone();
    centre.into_iter().map(|x| x + 0.05 * random.unit()).collect()
}

fn zero(random: &mut Random) -> f32 {
    if random.one_in(2) {
        return -0.0;
    }
    0.0
}

/// Components times one power of two, with an exponent from low to high.
fn scaled(random: &mut Random, d: usize, low: i32, high: i32) -> Vec<f32> {
    let exponent = low + random.below((high - low + 1) as usize) as i32;
    let scale = 2f64.powi(exponent);
    (0..d).map(|_| (f64::from(random.unit()) * scale) as f32).collect()
}

/// One component that is not zero.
fn axis(random: &mut Random, d: usize) -> Vec<f32> {
    let mut vector = vec![0.0; d];
    vector[random.below(d)] = random.unit();
    vector
}

/// Any finite pattern.
fn pattern(random: &mut Random) -> f32 {
    loop {
        let x = f32::from_bits(random.bits() as u32);
        if x.is_finite() {
            return x;
        }
    }
}
