//! A second reading of the conjugate gradient's loop, for what the Rust doesn't answer: the outcome,
//! its floats, and what rescaling came to.

use crate::call::Call;
use crate::gradient::settings;

/// By the rules' numbers (docs/RULES.md § 7, module 5).
#[derive(Clone, Copy, PartialEq, Eq, Debug)]
pub enum Outcome {
    Zero = 1,
    Near = 2,
    Converged = 3,
    Curvature = 4,
    Limit = 5,
}

/// What x was multiplied by, if the outcome rescales.
#[derive(Clone, Copy, PartialEq, Eq, Debug)]
pub enum Rescaled {
    Not,
    /// The denominator is at or below zero.
    Zeroed,
    /// The denominator is NaN.
    ByNan,
    /// The quotient is NaN and the denominator isn't.
    QuotientNan,
    /// Below 0 before the clamp, above 1 before it, and neither.
    Low,
    High,
    MinusZero,
    PlusZero,
    One,
    Between,
}

pub struct Reading {
    pub outcome: Outcome,
    pub count: usize,
    /// The running residual's squared length, but for Zero.
    pub norm: f32,
    /// Curvature's.
    pub denominator: f32,
    pub rescaled: Rescaled,
    pub b_norm: f32,
    pub x: Vec<f32>,
}

impl Reading {
    /// What the outcome carries.
    pub fn floats(&self) -> impl Iterator<Item = f32> {
        let carried = match self.outcome {
            Outcome::Zero => 0,
            Outcome::Curvature => 2,
            _ => 1,
        };
        [self.norm, self.denominator].into_iter().take(carried)
    }
}

struct System {
    n: usize,
    row_offsets: Vec<u32>,
    cols: Vec<u32>,
    blocks: Vec<f32>,
    preconditioner: Vec<f32>,
    b: Vec<f32>,
}

/// Two terms to a vector, added before they go to the sum.
fn dot(u: &[f32], v: &[f32]) -> f32 {
    let mut sum = 0.0;
    for k in (0..u.len()).step_by(2) {
        sum += u[k] * v[k] + u[k + 1] * v[k + 1];
    }
    sum
}

fn times(block: &[f32], v: &[f32]) -> [f32; 2] {
    [0, 1].map(|i| block[i] * v[0] + block[2 + i] * v[1])
}

impl System {
    fn product(&self, v: &[f32]) -> Vec<f32> {
        let mut out = Vec::new();
        for r in 0..self.n {
            let mut sum = [0.0; 2];
            for k in self.row_offsets[r] as usize..self.row_offsets[r + 1] as usize {
                let term = times(&self.blocks[4 * k..], &v[2 * self.cols[k] as usize..]);
                sum = [sum[0] + term[0], sum[1] + term[1]];
            }
            out.extend(sum);
        }
        out
    }

    fn preconditioned(&self, v: &[f32]) -> Vec<f32> {
        let one = |k| times(&self.preconditioner[4 * k..], &v[2 * k..]);
        (0..self.n).flat_map(one).collect()
    }

    fn rescale(&self, x: &mut [f32]) -> Rescaled {
        let denominator = dot(x, &self.product(x));
        if denominator <= 0.0 {
            x.fill(0.0);
            return Rescaled::Zeroed;
        }
        let quotient = dot(&self.b, x) / denominator;
        let (factor, rescaled) = if quotient < 0.0 {
            (0.0, Rescaled::Low)
        } else if quotient > 1.0 {
            (1.0, Rescaled::High)
        } else if denominator.is_nan() {
            (quotient, Rescaled::ByNan)
        } else if quotient.is_nan() {
            (quotient, Rescaled::QuotientNan)
        } else if quotient == 0.0 && quotient.is_sign_negative() {
            (quotient, Rescaled::MinusZero)
        } else if quotient == 0.0 {
            (quotient, Rescaled::PlusZero)
        } else if quotient == 1.0 {
            (quotient, Rescaled::One)
        } else {
            (quotient, Rescaled::Between)
        };
        if factor != 1.0 {
            x.iter_mut().for_each(|it| *it *= factor);
        }
        rescaled
    }

    /// From x: the outcome, the turns, the running residual's squared length and the denominator.
    fn run(&self, tolerance: f32, limit: usize, x: &mut [f32]) -> (Outcome, usize, f32, f32) {
        let b_norm = dot(&self.b, &self.b);
        if b_norm == 0.0 {
            x.fill(0.0);
            return (Outcome::Zero, 0, 0.0, 0.0);
        }
        let threshold = tolerance * tolerance * b_norm;
        let product = self.product(x);
        let mut r: Vec<f32> = self.b.iter().zip(product).map(|(b, p)| b - p).collect();
        let mut norm = dot(&r, &r);
        if norm <= threshold {
            return (Outcome::Near, 0, norm, 0.0);
        }
        let mut d = self.preconditioned(&r);
        let mut rz = dot(&r, &d);
        for turn in 0..limit {
            let ad = self.product(&d);
            let denominator = dot(&d, &ad);
            if denominator <= 0.0 || denominator.is_nan() {
                return (Outcome::Curvature, turn, norm, denominator);
            }
            let alpha = rz / denominator;
            for k in 0..2 * self.n {
                x[k] += d[k] * alpha;
                r[k] -= ad[k] * alpha;
            }
            norm = dot(&r, &r);
            if norm <= threshold {
                return (Outcome::Converged, turn + 1, norm, 0.0);
            }
            let z = self.preconditioned(&r);
            let next = dot(&r, &z);
            let beta = next / rz;
            rz = next;
            for k in 0..2 * self.n {
                d[k] = z[k] + d[k] * beta;
            }
        }
        (Outcome::Limit, limit, norm, 0.0)
    }
}

fn floats(bits: &[u32], length: usize) -> Vec<f32> {
    bits[..length].iter().copied().map(f32::from_bits).collect()
}

/// Of a solve that the rules accept.
pub fn of(call: &Call) -> Reading {
    let n = call.n();
    let (tolerance, limit) = settings(call);
    let [row_offsets, cols, _, blocks, preconditioner, b, x, ..] = &call.lists[..] else {
        unreachable!("a solve has eleven lists")
    };
    let system = System {
        n,
        row_offsets: row_offsets.clone(),
        cols: cols.clone(),
        blocks: floats(blocks, 4 * row_offsets[n] as usize),
        preconditioner: floats(preconditioner, 4 * n),
        b: floats(b, 2 * n),
    };
    let mut x = floats(x, 2 * n);
    let (outcome, count, norm, denominator) = system.run(tolerance, limit, &mut x);
    let rescaled = match outcome {
        Outcome::Curvature | Outcome::Limit => system.rescale(&mut x),
        _ => Rescaled::Not,
    };
    Reading {
        outcome,
        count,
        norm,
        denominator,
        rescaled,
        b_norm: dot(&system.b, &system.b),
        x,
    }
}
