//! Why a call of the wrapper failed: by a refusal of the proved code, or by what the wrapper itself can tell beforehand.

use crate::{Factored, Refusal};
use std::fmt;

/// What stood against a call. The object and every list are as they were before it.
#[derive(Clone, Copy, Debug, PartialEq)]
#[must_use = "a call that failed did nothing"]
pub enum Error {
    /// The proved call refused.
    Refused(Refusal),
    /// A list is for another number of particles. Of an `out of both columns` the vectors are counted, two for each particle.
    Length {
        list: &'static str,
        needed: usize,
        given: usize,
    },
    /// A solver made by `default()`, or a step whose matrix was accepted without need for a plan.
    NoPlan,
    /// A plan without a factor.
    NotFactored,
    /// The last factorization ended at this row of the plan's order, by this pivot.
    FactorFailed { row: usize, pivot: f32 },
    /// A solve before the first preconditioner.
    NoPreconditioner,
    /// A step before its first matrix.
    NoMatrix,
    /// Loaded particles without columns of the step's matrix: one was loaded, or a matrix factored, since they were last computed.
    NotComputed,
    /// The pattern stores no such block.
    NoBlock { row: u32, col: u32 },
}

impl Error {
    /// The refusal's number; none if the wrapper itself turned the call down.
    #[must_use]
    pub fn number(&self) -> Option<u8> {
        match self {
            Self::Refused(refusal) => Some(refusal.number()),
            _ => None,
        }
    }
}

/// Whether a list is for exactly as many particles as needed.
pub(crate) fn exact(list: &'static str, needed: usize, given: usize) -> Result<(), Error> {
    if given == needed {
        return Ok(());
    }
    Err(Error::Length {
        list,
        needed,
        given,
    })
}

/// What to do about a refusal.
fn remedy(refusal: Refusal) -> &'static str {
    match refusal {
        Refusal::TooManyParticles => "make the model smaller",
        Refusal::TooManyEntries => "hand over or load fewer",
        Refusal::ShortBuffer => "lend a longer one",
        Refusal::OutOfRange => "number the particles from 0 to n - 1",
        Refusal::BadPattern => "build it by from_pairs",
        Refusal::BadPlan => {
            "plan this matrix anew, by SkylineCholesky::new or a new Step; or clear the columns and load anew"
        }
        Refusal::LongEnvelope => "iterate instead, by ConjugateGradient or a lower max_dense_dofs",
        Refusal::BadSettings => "change the settings",
        Refusal::BadText => "change the text",
    }
}

/// The list of a particle's block: its length is told in vectors.
pub(crate) const BOTH_COLUMNS: &str = "out of both columns";

/// What to do about a list for another number of particles, after the length that was given.
fn exchange(f: &mut fmt::Formatter<'_>, list: &str, needed: usize) -> fmt::Result {
    write!(f, " where {needed} are needed; ")?;
    match list {
        BOTH_COLUMNS => f.write_str("hand over two vectors for each particle"),
        "preconditioner" => f.write_str("call update_preconditioner with this matrix"),
        "plan" => f.write_str("plan this matrix by SkylineCholesky::new"),
        _ => write!(f, "hand over one for exactly {needed}"),
    }
}

const NO_PLAN: &str = "there is no plan; plan the matrix by SkylineCholesky::new, \
    or factor the step's matrix by these settings";
const NO_PRECONDITIONER: &str = "there is no preconditioner yet; call update_preconditioner, \
    or factor the step's matrix by these settings";
const NOT_COMPUTED: &str = "the loaded particles have no columns of the step's matrix; \
    call compute_columns";

impl fmt::Display for Error {
    fn fmt(&self, f: &mut fmt::Formatter<'_>) -> fmt::Result {
        match *self {
            Self::Refused(refusal) => {
                let (number, todo) = (refusal.number(), remedy(refusal));
                write!(f, "refused by number {number}: {refusal}; {todo}")
            }
            Self::Length {
                list,
                needed,
                given,
            } => {
                match list {
                    BOTH_COLUMNS => write!(f, "`out` has {given} vectors")?,
                    _ => write!(f, "`{list}` is for {given} particles")?,
                }
                exchange(f, list, needed)
            }
            Self::NoPlan => f.write_str(NO_PLAN),
            Self::NotFactored => f.write_str("there is no factor yet; call factorize"),
            Self::FactorFailed { row, pivot } => {
                let factored = Factored::Failed { row, pivot };
                write!(f, "{factored}; factorize another matrix, or iterate")
            }
            Self::NoPreconditioner => f.write_str(NO_PRECONDITIONER),
            Self::NoMatrix => f.write_str("the step has no matrix; call factorize_step_matrix"),
            Self::NotComputed => f.write_str(NOT_COMPUTED),
            Self::NoBlock { row, col } => {
                write!(f, "the pattern has no block ({row}, {col}); ")?;
                f.write_str("name the pair to from_pairs")
            }
        }
    }
}

impl std::error::Error for Error {}

impl From<Refusal> for Error {
    fn from(refusal: Refusal) -> Self {
        Self::Refused(refusal)
    }
}
