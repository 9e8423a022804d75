//! The conjugate gradient: how a solve ends, and what is refused.

use crate::fixture::single;
use crate::springs::Bracket;
use bracket::{BlockMatrix, ConjugateGradient, Error, Matrix, Outcome, Refusal, Vector, IDENTITY};

const BRACKET: Bracket = Bracket {
    columns: 5,
    rows: 4,
    mass: 1.0,
    stiffness: 6.0,
};

/// One particle's solve from zero, with tolerance 0 and the identity as preconditioner.
fn solve(block: Matrix, b: Vector, limit: usize) -> (Outcome, Vector) {
    let mut cg = ConjugateGradient::default();
    cg.update_preconditioner(&single(IDENTITY)).unwrap();
    let mut x = [[0.0; 2]];
    let outcome = cg.solve(&single(block), &[b], &mut x, 0.0, limit);
    (outcome.unwrap(), x[0])
}

/// A solver and matrix of the bracket, ready for solves.
fn prepared() -> (BlockMatrix, ConjugateGradient) {
    let matrix = BRACKET.matrix().unwrap();
    let mut cg = ConjugateGradient::default();
    cg.update_preconditioner(&matrix).unwrap();
    (matrix, cg)
}

#[test]
fn no_load_is_zero() {
    assert_eq!(
        solve(IDENTITY, [0.0, -0.0], 9),
        (Outcome::Zero { count: 0 }, [0.0, 0.0])
    );
}

#[test]
fn a_solve_that_is_solved_is_near() {
    let (matrix, mut cg) = prepared();
    let b = BRACKET.load(1.0);
    let mut x = vec![[0.0; 2]; b.len()];
    let first = cg.solve(&matrix, &b, &mut x, 1.0e-4, 100).unwrap();
    assert!(
        matches!(first, Outcome::Converged { count: 1.., .. }),
        "{first:?}"
    );
    let solution = x.clone();
    let again = cg.solve(&matrix, &b, &mut x, 1.0e-3, 100).unwrap();
    assert!(matches!(again, Outcome::Near { count: 0, .. }), "{again:?}");
    assert!(again.residual_squared() <= Some(1.0e-6 * 4.0));
    assert_eq!(x, solution);
}

#[test]
fn the_identity_converges_at_once() {
    let converged = Outcome::Converged {
        count: 1,
        residual_squared: 0.0,
    };
    assert_eq!(solve(IDENTITY, [3.0, 4.0], 1), (converged, [3.0, 4.0]));
}

#[test]
fn a_matrix_that_is_not_definite_ends_by_its_curvature() {
    let opposite = [[-1.0, 0.0], [0.0, -1.0]];
    let at_once = Outcome::Curvature {
        count: 0,
        residual_squared: 1.0,
        denominator: -1.0,
    };
    assert_eq!(solve(opposite, [1.0, 0.0], 5), (at_once, [0.0, 0.0]));
    let singular = [[1.0, 0.0], [0.0, 0.0]];
    let later = Outcome::Curvature {
        count: 1,
        residual_squared: 2.0,
        denominator: 0.0,
    };
    assert_eq!(solve(singular, [1.0, 1.0], 5), (later, [2.0, 2.0]));
}

#[test]
fn a_limit_is_told_from_a_solution() {
    let (outcome, x) = solve(IDENTITY, [3.0, 4.0], 0);
    assert_eq!(
        outcome,
        Outcome::Limit {
            count: 0,
            residual_squared: 25.0
        }
    );
    assert_eq!(x, [0.0, 0.0]);
    let (outcome, _) = solve([[1.0, 0.0], [0.0, 2.0]], [3.0, 4.0], 1);
    assert!(
        matches!(outcome, Outcome::Limit { count: 1, .. }),
        "{outcome:?}"
    );
}

#[test]
fn a_better_tolerance_takes_more_turns() {
    let (matrix, mut cg) = prepared();
    let b = BRACKET.load(1.0);
    let counts = [1.0e-1, 1.0e-3, 1.0e-5].map(|tolerance| {
        let mut x = vec![[0.0; 2]; b.len()];
        cg.solve(&matrix, &b, &mut x, tolerance, 4096)
            .unwrap()
            .count()
    });
    assert!(counts[0] < counts[1] && counts[1] < counts[2], "{counts:?}");
}

#[test]
fn a_singular_block_is_preconditioned_by_the_identity() {
    let mut cg = ConjugateGradient::default();
    cg.update_preconditioner(&single([[0.0; 2]; 2])).unwrap();
    let mut x = [[0.0; 2]];
    let outcome = cg.solve(&single(IDENTITY), &[[3.0, 4.0]], &mut x, 0.0, 1);
    assert_eq!(
        outcome,
        Ok(Outcome::Converged {
            count: 1,
            residual_squared: 0.0
        })
    );
}

#[test]
fn settings_are_checked() {
    let (matrix, mut cg) = prepared();
    let b = BRACKET.load(1.0);
    let mut x = vec![[2.0; 2]; b.len()];
    for (tolerance, limit) in [(-1.0, 5), (f32::NAN, 5), (f32::INFINITY, 5), (0.0, 4097)] {
        let refused = cg.solve(&matrix, &b, &mut x, tolerance, limit);
        assert_eq!(refused, Err(Error::Refused(Refusal::BadSettings)));
    }
    assert_eq!(x, vec![[2.0; 2]; b.len()]);
    assert!(cg.solve(&matrix, &b, &mut x, -0.0, 4096).is_ok());
}
