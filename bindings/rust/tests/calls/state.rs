//! What an object knows of itself: whether it has a plan, a factor, a preconditioner, a matrix.

use crate::fixture::{factored, single, zeros, BRACKET, DENSE, SPARSE};
use bracket::{
    BlockMatrix, ConjugateGradient, Error, Factored, Marked, Outcome, Responded, SkylineCholesky,
    SoftFemParameters, Step, Stepped, Tally, IDENTITY,
};

/// A matrix whose factorization ends at its second row, by a pivot of 0.
fn singular() -> BlockMatrix {
    single([[1.0, 2.0], [2.0, 4.0]])
}

const FAILED: Factored = Factored::Failed { row: 1, pivot: 0.0 };
const FACTOR_FAILED: Error = Error::FactorFailed { row: 1, pivot: 0.0 };

#[test]
fn a_solver_without_a_plan_says_so() {
    let mut direct = SkylineCholesky::default();
    assert!(!direct.planned());
    assert_eq!(
        direct.factorize(&BlockMatrix::default()),
        Err(Error::NoPlan)
    );
    assert_eq!(direct.solve(&[], &mut []), Err(Error::NoPlan));
    assert_eq!(direct.factored(), None);
}

#[test]
fn a_plan_without_a_factor_says_so() {
    let matrix = single(IDENTITY);
    let mut direct = SkylineCholesky::new(&matrix).unwrap();
    let mut x = [[7.0, 7.0]];
    assert_eq!(direct.solve(&[[3.0, 4.0]], &mut x), Err(Error::NotFactored));
    assert_eq!(
        (direct.planned(), direct.factored(), x),
        (true, None, [[7.0, 7.0]])
    );
    assert_eq!(direct.factorize(&matrix), Ok(Factored::Done));
    assert_eq!(direct.solve(&[[3.0, 4.0]], &mut x), Ok(()));
    assert_eq!((direct.factored(), x), (Some(Factored::Done), [[3.0, 4.0]]));
}

#[test]
fn a_factor_that_failed_solves_nothing() {
    let mut direct = SkylineCholesky::new(&singular()).unwrap();
    let mut x = [[7.0, 7.0]];
    for matrix in [single(IDENTITY), singular()] {
        assert!(direct.factorize(&matrix).is_ok());
    }
    assert_eq!(direct.factored(), Some(FAILED));
    assert_eq!(direct.solve(&[[3.0, 4.0]], &mut x), Err(FACTOR_FAILED));
    assert_eq!(x, [[7.0, 7.0]]);
    // A refused factorization changes nothing about that; an accepted one does.
    assert!(direct.factorize(&BRACKET.matrix().unwrap()).is_err());
    assert_eq!(direct.solve(&[[3.0, 4.0]], &mut x), Err(FACTOR_FAILED));
    assert_eq!(direct.factorize(&single(IDENTITY)), Ok(Factored::Done));
    assert_eq!(direct.solve(&[[3.0, 4.0]], &mut x), Ok(()));
}

#[test]
fn a_factor_of_no_particles_is_one() {
    let none = BlockMatrix::default();
    let mut direct = SkylineCholesky::new(&none).unwrap();
    assert_eq!(direct.solve(&[], &mut []), Err(Error::NotFactored));
    assert_eq!(direct.factorize(&none), Ok(Factored::Done));
    assert_eq!(direct.solve(&[], &mut []), Ok(()));
}

#[test]
fn a_solver_without_a_preconditioner_says_so() {
    let matrix = BRACKET.matrix().unwrap();
    let b = BRACKET.load(1.0);
    let mut x = b.clone();
    let mut cg = ConjugateGradient::default();
    let solved = cg.solve(&matrix, &b, &mut x, 0.0, 5);
    assert_eq!((solved, x), (Err(Error::NoPreconditioner), b));
    let none = BlockMatrix::default();
    let solved = cg.solve(&none, &[], &mut [], 0.0, 5);
    assert_eq!(solved, Err(Error::NoPreconditioner));
    cg.update_preconditioner(&none).unwrap();
    let solved = cg.solve(&none, &[], &mut [], 0.0, 5);
    assert_eq!(solved, Ok(Outcome::Zero { count: 0 }));
}

#[test]
fn a_step_without_a_matrix_says_so() {
    let (mut step, mut tally) = (Step::new(&BRACKET.pinned()), Tally::default());
    let b = BRACKET.load(1.0);
    let mut x = b.clone();
    for params in [DENSE, SPARSE] {
        let stepped = step.solve_step(&b, &mut x, &params, &mut tally);
        assert_eq!(stepped, Err(Error::NoMatrix));
        let responded = step.response_into(&[], &mut x, &params, &mut tally);
        assert_eq!(responded, Err(Error::NoMatrix));
    }
    assert_eq!((x, tally.refused, step.marked()), (b, 4, None));
    let stepped = Step::default().solve_step(&[], &mut [], &DENSE, &mut tally);
    assert_eq!(stepped, Err(Error::NoMatrix));
}

#[test]
fn a_step_of_no_particles_is_one() {
    let (mut step, mut tally) = (Step::default(), Tally::default());
    let marked = step.factorize_step_matrix(&BlockMatrix::default(), &SPARSE);
    assert_eq!(marked, Ok(Marked::Direct));
    let stepped = step.solve_step(&[], &mut [], &SPARSE, &mut tally);
    assert_eq!(stepped, Ok(Stepped::Direct));
    let responded = step.response_into(&[], &mut [], &SPARSE, &mut tally);
    assert_eq!(responded, Ok(Responded::Nothing));
}

/// One whose factor failed is no error: the step iterates then, by the rules.
#[test]
fn a_step_knows_how_its_matrix_was_factored() {
    let mut step = Step::new(&[false]);
    let above = SoftFemParameters {
        max_dense_dofs: 1,
        ..DENSE
    };
    for (matrix, params, known) in [
        (single(IDENTITY), DENSE, Some(Factored::Done)),
        (singular(), DENSE, Some(FAILED)),
        (single(IDENTITY), above, None),
    ] {
        let marked = step.factorize_step_matrix(&matrix, &params).unwrap();
        assert_eq!((step.marked(), marked.factored()), (Some(marked), known));
        let mut tally = Tally::default();
        let stepped = step.solve_step(&[[1.0, 2.0]], &mut [[0.0; 2]], &params, &mut tally);
        let direct = stepped.unwrap() == Stepped::Direct;
        assert_eq!(direct, known == Some(Factored::Done));
    }
}

/// Without a preconditioner an iteration would end by its curvature, which says nothing of the matrix; without a plan the proved call
/// refuses a short list, which nobody lent.
#[test]
fn a_step_asked_by_other_settings_says_what_it_lacks() {
    let (b, mut x, mut tally) = (BRACKET.load(1.0), zeros(), Tally::default());
    for (by, asked, lacks) in [
        (SPARSE, DENSE, Error::NoPlan),
        (DENSE, SPARSE, Error::NoPreconditioner),
    ] {
        let mut step = factored(&by);
        let stepped = step.solve_step(&b, &mut x, &asked, &mut tally);
        assert_eq!(stepped, Err(lacks));
        let responded = step.response_into(&[(1, [1.0, 0.0])], &mut x, &asked, &mut tally);
        assert_eq!(responded, Err(lacks));
        assert_eq!(x, zeros());
        // Once the matrix was factored by both, the step has both.
        let matrix = BRACKET.matrix().unwrap();
        assert!(step.factorize_step_matrix(&matrix, &asked).is_ok());
        for params in [DENSE, SPARSE] {
            let stepped = step.solve_step(&b, &mut zeros(), &params, &mut tally);
            assert!(stepped.unwrap().solved());
        }
    }
    assert_eq!((tally.refused, tally.total()), (4, 8));
}
