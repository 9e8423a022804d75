//! Refused calls that no caller can bring about, since a matrix's lists and a step's are private: its pattern or its table of columns is
//! spoiled here, or a value cut off. They too leave the object and every list as they were.

use crate::{
    BlockMatrix, ConjugateGradient, Error, Refusal, SkylineCholesky, SoftFemParameters, Step,
    Tally, IDENTITY,
};
use std::fmt::Debug;

const BAD_PATTERN: Error = Error::Refused(Refusal::BadPattern);
const SHORT_BUFFER: Error = Error::Refused(Refusal::ShortBuffer);

const PARAMS: SoftFemParameters = SoftFemParameters {
    max_dense_dofs: 0,
    linear_tolerance: 1.0e-5,
    max_linear_iterations: 9,
};

/// A pair of particles, each held by itself.
fn sound() -> BlockMatrix {
    let mut matrix = BlockMatrix::from_pairs(2, &[(0, 1)]).unwrap();
    for row in 0..2 {
        let slot = matrix.diagonal[row] as usize;
        matrix.blocks[slot] = [[2.0, 0.0], [0.0, 4.0]];
    }
    matrix
}

/// With a diagonal recorded elsewhere, and with a value short; and what each is refused by.
fn spoiled() -> [(BlockMatrix, Error); 2] {
    let (mut elsewhere, mut short) = (sound(), sound());
    elsewhere.diagonal[0] = 1;
    short.blocks.pop();
    [(elsewhere, BAD_PATTERN), (short, SHORT_BUFFER)]
}

/// Makes a call that must be refused by this error and change nothing that `Debug` shows, which is every field.
fn refused<T: Debug, A: Debug + PartialEq>(
    object: &mut T,
    error: Error,
    call: impl FnOnce(&mut T) -> Result<A, Error>,
) {
    let before = format!("{object:?}");
    assert_eq!(call(object), Err(error));
    assert_eq!(format!("{object:?}"), before);
}

#[test]
fn a_matrix() {
    for (mut matrix, error) in spoiled() {
        refused(&mut matrix, error, BlockMatrix::clear_values);
        refused(&mut matrix, error, |m| m.make_dirichlet(0));
        refused(&mut matrix, error, |m| {
            m.make_dirichlet_marked(&[true, false])
        });
        let mut out = [[7.0, 8.0]; 2];
        refused(&mut matrix, error, |m| m.mul(&[[1.0, 1.0]; 2], &mut out));
        assert_eq!(out, [[7.0, 8.0]; 2]);
    }
}

#[test]
fn a_plan_and_a_factor() {
    for (matrix, error) in spoiled() {
        let mut direct = SkylineCholesky::new(&sound()).unwrap();
        assert!(direct.factorize(&sound()).unwrap().done());
        refused(&mut direct, error, |direct| direct.factorize(&matrix));
        let mut x = [[0.0; 2]; 2];
        assert_eq!(direct.solve(&[[2.0, 4.0]; 2], &mut x), Ok(()));
        assert!(x.as_flattened().iter().all(|x| (x - 1.0).abs() < 1.0e-6));
    }
    let [(matrix, _), _] = spoiled();
    assert_eq!(SkylineCholesky::new(&matrix).unwrap_err(), BAD_PATTERN);
}

#[test]
fn a_preconditioner() {
    let mut one = BlockMatrix::from_pairs(1, &[]).unwrap();
    one.blocks[0] = IDENTITY;
    // For as many particles as the spoiled matrix has, and for another number, whose room is made aside.
    for first in [sound(), one] {
        for (matrix, error) in spoiled() {
            let mut cg = ConjugateGradient::default();
            refused(&mut cg, error, |cg| cg.update_preconditioner(&matrix));
            cg.update_preconditioner(&first).unwrap();
            refused(&mut cg, error, |cg| cg.update_preconditioner(&matrix));
            let n = first.num_rows();
            let mut x = vec![[0.0; 2]; n];
            let outcome = cg.solve(&first, &vec![[2.0, 4.0]; n], &mut x, 0.0, 9);
            assert!(outcome.unwrap().solved());
        }
    }
}

#[test]
fn an_iterated_solve() {
    let mut cg = ConjugateGradient::default();
    cg.update_preconditioner(&sound()).unwrap();
    for (matrix, error) in spoiled() {
        let mut x = [[7.0, 8.0]; 2];
        refused(&mut cg, error, |cg| {
            cg.solve(&matrix, &[[1.0, 1.0]; 2], &mut x, 0.0, 9)
        });
        assert_eq!(x, [[7.0, 8.0]; 2]);
    }
}

#[test]
fn a_step_matrix() {
    let dense = SoftFemParameters {
        max_dense_dofs: 4,
        ..PARAMS
    };
    for params in [PARAMS, dense] {
        for (matrix, error) in spoiled() {
            let (mut step, mut tally) = (Step::new(&[false; 2]), Tally::default());
            // Without a plan a first one would be made of the spoiled pattern, whose values planning doesn't ask for.
            refused(&mut step, error, |step| {
                step.factorize_step_matrix(&matrix, &params)
            });
            assert!(step.factorize_step_matrix(&sound(), &params).is_ok());
            refused(&mut step, error, |step| {
                step.factorize_step_matrix(&matrix, &params)
            });
            let mut x = [[0.0; 2]; 2];
            let stepped = step.solve_step(&[[2.0, 4.0]; 2], &mut x, &params, &mut tally);
            assert!(stepped.unwrap().solved());
            assert!(x.as_flattened().iter().all(|x| (x - 1.0).abs() < 1.0e-6));
        }
    }
}

/// A step of two particles, both loaded, with their columns; then spoiled.
fn columns(spoil: impl FnOnce(&mut Step)) -> Step {
    let mut step = Step::new(&[false; 2]);
    assert!(step.factorize_step_matrix(&sound(), &PARAMS).is_ok());
    for particle in 0..2 {
        step.load_particle(particle).unwrap();
    }
    let computed = step.compute_columns(&PARAMS, &mut Tally::default());
    assert!(computed.unwrap().solved());
    spoil(&mut step);
    step
}

const BAD_PLAN: Error = Error::Refused(Refusal::BadPlan);

fn computing(step: &mut Step, error: Error) {
    let mut tally = Tally::default();
    refused(step, error, |step| {
        step.compute_columns(&PARAMS, &mut tally)
    });
    assert_eq!((tally.refused, tally.total()), (1, 1));
}

fn combining(step: &mut Step, error: Error) {
    let mut out = [[7.0, 8.0]; 4];
    refused(step, error, |step| {
        step.response_from_columns(&[(0, [1.0, 0.0])], &mut out[..2])
    });
    refused(step, error, |step| {
        step.particle_block_from_columns(0, &mut out)
    });
    assert_eq!(out, [[7.0, 8.0]; 4]);
}

#[test]
fn a_table_of_columns() {
    let twice = |step: &mut Step| step.column_of[0] = 1;
    let above = |step: &mut Step| step.column_of[1] = 2;
    let pinned_later = |step: &mut Step| step.pinned[0] = 1;
    for mut step in [columns(twice), columns(above), columns(pinned_later)] {
        refused(&mut step, BAD_PLAN, |step| step.load_particle(0));
        computing(&mut step, BAD_PLAN);
        combining(&mut step, BAD_PLAN);
        // Clearing asks nothing of a table, and makes a new one.
        assert_eq!(step.clear_columns(), Ok(()));
        assert_eq!(step.load_particle(1), Ok(()));
        computed_anew(&mut step);
    }
    let mut short = columns(|step| step.column_of.truncate(1));
    refused(&mut short, SHORT_BUFFER, |step| step.load_particle(0));
    refused(&mut short, SHORT_BUFFER, Step::clear_columns);
    computing(&mut short, SHORT_BUFFER);
    combining(&mut short, SHORT_BUFFER);
}

fn computed_anew(step: &mut Step) {
    let computed = step.compute_columns(&PARAMS, &mut Tally::default());
    assert!(computed.is_ok_and(|computed| computed.total() == 2));
}

#[test]
fn columns_or_their_matrix() {
    combining(&mut columns(|step| step.columns.truncate(7)), SHORT_BUFFER);
    let mut elsewhere = columns(|step| step.step_matrix.diagonal[0] = 1);
    computing(&mut elsewhere, BAD_PATTERN);
    // One particle less to compute: the columns before stay, whose room is another.
    elsewhere.column_of[1] = u32::MAX;
    elsewhere.num_columns = 1;
    computing(&mut elsewhere, BAD_PATTERN);
}
