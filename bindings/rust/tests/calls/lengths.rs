//! In the wrapper a list is for exactly as many particles as there are: a longer one would be a load that vanishes.

use crate::fixture::{factored, zeros, BRACKET, DENSE};
use bracket::{
    BlockMatrix, ConjugateGradient, Error, SkylineCholesky, SoftFemParameters, Step, Tally, Vector,
};

/// The bracket's particles.
const N: usize = 15;

/// One too few, one too many, none.
const WRONG: [usize; 3] = [N - 1, N + 1, 0];

const IMPOSSIBLE: SoftFemParameters = SoftFemParameters {
    linear_tolerance: f32::NAN,
    ..DENSE
};

fn list(length: usize) -> Vec<Vector> {
    vec![[5.0, 6.0]; length]
}

fn wrong<T>(list: &'static str, given: usize) -> Result<T, Error> {
    let needed = N;
    Err(Error::Length {
        list,
        needed,
        given,
    })
}

#[test]
fn of_a_product() {
    let (matrix, mut out) = (BRACKET.matrix().unwrap(), list(N));
    for given in WRONG {
        assert_eq!(matrix.mul(&list(given), &mut out), wrong("x", given));
        let mut short = list(given);
        assert_eq!(matrix.mul(&list(N), &mut short), wrong("out", given));
        assert_eq!(short, list(given));
    }
    assert_eq!(out, list(N));
    assert_eq!(matrix.mul(&list(N), &mut out), Ok(()));
}

#[test]
fn of_marks_to_pin_by() {
    let mut matrix = BRACKET.free_matrix().unwrap();
    for given in WRONG {
        let marks = vec![true; given];
        assert_eq!(matrix.make_dirichlet_marked(&marks), wrong("pinned", given));
    }
    assert_eq!(matrix, BRACKET.free_matrix().unwrap());
}

#[test]
fn of_a_direct_solve() {
    let matrix = BRACKET.matrix().unwrap();
    let mut direct = SkylineCholesky::new(&matrix).unwrap();
    assert!(direct.factorize(&matrix).unwrap().done());
    for given in WRONG {
        let mut x = list(N);
        assert_eq!(direct.solve(&list(given), &mut x), wrong("b", given));
        assert_eq!(x, list(N));
        let mut x = list(given);
        assert_eq!(direct.solve(&list(N), &mut x), wrong("x", given));
        assert_eq!(x, list(given));
    }
    assert_eq!(direct.solve(&list(N), &mut list(N)), Ok(()));
}

#[test]
fn of_a_plan_for_another_number_of_particles() {
    let matrix = BRACKET.matrix().unwrap();
    for given in WRONG {
        let other = BlockMatrix::from_pairs(given, &[]).unwrap();
        let mut direct = SkylineCholesky::new(&other).unwrap();
        assert_eq!(direct.factorize(&matrix), wrong("plan", given));
    }
}

#[test]
fn of_an_iterated_solve() {
    let matrix = BRACKET.matrix().unwrap();
    let mut cg = ConjugateGradient::default();
    cg.update_preconditioner(&matrix).unwrap();
    let mut solve = |b: usize, mut x: Vec<Vector>, tolerance| {
        let before = x.clone();
        let error = cg.solve(&matrix, &list(b), &mut x, tolerance, 5).map(drop);
        assert_eq!(x, before);
        error
    };
    for given in WRONG {
        // The wrapper's own tests come before the settings', which the proved call makes.
        for tolerance in [0.0, f32::NAN] {
            assert_eq!(solve(given, list(N), tolerance), wrong("b", given));
            assert_eq!(solve(N, list(given), tolerance), wrong("x", given));
        }
    }
}

#[test]
fn of_a_preconditioner_for_another_number_of_particles() {
    let matrix = BRACKET.matrix().unwrap();
    for given in WRONG {
        let mut cg = ConjugateGradient::default();
        let other = BlockMatrix::from_pairs(given, &[]).unwrap();
        cg.update_preconditioner(&other).unwrap();
        let solved = cg.solve(&matrix, &list(N), &mut list(N), 0.0, 5);
        assert_eq!(solved, wrong("preconditioner", given));
        cg.update_preconditioner(&matrix).unwrap();
        let solved = cg.solve(&matrix, &BRACKET.load(1.0), &mut zeros(), 1.0e-3, 100);
        assert!(solved.unwrap().solved());
    }
}

#[test]
fn of_a_step_and_its_matrix() {
    let matrix = BRACKET.matrix().unwrap();
    for given in WRONG {
        let mut step = Step::new(&vec![false; given]);
        let marked = step.factorize_step_matrix(&matrix, &DENSE);
        assert_eq!(marked, wrong("pinned", given));
        assert_eq!(step.marked(), None);
    }
}

#[test]
fn of_a_step_solve() {
    let (mut step, mut tally) = (factored(&DENSE), Tally::default());
    for given in WRONG {
        for params in [DENSE, IMPOSSIBLE] {
            let mut x = list(N);
            let stepped = step.solve_step(&list(given), &mut x, &params, &mut tally);
            assert_eq!((stepped, x), (wrong("b", given), list(N)));
            let mut x = list(given);
            let stepped = step.solve_step(&list(N), &mut x, &params, &mut tally);
            assert_eq!((stepped, x), (wrong("x", given), list(given)));
        }
    }
    assert_eq!((tally.refused, tally.total()), (12, 12));
}

/// Both before there are columns and after.
#[test]
fn of_a_combination_and_a_block() {
    let mut step = factored(&DENSE);
    for loaded in [false, true] {
        if loaded {
            step.load_particle(4).unwrap();
            let computed = step.compute_columns(&DENSE, &mut Tally::default());
            assert!(computed.unwrap().solved());
        }
        for given in WRONG {
            let mut out = list(given);
            let combined = step.response_from_columns(&[(N as u32, [1.0, 1.0])], &mut out);
            assert_eq!((combined, out), (wrong("out", given), list(given)));
        }
        for given in [N, 2 * N - 1, 2 * N + 1, 0] {
            let mut out = list(given);
            let block = step.particle_block_from_columns(N as u32, &mut out);
            let wanted = Error::Length {
                list: "out of both columns",
                needed: 2 * N,
                given,
            };
            assert_eq!((block, out), (Err(wanted), list(given)));
        }
    }
}

#[test]
fn of_a_response() {
    let (mut step, mut tally) = (factored(&DENSE), Tally::default());
    let above = [(N as u32, [1.0, 1.0]); 17];
    for given in WRONG {
        for (entries, params) in [(&above[..1], DENSE), (&above, IMPOSSIBLE), (&[], DENSE)] {
            let mut out = list(given);
            let responded = step.response_into(entries, &mut out, &params, &mut tally);
            assert_eq!((responded, out), (wrong("out", given), list(given)));
        }
    }
    assert_eq!((tally.refused, tally.total()), (9, 9));
}
