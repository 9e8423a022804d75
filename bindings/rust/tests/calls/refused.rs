//! A call that fails leaves the object and every lent list as they were: a test for each method, of columns in columns.rs. The next good
//! call gives bit for bit what it gave before. What no caller can bring about is tried from inside, in src/spoiled.rs.

use crate::fixture::{close, factored, scaled, single, zeros, BRACKET, DENSE, SPARSE};
use bracket::{
    BlockMatrix, ConjugateGradient, Error, Factored, Marked, Refusal, SkylineCholesky,
    SoftFemParameters, Step, Tally, Vector, IDENTITY,
};
use std::fmt::Debug;

/// What a call answers and leaves in the list that it's lent.
pub fn shown<T: Debug>(mut list: Vec<Vector>, call: impl FnOnce(&mut [Vector]) -> T) -> String {
    let answer = call(&mut list);
    let bits: Vec<u32> = list.as_flattened().iter().map(|x| x.to_bits()).collect();
    format!("{answer:?} {bits:?}")
}

/// Makes a bad call, which must fail by `wanted`, between two good ones. `Debug` shows every field, to the bit.
pub fn stays<T: Debug, A: Debug + PartialEq>(
    object: &mut T,
    good: impl Fn(&mut T) -> String,
    wanted: Error,
    bad: impl FnOnce(&mut T, &mut [Vector]) -> Result<A, Error>,
) {
    let answered = good(object);
    let before = format!("{object:?}");
    let mut list = [[-0.0, 7.0]; N];
    assert_eq!(bad(object, &mut list), Err(wanted));
    assert_eq!(format!("{object:?}"), before);
    assert_eq!(format!("{list:?}"), format!("{:?}", [[-0.0, 7.0]; N]));
    assert_eq!(good(object), answered);
}

/// The bracket's particles.
const N: usize = 15;

const OUT_OF_RANGE: Error = Error::Refused(Refusal::OutOfRange);
const BAD_SETTINGS: Error = Error::Refused(Refusal::BadSettings);
const BAD_PLAN: Error = Error::Refused(Refusal::BadPlan);

fn length(list: &'static str, given: usize) -> Error {
    let needed = N;
    Error::Length {
        list,
        needed,
        given,
    }
}

/// As many particles as the bracket, all of them paired, so that its plan doesn't fit.
fn complete() -> BlockMatrix {
    let pairs: Vec<_> = (1..15).flat_map(|b| (0..b).map(move |a| (a, b))).collect();
    let mut matrix = BlockMatrix::from_pairs(15, &pairs).unwrap();
    for particle in 0..15 {
        *matrix.block_mut(particle, particle).unwrap() = [[3.0, 0.0], [0.0, 3.0]];
    }
    matrix
}

// ---- The matrix ----

fn product(matrix: &mut BlockMatrix) -> String {
    let load = BRACKET.load(1.0);
    shown(zeros(), |out| matrix.mul(&load, out))
}

/// Makes a bad call of the bracket's matrix.
fn matrix_stays(wanted: Error, bad: fn(&mut BlockMatrix) -> Result<(), Error>) {
    let matrix = &mut BRACKET.matrix().unwrap();
    stays(matrix, product, wanted, |matrix, _| bad(matrix));
}

#[test]
fn pinning() {
    matrix_stays(OUT_OF_RANGE, |m| m.make_dirichlet(15));
    matrix_stays(OUT_OF_RANGE, |m| m.make_dirichlet(u32::MAX));
    matrix_stays(length("pinned", 14), |m| {
        m.make_dirichlet_marked(&[true; 14])
    });
    matrix_stays(length("pinned", 16), |m| {
        m.make_dirichlet_marked(&[true; 16])
    });
}

#[test]
fn slots_and_rows() {
    matrix_stays(OUT_OF_RANGE, |m| m.block_index(15, 0).map(drop));
    matrix_stays(OUT_OF_RANGE, |m| m.diagonal_index(15).map(drop));
    matrix_stays(OUT_OF_RANGE, |m| m.block(15, 0).map(drop));
    matrix_stays(OUT_OF_RANGE, |m| m.block_mut(15, 0).map(drop));
    matrix_stays(OUT_OF_RANGE, |m| {
        m.for_each_block_of_row(15, |_, _| unreachable!())
    });
    let absent = Error::NoBlock { row: 0, col: 14 };
    matrix_stays(absent, |m| m.block(0, 14).map(drop));
    matrix_stays(absent, |m| m.block_mut(0, 14).map(drop));
}

#[test]
fn a_product() {
    let matrix = &mut BRACKET.matrix().unwrap();
    let x = [[1.0; 2]; N];
    stays(matrix, product, length("x", 14), |m, out| {
        m.mul(&x[1..], out)
    });
    stays(matrix, product, length("out", 14), |m, out| {
        m.mul(&x, &mut out[1..])
    });
}

// ---- The direct solver ----

fn direct_solve(direct: &mut SkylineCholesky) -> String {
    let load = BRACKET.load(1.0);
    shown(zeros(), |x| direct.solve(&load, x))
}

/// With a whole factor, and with one that failed, which leaves something else in the values.
fn directs() -> [SkylineCholesky; 2] {
    let matrix = BRACKET.matrix().unwrap();
    let mut whole = SkylineCholesky::new(&matrix).unwrap();
    let mut failed = whole.clone();
    assert!(whole.factorize(&matrix).unwrap().done());
    assert!(!failed.factorize(&scaled(&matrix, -1.0)).unwrap().done());
    [whole, failed]
}

#[test]
fn a_factorization() {
    for mut direct in directs() {
        stays(&mut direct, direct_solve, BAD_PLAN, |direct, _| {
            direct.factorize(&complete())
        });
        let other = Error::Length {
            list: "plan",
            needed: 1,
            given: 15,
        };
        stays(&mut direct, direct_solve, other, |direct, _| {
            direct.factorize(&single(IDENTITY))
        });
    }
}

#[test]
fn a_direct_solve() {
    let [mut whole, mut failed] = directs();
    let load = BRACKET.load(2.0);
    stays(&mut whole, direct_solve, length("b", 14), |direct, x| {
        direct.solve(&load[1..], x)
    });
    stays(&mut whole, direct_solve, length("x", 14), |direct, x| {
        direct.solve(&load, &mut x[1..])
    });
    let Some(Factored::Failed { row, pivot }) = failed.factored() else {
        panic!("{failed:?}")
    };
    let wanted = Error::FactorFailed { row, pivot };
    stays(&mut failed, direct_solve, wanted, |direct, x| {
        direct.solve(&load, x)
    });
}

// ---- The conjugate gradient ----

fn iterated_solve(cg: &mut ConjugateGradient) -> String {
    let (matrix, load) = (BRACKET.matrix().unwrap(), BRACKET.load(1.0));
    shown(zeros(), |x| cg.solve(&matrix, &load, x, 1.0e-5, 200))
}

#[test]
fn an_iterated_solve() {
    let (matrix, load) = (BRACKET.matrix().unwrap(), BRACKET.load(2.0));
    let cg = &mut ConjugateGradient::default();
    cg.update_preconditioner(&matrix).unwrap();
    for (tolerance, limit) in [(-1.0, 5), (f32::NAN, 5), (0.0, 4097)] {
        stays(cg, iterated_solve, BAD_SETTINGS, |cg, x| {
            cg.solve(&matrix, &load, x, tolerance, limit)
        });
    }
    stays(cg, iterated_solve, length("b", 14), |cg, x| {
        cg.solve(&matrix, &load[1..], x, 0.0, 5)
    });
    stays(cg, iterated_solve, length("x", 14), |cg, x| {
        cg.solve(&matrix, &load, &mut x[1..], 0.0, 5)
    });
    let other = Error::Length {
        list: "preconditioner",
        needed: 1,
        given: 15,
    };
    stays(cg, iterated_solve, other, |cg, x| {
        cg.solve(&single(IDENTITY), &load[..1], &mut x[..1], 0.0, 5)
    });
}

#[test]
fn an_iterated_solve_before_there_is_a_preconditioner() {
    let (matrix, load) = (BRACKET.matrix().unwrap(), BRACKET.load(2.0));
    let cg = &mut ConjugateGradient::default();
    stays(cg, iterated_solve, Error::NoPreconditioner, |cg, x| {
        cg.solve(&matrix, &load, x, 0.0, 5)
    });
}

// ---- The step ----

/// A step solve and a response, by these settings.
fn step_solves(params: SoftFemParameters) -> impl Fn(&mut Step) -> String {
    move |step| {
        let (load, mut tally) = (BRACKET.load(1.0), Tally::default());
        let solved = shown(zeros(), |x| step.solve_step(&load, x, &params, &mut tally));
        let entries = [(BRACKET.particle(4, 0), [1.0, 2.0])];
        let responded = shown(zeros(), |out| {
            step.response_into(&entries, out, &params, &mut tally)
        });
        format!("{solved} {responded} {tally}")
    }
}

/// Steps with a factor, with a failed one and without one, and their settings.
fn steps() -> [(Step, SoftFemParameters); 3] {
    let mut failed = Step::new(&BRACKET.pinned());
    let negative = scaled(&BRACKET.matrix().unwrap(), -1.0);
    let marked = failed.factorize_step_matrix(&negative, &DENSE);
    assert!(matches!(marked, Ok(Marked::Failed { .. })), "{marked:?}");
    [
        (factored(&DENSE), DENSE),
        (failed, DENSE),
        (factored(&SPARSE), SPARSE),
    ]
}

#[test]
fn a_step_matrix_for_another_number_of_particles() {
    let wanted = Error::Length {
        list: "pinned",
        needed: 1,
        given: 15,
    };
    for (mut step, params) in steps() {
        stays(&mut step, step_solves(params), wanted, |step, _| {
            step.factorize_step_matrix(&single(IDENTITY), &params)
        });
    }
}

#[test]
fn a_step_matrix_that_the_plan_does_not_fit() {
    let [whole, failed, _] = steps();
    for (mut step, params) in [whole, failed] {
        stays(&mut step, step_solves(params), BAD_PLAN, |step, _| {
            step.factorize_step_matrix(&complete(), &params)
        });
    }
}

/// The next step solve is of the matrix that was accepted, and not of the refused one.
#[test]
fn a_step_matrix_that_is_refused_is_not_solved() {
    let (mut step, mut tally) = (factored(&DENSE), Tally::default());
    let refused = step.factorize_step_matrix(&complete(), &DENSE);
    assert_eq!(refused, Err(BAD_PLAN));
    let (load, mut x, mut loaded) = (BRACKET.load(1.0), zeros(), zeros());
    let stepped = step.solve_step(&load, &mut x, &DENSE, &mut tally);
    assert!(stepped.unwrap().solved());
    BRACKET.matrix().unwrap().mul(&x, &mut loaded).unwrap();
    assert!(close(&loaded, &load), "{loaded:?}");
}

/// All of 91 particles paired: the envelope is too long.
fn wide() -> BlockMatrix {
    let pairs: Vec<_> = (1..91).flat_map(|b| (0..b).map(move |a| (a, b))).collect();
    let mut matrix = BlockMatrix::from_pairs(91, &pairs).unwrap();
    for particle in 0..91 {
        *matrix.block_mut(particle, particle).unwrap() = [[2.0, 0.0], [0.0, 4.0]];
    }
    matrix
}

#[test]
fn a_first_step_matrix_with_a_long_envelope() {
    let within = SoftFemParameters {
        max_dense_dofs: 182,
        ..DENSE
    };
    let ask = |step: &mut Step| {
        let mut tally = Tally::default();
        let solved = shown(vec![[0.0; 2]; 91], |x| {
            step.solve_step(&[[1.0, 1.0]; 91], x, &SPARSE, &mut tally)
        });
        format!("{solved} {tally}")
    };
    let refuse = |step: &mut Step, _: &mut [Vector]| {
        step.factorize_step_matrix(&scaled(&wide(), 2.0), &within)
    };
    let wanted = Error::Refused(Refusal::LongEnvelope);
    let mut step = Step::new(&[false; 91]);
    // Without a matrix the step goes on to say so; with one it goes on to solve that.
    assert!(ask(&mut step).starts_with("Err(NoMatrix)"));
    stays(&mut step, ask, wanted, refuse);
    let marked = step.factorize_step_matrix(&wide(), &SPARSE);
    assert_eq!(marked, Ok(Marked::Iterative));
    assert!(ask(&mut step).starts_with("Ok(Iterated(Converged"));
    stays(&mut step, ask, wanted, refuse);
}

#[test]
fn a_step_solve() {
    for (mut step, params) in steps() {
        let load = BRACKET.load(3.0);
        let mut refuse = |wanted, b: &[Vector], places: usize, params: &SoftFemParameters| {
            stays(&mut step, step_solves(*params), wanted, |step, x| {
                let mut tally = Tally::default();
                let stepped = step.solve_step(b, &mut x[..places], params, &mut tally);
                assert_eq!(tally.counts(), [0, 0, 0, 0, 0, 0, 1]);
                stepped
            });
        };
        refuse(length("b", 14), &load[1..], 15, &params);
        refuse(length("x", 14), &load, 14, &params);
        for (linear_tolerance, max_linear_iterations) in [(-1.0, 5), (f32::NAN, 5), (0.0, 4097)] {
            let impossible = SoftFemParameters {
                linear_tolerance,
                max_linear_iterations,
                ..params
            };
            refuse(BAD_SETTINGS, &load, 15, &impossible);
        }
    }
}

#[test]
fn a_response() {
    for (mut step, params) in steps() {
        let mut refuse = |wanted, entries: &[(u32, Vector)], places: usize| {
            stays(&mut step, step_solves(params), wanted, |step, out| {
                let mut tally = Tally::default();
                let out = &mut out[..places];
                let responded = step.response_into(entries, out, &params, &mut tally);
                assert_eq!(tally.counts(), [0, 0, 0, 0, 0, 0, 1]);
                responded
            });
        };
        let many = [(1, [1.0, 1.0]); 17];
        refuse(Error::Refused(Refusal::TooManyEntries), &many, 15);
        refuse(OUT_OF_RANGE, &[(15, [1.0, 1.0])], 15);
        refuse(length("out", 14), &many, 14);
    }
}

#[test]
fn a_step_solve_by_settings_that_the_step_is_not_ready_for() {
    for (by, asked, wanted) in [
        (DENSE, SPARSE, Error::NoPreconditioner),
        (SPARSE, DENSE, Error::NoPlan),
    ] {
        stays(&mut factored(&by), step_solves(by), wanted, |step, x| {
            step.solve_step(&BRACKET.load(1.0), x, &asked, &mut Tally::default())
        });
    }
}
