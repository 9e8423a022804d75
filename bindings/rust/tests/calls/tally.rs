//! The tally over sequences of calls.

use crate::fixture::{factored, scaled, zeros, BRACKET, DENSE, SPARSE};
use bracket::{BlockMatrix, Error, SoftFemParameters, Step, Stepped, Tally, Vector};

type Call = (BlockMatrix, SoftFemParameters, Vec<Vector>);

/// A call for each of the seven counts, in their order.
fn calls() -> [Call; 7] {
    let matrix = BRACKET.matrix().unwrap();
    let load = BRACKET.load(1.0);
    let loose = SoftFemParameters {
        linear_tolerance: 2.0,
        ..SPARSE
    };
    let cut_short = SoftFemParameters {
        max_linear_iterations: 1,
        ..SPARSE
    };
    [
        (matrix.clone(), DENSE, load.clone()),
        (matrix.clone(), SPARSE, zeros()),
        (matrix.clone(), loose, load.clone()),
        (matrix.clone(), SPARSE, load.clone()),
        (scaled(&matrix, -1.0), SPARSE, load.clone()),
        (matrix.clone(), cut_short, load.clone()),
        (matrix, SPARSE, load[1..].to_vec()),
    ]
}

fn made((matrix, params, b): &Call, tally: &mut Tally) -> Result<Stepped, Error> {
    let mut step = Step::new(&BRACKET.pinned());
    assert!(step.factorize_step_matrix(matrix, params).is_ok());
    step.solve_step(b, &mut zeros(), params, tally)
}

#[test]
fn each_ending_has_a_count_of_its_own() {
    for (k, call) in calls().iter().enumerate() {
        let mut tally = Tally::default();
        let ended = made(call, &mut tally);
        let mut wanted = [0; 7];
        wanted[k] = 1;
        assert_eq!(tally.counts(), wanted, "{ended:?}");
    }
}

#[test]
fn the_sum_is_the_number_of_step_solves_asked_for() {
    let (mut step, mut tally) = (factored(&DENSE), Tally::default());
    let (wall, corner) = (BRACKET.particle(0, 0), BRACKET.particle(4, 2));
    for round in 1..=20 {
        for call in &calls() {
            let _ = made(call, &mut tally);
        }
        for particle in [wall, corner] {
            let entries = [(particle, [1.0, 0.0])];
            let responded = step.response_into(&entries, &mut zeros(), &DENSE, &mut tally);
            assert!(responded.is_ok(), "{responded:?}");
        }
        assert_eq!(tally.total(), 8 * round);
    }
    assert_eq!(tally.counts(), [40, 20, 20, 20, 20, 20, 20]);
}

/// A record of 3,999,999,999 step solves.
const NEARLY_FULL: Tally = Tally {
    direct: 0,
    zero: 0,
    near: 0,
    converged: 0,
    curvature: 0,
    limit: 2_000_000_000,
    refused: 1_999_999_999,
};

#[test]
fn a_full_tally_stays() {
    let (mut step, b) = (factored(&DENSE), BRACKET.load(1.0));
    let mut tally = NEARLY_FULL;
    let stepped = step.solve_step(&b, &mut zeros(), &DENSE, &mut tally);
    assert_eq!(stepped, Ok(Stepped::Direct));
    assert_eq!((tally.direct, tally.total()), (1, 4_000_000_000));
    let full = tally;
    let stepped = step.solve_step(&b, &mut zeros(), &DENSE, &mut tally);
    assert_eq!(stepped, Ok(Stepped::Direct));
    assert_eq!(tally, full);
}

/// Makes step solves that the wrapper itself turns down, and answers how many.
fn turned_down(tally: &mut Tally) -> u32 {
    let (b, mut x) = (BRACKET.load(1.0), zeros());
    let (mut empty, mut dense, mut sparse) = (
        Step::new(&BRACKET.pinned()),
        factored(&DENSE),
        factored(&SPARSE),
    );
    let mut errors = vec![
        empty.solve_step(&b, &mut x, &DENSE, tally).unwrap_err(),
        dense
            .solve_step(&b[1..], &mut x, &DENSE, tally)
            .unwrap_err(),
        dense
            .solve_step(&b, &mut x[1..], &DENSE, tally)
            .unwrap_err(),
        dense.solve_step(&b, &mut x, &SPARSE, tally).unwrap_err(),
        sparse.solve_step(&b, &mut x, &DENSE, tally).unwrap_err(),
    ];
    let entries = [(1, [1.0, 0.0])];
    let mut respond = |step: &mut Step, out: &mut [Vector], params| {
        errors.push(
            step.response_into(&entries, out, params, tally)
                .unwrap_err(),
        );
    };
    respond(&mut empty, &mut x, &DENSE);
    respond(&mut dense, &mut x[1..], &DENSE);
    respond(&mut dense, &mut x, &SPARSE);
    respond(&mut sparse, &mut x, &DENSE);
    for (step, params) in [
        (&mut empty, &DENSE),
        (&mut dense, &SPARSE),
        (&mut sparse, &DENSE),
    ] {
        errors.push(step.compute_columns(params, tally).unwrap_err());
    }
    assert!(
        errors.iter().all(|error| error.number().is_none()),
        "{errors:?}"
    );
    errors.len() as u32
}

#[test]
fn what_the_wrapper_turns_down_is_counted_as_refused() {
    let mut tally = Tally::default();
    let asked = turned_down(&mut tally);
    assert_eq!(tally.counts(), [0, 0, 0, 0, 0, 0, asked]);
}

#[test]
fn what_the_wrapper_turns_down_stops_at_the_cap_too() {
    let mut tally = NEARLY_FULL;
    turned_down(&mut tally);
    let full = Tally {
        refused: 2_000_000_000,
        ..NEARLY_FULL
    };
    assert_eq!((tally, tally.total()), (full, 4_000_000_000));
    let mut above = Tally::from([u32::MAX; 7]);
    turned_down(&mut above);
    assert_eq!(above, Tally::from([u32::MAX; 7]));
}
