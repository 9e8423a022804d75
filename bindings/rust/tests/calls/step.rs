//! The step solve, on both routes.

use crate::fixture::{close, factored, scaled, single, zeros, BRACKET, DENSE, SPARSE};
use bracket::{
    BlockMatrix, Error, Marked, Outcome, Refusal, SoftFemParameters, Step, Stepped, Tally, Vector,
};

#[test]
fn both_routes_come_to_one_solution() {
    let matrix = BRACKET.matrix().unwrap();
    let mut tally = Tally::default();
    let b = BRACKET.load(1.0);
    let (mut direct, mut iterated) = (zeros(), vec![[9.0; 2]; b.len()]);

    let mut step = Step::new(&BRACKET.pinned());
    assert_eq!(
        step.factorize_step_matrix(&matrix, &DENSE),
        Ok(Marked::Direct)
    );
    assert_eq!(
        step.solve_step(&b, &mut direct, &DENSE, &mut tally),
        Ok(Stepped::Direct)
    );

    let mut step = Step::new(&BRACKET.pinned());
    assert_eq!(
        step.factorize_step_matrix(&matrix, &SPARSE),
        Ok(Marked::Iterative)
    );
    let stepped = step.solve_step(&b, &mut iterated, &SPARSE, &mut tally);
    assert!(
        matches!(stepped, Ok(Stepped::Iterated(Outcome::Converged { .. }))),
        "{stepped:?}"
    );

    assert!(close(&direct, &iterated), "{direct:?} {iterated:?}");
    assert_eq!(
        tally,
        Tally {
            direct: 1,
            converged: 1,
            ..Tally::default()
        }
    );
}

#[test]
fn a_failed_factor_is_iterated() {
    let matrix = single([[1.0, 2.0], [2.0, 4.0]]);
    let mut step = Step::new(&[false]);
    let marked = step.factorize_step_matrix(&matrix, &DENSE);
    assert_eq!(marked, Ok(Marked::Failed { row: 1, pivot: 0.0 }));
    let mut tally = Tally::default();
    let mut x = [[0.0; 2]];
    let stepped = step
        .solve_step(&[[1.0, 2.0]], &mut x, &DENSE, &mut tally)
        .unwrap();
    assert!(matches!(stepped, Stepped::Iterated(_)), "{stepped:?}");
    assert_eq!((tally.direct, tally.total()), (0, 1));
}

#[test]
fn a_factor_serves_until_the_next_step() {
    let mut step = factored(&DENSE);
    let (mut tally, b) = (Tally::default(), BRACKET.load(1.0));
    let (mut before, mut kept, mut after) = (zeros(), zeros(), zeros());
    let mut solve = |step: &mut Step, x: &mut Vec<Vector>| {
        assert_eq!(
            step.solve_step(&b, x, &DENSE, &mut tally),
            Ok(Stepped::Direct)
        );
    };
    solve(&mut step, &mut before);
    let matrix = scaled(&BRACKET.matrix().unwrap(), 2.0);
    solve(&mut step, &mut kept);
    assert_eq!(kept, before);
    assert_eq!(
        step.factorize_step_matrix(&matrix, &DENSE),
        Ok(Marked::Direct)
    );
    solve(&mut step, &mut after);
    let doubled: Vec<Vector> = after.iter().map(|v| [v[0] * 2.0, v[1] * 2.0]).collect();
    assert!(close(&doubled, &before), "{doubled:?} {before:?}");
    assert_eq!(tally.direct, 3);
}

#[test]
fn a_long_envelope_is_refused_only_where_it_counts() {
    let pairs: Vec<_> = (1..91).flat_map(|b| (0..b).map(move |a| (a, b))).collect();
    let matrix = BlockMatrix::from_pairs(91, &pairs).unwrap();
    let mut step = Step::new(&[false; 91]);
    let within = SoftFemParameters {
        max_dense_dofs: 182,
        ..DENSE
    };
    assert_eq!(
        step.factorize_step_matrix(&matrix, &within),
        Err(Error::Refused(Refusal::LongEnvelope))
    );
    let above = SoftFemParameters {
        max_dense_dofs: 181,
        ..DENSE
    };
    assert_eq!(
        step.factorize_step_matrix(&matrix, &above),
        Ok(Marked::Iterative)
    );
}

#[test]
fn settings_are_checked_on_the_direct_route() {
    let (mut step, mut tally) = (factored(&DENSE), Tally::default());
    let (b, mut x) = (BRACKET.load(1.0), zeros());
    let bad = SoftFemParameters {
        linear_tolerance: -1.0,
        ..DENSE
    };
    assert_eq!(
        step.solve_step(&b, &mut x, &bad, &mut tally),
        Err(Error::Refused(Refusal::BadSettings))
    );
    assert_eq!((x, tally.refused), (zeros(), 1));
}
