//! Responses: the source's axis columns and what it makes of them, and what is refused.

use crate::fixture::{close, factored, single, zeros, BRACKET, DENSE, SPARSE};
use bracket::plane::{determinant, dot};
use bracket::{Error, Marked, Refusal, Responded, SoftFemParameters, Step, Tally, Vector};

/// The two axis responses of a particle, as the source's columns have them.
fn columns(
    step: &mut Step,
    particle: u32,
    params: &SoftFemParameters,
    tally: &mut Tally,
) -> [Vec<Vector>; 2] {
    [[1.0, 0.0], [0.0, 1.0]].map(|axis| {
        let mut column = zeros();
        let responded = step.response_into(&[(particle, axis)], &mut column, params, tally);
        assert!(responded.unwrap().stepped().unwrap().solved());
        column
    })
}

#[test]
fn axis_responses_combine_to_any_response() {
    for params in [DENSE, SPARSE] {
        let (mut step, mut tally) = (factored(&params), Tally::default());
        let (particle, gradient) = (BRACKET.particle(4, 2), [0.25, -1.5]);
        let [along, across] = columns(&mut step, particle, &params, &mut tally);
        let combined: Vec<Vector> = along
            .iter()
            .zip(&across)
            .map(|(a, c)| {
                [
                    a[0] * gradient[0] + c[0] * gradient[1],
                    a[1] * gradient[0] + c[1] * gradient[1],
                ]
            })
            .collect();
        let mut out = zeros();
        let responded = step
            .response_into(&[(particle, gradient)], &mut out, &params, &mut tally)
            .unwrap();
        assert!(close(&combined, &out), "{combined:?} {out:?}");
        let gain = dot(gradient, combined[particle as usize]);
        assert!(
            (responded.gain() - gain).abs() < 1.0e-4,
            "{responded:?} {gain}"
        );
        assert_eq!(tally.total(), 3);
    }
}

#[test]
fn a_particle_answers_itself_by_a_symmetric_block() {
    let (mut step, mut tally) = (factored(&DENSE), Tally::default());
    let particle = BRACKET.particle(3, 1);
    let [along, across] = columns(&mut step, particle, &DENSE, &mut tally);
    let block = [along[particle as usize], across[particle as usize]];
    assert!((block[0][1] - block[1][0]).abs() < 1.0e-6, "{block:?}");
    assert!(block[0][0] > 0.0 && determinant(block) > 0.0, "{block:?}");
}

#[test]
fn responses_are_mutual() {
    let (mut step, mut tally) = (factored(&DENSE), Tally::default());
    let (here, there) = (BRACKET.particle(4, 0), BRACKET.particle(2, 1));
    let from_here = columns(&mut step, here, &DENSE, &mut tally);
    let from_there = columns(&mut step, there, &DENSE, &mut tally);
    for (axis, column) in from_here.iter().enumerate() {
        for (other, mirror) in from_there.iter().enumerate() {
            let apart = column[there as usize][other] - mirror[here as usize][axis];
            assert!(apart.abs() < 1.0e-5, "{axis} {other}: {apart}");
        }
    }
}

#[test]
fn pinned_entries_are_skipped_and_repeated_ones_add_up() {
    let (mut step, mut tally) = (factored(&DENSE), Tally::default());
    let (wall, corner) = (BRACKET.particle(0, 1), BRACKET.particle(4, 0));
    let (mut once, mut twice) = (zeros(), zeros());
    let whole = step.response_into(&[(corner, [1.0, 2.0])], &mut once, &DENSE, &mut tally);
    let parts = [
        (corner, [1.0, 0.0]),
        (wall, [8.0, 8.0]),
        (corner, [0.0, 2.0]),
    ];
    let summed = step.response_into(&parts, &mut twice, &DENSE, &mut tally);
    assert_eq!(once, twice);
    let apart = whole.unwrap().gain() - summed.unwrap().gain();
    assert!(apart.abs() < 1.0e-5, "{apart}");
    assert_eq!(once[wall as usize], [0.0, 0.0]);
}

#[test]
fn a_response_with_no_entry_left_asks_for_nothing() {
    let (mut step, mut tally) = (factored(&DENSE), Tally::default());
    for entries in [&[][..], &[(BRACKET.particle(0, 0), [1.0, 1.0])][..]] {
        let mut out = vec![[4.0; 2]; BRACKET.particles()];
        let responded = step
            .response_into(entries, &mut out, &DENSE, &mut tally)
            .unwrap();
        assert_eq!((responded, responded.gain()), (Responded::Nothing, 0.0));
        assert_eq!(out, zeros());
    }
    assert_eq!(tally, Tally::default());
}

#[test]
fn a_gain_that_is_not_above_zero_is_zero() {
    let matrix = single([[-1.0, 0.0], [0.0, -1.0]]);
    let (mut step, mut tally) = (Step::new(&[false]), Tally::default());
    let marked = step.factorize_step_matrix(&matrix, &SPARSE);
    assert_eq!(
        marked,
        Ok(Marked::Failed {
            row: 0,
            pivot: -1.0
        })
    );
    let mut out = [[0.0; 2]];
    for gradient in [[1.0, 0.0], [f32::NAN, 0.0]] {
        let responded = step
            .response_into(&[(0, gradient)], &mut out, &SPARSE, &mut tally)
            .unwrap();
        assert_eq!(responded.gain().to_bits(), 0, "{responded:?}");
    }
    assert_eq!(tally.total(), 2);
}

#[test]
fn refused_responses_change_nothing_and_are_counted() {
    let (mut step, mut tally) = (factored(&DENSE), Tally::default());
    let mut out = vec![[4.0; 2]; BRACKET.particles()];
    let above = BRACKET.particles() as u32;
    let many = [(1, [1.0, 1.0]); 17];
    let mut ask = |entries: &[(u32, Vector)]| {
        let responded = step.response_into(entries, &mut out, &DENSE, &mut tally);
        (responded, out.clone())
    };
    let refused = |refusal| (Err(Error::Refused(refusal)), vec![[4.0; 2]; 15]);
    assert_eq!(ask(&many), refused(Refusal::TooManyEntries));
    assert_eq!(ask(&[(above, [1.0, 1.0])]), refused(Refusal::OutOfRange));
    assert!(ask(&many[..16]).0.is_ok());
    assert_eq!(tally.counts(), [1, 0, 0, 0, 0, 0, 2]);
}
