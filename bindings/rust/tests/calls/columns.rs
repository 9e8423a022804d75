//! Columns: what each of their calls answers, leaves and refuses, when there are none to combine, and combinations beside responses.

use crate::fixture::{close, factored, scaled, single, zeros, BRACKET, DENSE, SPARSE};
use crate::refused::{shown, stays};
use bracket::{
    BlockMatrix, Combined, Computed, Error, Matrix, ParticleBlock, Refusal, SoftFemParameters,
    Step, Tally, Vector,
};

/// The bracket's particles.
const N: usize = 15;

const OUT_OF_RANGE: Error = Error::Refused(Refusal::OutOfRange);
const TOO_MANY_ENTRIES: Error = Error::Refused(Refusal::TooManyEntries);
const TOO_MANY_PARTICLES: Error = Error::Refused(Refusal::TooManyParticles);

/// Where the bracket's screws are.
fn screws() -> [u32; 4] {
    [(2, 0), (4, 0), (2, 2), (4, 2)].map(|(column, row)| BRACKET.particle(column, row))
}

/// The bracket's step, with its screws loaded and their columns computed.
fn screwed(params: &SoftFemParameters) -> Step {
    let mut step = factored(params);
    for screw in screws() {
        step.load_particle(screw).unwrap();
    }
    let computed = step.compute_columns(params, &mut Tally::default()).unwrap();
    assert!(computed.solved() && computed.total() == 8, "{computed}");
    step
}

/// A combination and a block, by which to see whether anything changed.
fn combinations(step: &mut Step) -> String {
    let entries = [(screws()[0], [1.0, 2.0]), (screws()[3], [-3.0, 0.5])];
    let combined = shown(zeros(), |out| step.response_from_columns(&entries, out));
    let block = shown(vec![[0.0; 2]; 2 * N], |out| {
        step.particle_block_from_columns(screws()[1], out)
    });
    format!("{combined} {block}")
}

fn combined(step: &Step, entries: &[(u32, Vector)]) -> (Combined, Vec<Vector>) {
    let mut out = vec![[4.0; 2]; step.num_particles()];
    let combined = step.response_from_columns(entries, &mut out).unwrap();
    (combined, out)
}

fn block(step: &Step, particle: u32) -> (ParticleBlock, Vec<Vector>) {
    let mut out = vec![[4.0; 2]; 2 * step.num_particles()];
    let block = step.particle_block_from_columns(particle, &mut out);
    (block.unwrap(), out)
}

// ---- What they answer ----

/// One particle, whose columns are exact: a combination is the response, to the bit.
#[test]
fn one_particle_by_the_block_1_1_1_2() {
    let inverse: Matrix = [[2.0, -1.0], [-1.0, 1.0]];
    let iterated = SoftFemParameters {
        max_dense_dofs: 1,
        ..DENSE
    };
    let (direct, converged) = ([2, 0, 0, 0, 0, 0], [0, 0, 0, 2, 0, 0]);
    for (params, ended) in [(DENSE, direct), (iterated, converged)] {
        let (mut step, mut tally) = (Step::new(&[false]), Tally::default());
        let marked = step.factorize_step_matrix(&single([[1.0, 1.0], [1.0, 2.0]]), &params);
        assert!(marked.is_ok(), "{marked:?}");
        step.load_particle(0).unwrap();
        let computed = step.compute_columns(&params, &mut tally);
        assert_eq!(computed, Ok(Computed::from(ended)));
        assert_eq!(tally.counts()[..6], ended);
        assert_eq!(
            block(&step, 0),
            (ParticleBlock::Block(inverse), inverse.to_vec())
        );
        let entries = [(0, [3.0, 4.0])];
        let mut out = [[0.0; 2]];
        let responded = step.response_into(&entries, &mut out, &params, &mut tally);
        assert_eq!((responded.unwrap().gain(), out), (10.0, [[2.0, 1.0]]));
        assert_eq!(
            combined(&step, &entries),
            (Combined::Gain(10.0), out.to_vec())
        );
    }
}

/// A column is the response to a gradient of 1 along its axis, to the bit.
#[test]
fn columns_are_axis_responses() {
    for params in [DENSE, SPARSE] {
        let mut step = screwed(&params);
        for screw in screws() {
            let (answer, columns) = block(&step, screw);
            let block = answer.block().unwrap();
            for (axis, column) in [[1.0, 0.0], [0.0, 1.0]].into_iter().zip(columns.chunks(N)) {
                let (mut out, mut tally) = (zeros(), Tally::default());
                let responded = step.response_into(&[(screw, axis)], &mut out, &params, &mut tally);
                assert!(responded.unwrap().stepped().unwrap().solved());
                assert_eq!(column, out);
            }
            let [along, across] = [columns[screw as usize], columns[N + screw as usize]];
            let half = (along[1] + across[0]) * 0.5;
            assert_eq!(block, [[along[0], half], [half, across[1]]]);
        }
    }
}

/// Two entries, often at one screw, some of them at the wall: what is combined is what a solve comes to, and isn't counted.
#[test]
fn combinations_beside_responses() {
    for params in [DENSE, SPARSE] {
        let (mut step, mut tally) = (screwed(&params), Tally::default());
        let places = [screws().as_slice(), &[BRACKET.particle(0, 1)]].concat();
        let (mut asked, mut nothing) = (0, 0);
        for (a, &here) in places.iter().enumerate() {
            for (b, &there) in places.iter().enumerate() {
                let entries = [
                    (here, [a as f32 - 1.5, 0.5]),
                    (there, [0.0, b as f32 - 2.25]),
                ];
                let (combined, summed) = combined(&step, &entries);
                let mut out = zeros();
                let responded = step.response_into(&entries, &mut out, &params, &mut tally);
                let apart = combined.gain().unwrap() - responded.unwrap().gain();
                assert!(close(&summed, &out) && apart.abs() < 1.0e-4, "{apart}");
                assert_eq!(
                    combined == Combined::Nothing,
                    responded.unwrap().stepped().is_none()
                );
                asked += 1;
                nothing += u64::from(combined == Combined::Nothing);
            }
        }
        assert_eq!((asked, nothing, tally.total()), (25, 1, 24));
    }
}

#[test]
fn the_order_of_loading_does_not_matter() {
    for params in [DENSE, SPARSE] {
        let mut step = factored(&params);
        for screw in screws().into_iter().rev() {
            step.load_particle(screw).unwrap();
        }
        let computed = step.compute_columns(&params, &mut Tally::default());
        assert_eq!(computed, Ok(screwed(&params).computed().unwrap()));
        assert_eq!(combinations(&mut step), combinations(&mut screwed(&params)));
    }
}

#[test]
fn loading_a_pinned_particle_or_one_twice_changes_nothing() {
    let mut step = screwed(&DENSE);
    let before = format!("{step:?}");
    for particle in [BRACKET.particle(0, 0), screws()[2], screws()[0]] {
        step.load_particle(particle).unwrap();
    }
    assert_eq!((step.num_columns(), format!("{step:?}")), (4, before));
}

#[test]
fn a_pinned_particle_has_a_block_of_zeros() {
    let zeros = (ParticleBlock::Block([[0.0; 2]; 2]), vec![[0.0; 2]; 2 * N]);
    assert_eq!(block(&screwed(&DENSE), BRACKET.particle(0, 2)), zeros);
    assert_eq!(block(&factored(&DENSE), BRACKET.particle(0, 2)), zeros);
}

#[test]
fn a_particle_that_is_not_loaded_is_told() {
    let step = screwed(&DENSE);
    let (screw, other) = (screws()[0], BRACKET.particle(3, 1));
    let untouched = (ParticleBlock::NotLoaded, vec![[4.0; 2]; 2 * N]);
    assert_eq!(block(&step, other), untouched);
    let (_, whole) = combined(&step, &[(screw, [1.0, 2.0])]);
    // What was added up before it stays; a weight of zero does no harm.
    let entries = [
        (screw, [1.0, 2.0]),
        (other, [0.0, 1.0]),
        (screw, [8.0, 8.0]),
    ];
    assert_eq!(combined(&step, &entries), (Combined::NotLoaded, whole));
    let harmless = [(other, [0.0, -0.0]), (screw, [1.0, 2.0])];
    let alone = combined(&step, &harmless[1..]);
    assert_eq!(combined(&step, &harmless), alone);
    assert!(alone.0.gain().unwrap() > 0.0);
    assert_eq!(
        combined(&step, &harmless[..1]),
        (Combined::Gain(0.0), zeros())
    );
}

#[test]
fn a_combination_with_no_entry_left_is_nothing() {
    for step in [
        screwed(&DENSE),
        factored(&DENSE),
        Step::new(&BRACKET.pinned()),
    ] {
        for entries in [&[][..], &[(BRACKET.particle(0, 0), [1.0, 1.0])]] {
            assert_eq!(combined(&step, entries), (Combined::Nothing, zeros()));
        }
    }
}

#[test]
fn no_particles_have_no_columns() {
    let (mut step, mut tally) = (Step::default(), Tally::default());
    let marked = step.factorize_step_matrix(&BlockMatrix::default(), &SPARSE);
    assert!(marked.is_ok(), "{marked:?}");
    assert_eq!(step.clear_columns(), Ok(()));
    assert_eq!(step.load_particle(0), Err(OUT_OF_RANGE));
    assert_eq!(
        step.compute_columns(&SPARSE, &mut tally),
        Ok(Computed::default())
    );
    assert_eq!(combined(&step, &[]), (Combined::Nothing, vec![]));
    assert_eq!(
        step.particle_block_from_columns(0, &mut []),
        Err(OUT_OF_RANGE)
    );
    assert_eq!(tally, Tally::default());
}

// ---- How their solves ended ----

/// By these settings and this matrix the solves of one particle's columns end in one way, which answer, tally and step tell. Where the
/// factor failed they iterate.
#[test]
fn a_column_that_broke_down_is_told() {
    let matrix = BRACKET.matrix().unwrap();
    let negative = scaled(&matrix, -1.0);
    let cut_short = SoftFemParameters {
        max_linear_iterations: 1,
        ..SPARSE
    };
    let loose = SoftFemParameters {
        linear_tolerance: 2.0,
        ..SPARSE
    };
    for (matrix, params, ended) in [
        (&matrix, DENSE, [2, 0, 0, 0, 0, 0]),
        (&matrix, loose, [0, 0, 2, 0, 0, 0]),
        (&matrix, SPARSE, [0, 0, 0, 2, 0, 0]),
        (&negative, SPARSE, [0, 0, 0, 0, 2, 0]),
        (&negative, DENSE, [0, 0, 0, 0, 2, 0]),
        (&matrix, cut_short, [0, 0, 0, 0, 0, 2]),
    ] {
        let (mut step, mut tally) = (Step::new(&BRACKET.pinned()), Tally::default());
        assert!(step.factorize_step_matrix(matrix, &params).is_ok());
        step.load_particle(screws()[1]).unwrap();
        let computed = step.compute_columns(&params, &mut tally).unwrap();
        assert_eq!(computed, Computed::from(ended));
        assert_eq!(step.computed(), Some(computed));
        assert_eq!((&tally.counts()[..6], tally.total()), (&ended[..], 2));
        assert_eq!(computed.solved(), ended[4] + ended[5] == 0);
        assert_eq!(computed.unsolved(), u64::from(ended[4] + ended[5]));
        // It is no error to combine it: where it came from is all that tells.
        let (combined, _) = combined(&step, &[(screws()[1], [1.0, 0.0])]);
        assert!(combined.gain().is_some());
    }
}

#[test]
fn the_tally_stops_at_its_cap_between_two_columns() {
    let mut tally = Tally {
        limit: 2_000_000_000,
        refused: 1_999_999_999,
        ..Tally::default()
    };
    let mut step = screwed(&DENSE);
    let computed = step.compute_columns(&DENSE, &mut tally).unwrap();
    assert_eq!((computed.direct, tally.direct), (8, 1));
    assert_eq!(tally.total(), 4_000_000_000);
    let full = tally;
    assert!(step.compute_columns(&DENSE, &mut tally).unwrap().solved());
    let refused = Step::default().compute_columns(&DENSE, &mut tally);
    assert_eq!((refused, tally), (Err(Error::NoMatrix), full));
}

// ---- When there are none ----

/// That neither call has columns to combine, not even for what would need none.
fn none_computed(step: &mut Step) {
    assert_eq!(step.computed(), None);
    for entries in [&[][..], &[(screws()[0], [1.0, 0.0])]] {
        let mut out = vec![[4.0; 2]; N];
        let combined = step.response_from_columns(entries, &mut out);
        assert_eq!(combined, Err(Error::NotComputed));
        assert_eq!(out, vec![[4.0; 2]; N]);
    }
    let mut out = vec![[4.0; 2]; 2 * N];
    let block = step.particle_block_from_columns(screws()[0], &mut out);
    assert_eq!(
        (block, out),
        (Err(Error::NotComputed), vec![[4.0; 2]; 2 * N])
    );
}

#[test]
fn loading_is_not_computing() {
    let mut step = screwed(&DENSE);
    let other = BRACKET.particle(3, 1);
    step.load_particle(other).unwrap();
    none_computed(&mut step);
    let computed = step.compute_columns(&DENSE, &mut Tally::default());
    assert_eq!(computed.map(|computed| computed.direct), Ok(10));
    assert!(combined(&step, &[(other, [1.0, 0.0])]).0.gain() > Some(0.0));
    assert_eq!(combinations(&mut step), combinations(&mut screwed(&DENSE)));
}

/// As many particles are loaded as before, in the same order, so that the old columns would be found.
#[test]
fn cleared_columns_are_gone() {
    let mut step = screwed(&DENSE);
    step.clear_columns().unwrap();
    assert_eq!((step.num_columns(), step.computed()), (0, None));
    assert_eq!(format!("{step:?}"), format!("{:?}", factored(&DENSE)));
    let unloaded = combined(&step, &[(screws()[0], [1.0, 0.0])]);
    assert_eq!(unloaded, (Combined::NotLoaded, zeros()));
    for screw in screws() {
        step.load_particle(screw).unwrap();
    }
    none_computed(&mut step);
    let computed = step.compute_columns(&DENSE, &mut Tally::default());
    assert!(computed.unwrap().solved());
    assert_eq!(combinations(&mut step), combinations(&mut screwed(&DENSE)));
}

/// Those of the matrix before would be found where they were.
#[test]
fn columns_are_of_the_matrix_that_the_step_has() {
    let mut step = screwed(&DENSE);
    let load = [(screws()[0], [1.0, 0.0])];
    let before = combined(&step, &load).0.gain().unwrap();
    let heavy = scaled(&BRACKET.matrix().unwrap(), 4.0);
    assert!(step.factorize_step_matrix(&heavy, &DENSE).is_ok());
    assert_eq!(step.num_columns(), 4);
    none_computed(&mut step);
    let computed = step.compute_columns(&DENSE, &mut Tally::default());
    assert!(computed.unwrap().solved());
    let after = combined(&step, &load).0.gain().unwrap();
    assert!((before / after - 4.0).abs() < 1.0e-4, "{before} {after}");
}

// ---- What is refused, and leaves all as it was ----

/// A body with more particles than any call takes.
#[test]
fn too_many_particles() {
    let mut step = Step::new(&[false; 1025]);
    let before = format!("{step:?}");
    assert_eq!(step.clear_columns(), Err(TOO_MANY_PARTICLES));
    assert_eq!(step.load_particle(0), Err(TOO_MANY_PARTICLES));
    let mut out = vec![[4.0; 2]; 1025];
    let combined = step.response_from_columns(&[], &mut out);
    assert_eq!(combined, Err(TOO_MANY_PARTICLES));
    out = vec![[4.0; 2]; 2050];
    let block = step.particle_block_from_columns(0, &mut out);
    assert_eq!(block, Err(TOO_MANY_PARTICLES));
    assert_eq!(out, vec![[4.0; 2]; 2050]);
    assert_eq!(format!("{step:?}"), before);
}

#[test]
fn a_load() {
    for params in [DENSE, SPARSE] {
        for particle in [15, 16, u32::MAX] {
            stays(&mut screwed(&params), combinations, OUT_OF_RANGE, |s, _| {
                s.load_particle(particle)
            });
        }
    }
}

#[test]
fn a_seventeenth_particle() {
    let mut step = Step::new(&[[false; 19].as_slice(), &[true]].concat());
    for particle in 0..16 {
        step.load_particle(particle).unwrap();
        assert_eq!(step.num_columns(), particle as usize + 1);
    }
    let before = format!("{step:?}");
    for particle in 16..19 {
        assert_eq!(step.load_particle(particle), Err(TOO_MANY_ENTRIES));
    }
    assert_eq!(step.load_particle(20), Err(OUT_OF_RANGE));
    for particle in [0, 15, 19] {
        assert_eq!(step.load_particle(particle), Ok(()));
    }
    assert_eq!((step.num_columns(), format!("{step:?}")), (16, before));
}

/// A refused call is one refused call, however many columns it would have solved.
#[test]
fn a_computation() {
    for params in [DENSE, SPARSE] {
        for (linear_tolerance, max_linear_iterations) in [(-1.0, 5), (f32::NAN, 5), (0.0, 4097)] {
            let impossible = SoftFemParameters {
                linear_tolerance,
                max_linear_iterations,
                ..params
            };
            let wanted = Error::Refused(Refusal::BadSettings);
            stays(&mut screwed(&params), combinations, wanted, |step, _| {
                let mut tally = Tally::default();
                let computed = step.compute_columns(&impossible, &mut tally);
                assert_eq!(tally.counts(), [0, 0, 0, 0, 0, 0, 1]);
                computed
            });
        }
    }
}

/// Room for the new particle's columns stands aside.
#[test]
fn a_computation_for_one_particle_more() {
    let mut step = screwed(&DENSE);
    step.load_particle(BRACKET.particle(1, 1)).unwrap();
    let impossible = SoftFemParameters {
        linear_tolerance: -1.0,
        ..DENSE
    };
    let wanted = Error::Refused(Refusal::BadSettings);
    stays(&mut step, combinations, wanted, |step, _| {
        step.compute_columns(&impossible, &mut Tally::default())
    });
    none_computed(&mut step);
}

#[test]
fn a_computation_that_the_step_is_not_ready_for() {
    for (mut step, params, wanted) in [
        (Step::new(&BRACKET.pinned()), DENSE, Error::NoMatrix),
        (screwed(&SPARSE), DENSE, Error::NoPlan),
        (screwed(&DENSE), SPARSE, Error::NoPreconditioner),
    ] {
        stays(&mut step, combinations, wanted, |step, _| {
            let mut tally = Tally::default();
            let computed = step.compute_columns(&params, &mut tally);
            assert_eq!(tally.counts(), [0, 0, 0, 0, 0, 0, 1]);
            computed
        });
    }
}

#[test]
fn a_step_matrix_that_is_refused_leaves_the_columns() {
    let wanted = Error::Length {
        list: "pinned",
        needed: 1,
        given: 15,
    };
    stays(&mut screwed(&DENSE), combinations, wanted, |step, _| {
        step.factorize_step_matrix(&single([[1.0, 1.0], [1.0, 2.0]]), &DENSE)
    });
}

#[test]
fn a_combination() {
    let mut step = screwed(&DENSE);
    let many = [(screws()[0], [1.0, 1.0]); 17];
    stays(&mut step, combinations, TOO_MANY_ENTRIES, |step, out| {
        step.response_from_columns(&many, out)
    });
    let outside = [(screws()[0], [1.0, 1.0]), (15, [0.0, 0.0])];
    stays(&mut step, combinations, OUT_OF_RANGE, |step, out| {
        step.response_from_columns(&outside, out)
    });
    let short = Error::Length {
        list: "out",
        needed: 15,
        given: 14,
    };
    stays(&mut step, combinations, short, |step, out| {
        step.response_from_columns(&many, &mut out[1..])
    });
    assert!(combined(&step, &many[..16]).0.gain() > Some(0.0));
}

#[test]
fn a_block() {
    let mut step = screwed(&DENSE);
    let short = Error::Length {
        list: "out of both columns",
        needed: 30,
        given: 15,
    };
    stays(&mut step, combinations, short, |step, out| {
        step.particle_block_from_columns(15, out)
    });
    for particle in [15, u32::MAX] {
        let mut out = vec![[4.0; 2]; 2 * N];
        stays(&mut step, combinations, OUT_OF_RANGE, |step, _| {
            step.particle_block_from_columns(particle, &mut out)
        });
        assert_eq!(out, vec![[4.0; 2]; 2 * N]);
    }
}
