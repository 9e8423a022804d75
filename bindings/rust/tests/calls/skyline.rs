//! The direct solver: a plan for each pattern, a factor for each matrix of it, a solve for each load.

use crate::fixture::{close, scaled, single};
use crate::springs::Bracket;
use bracket::{BlockMatrix, Error, Factored, Refusal, SkylineCholesky};

const BRACKET: Bracket = Bracket {
    columns: 7,
    rows: 4,
    mass: 1.0,
    stiffness: 4.0,
};

fn plan(n: usize, pairs: &[(u32, u32)]) -> SkylineCholesky {
    SkylineCholesky::new(&BlockMatrix::from_pairs(n, pairs).unwrap()).unwrap()
}

fn complete(n: u32) -> Vec<(u32, u32)> {
    (1..n).flat_map(|b| (0..b).map(move |a| (a, b))).collect()
}

#[test]
fn orders_and_envelopes() {
    assert_eq!(plan(0, &[]).envelope_len(), 0);
    assert_eq!(plan(0, &[]).perm(), []);
    assert_eq!(plan(1, &[]).row_start(), [0, 1, 3]);
    let chain = plan(3, &[(0, 1), (1, 2)]);
    assert_eq!(chain.perm(), [2, 1, 0]);
    assert_eq!(chain.row_start(), [0, 1, 3, 6, 10, 13, 17]);
    let pair = plan(4, &[(0, 2)]);
    assert_eq!((pair.perm(), pair.envelope_len()), (&[2, 0, 3, 1][..], 16));
    let moved = plan(6, &[(1, 2), (2, 3), (3, 4), (4, 5), (0, 3)]);
    assert_eq!(
        (moved.perm(), moved.envelope_len()),
        (&[5, 4, 0, 3, 2, 1][..], 38)
    );
}

#[test]
fn long_envelopes_are_refused() {
    let chain: Vec<_> = (1..1024).map(|p| (p - 1, p)).collect();
    assert_eq!(plan(1024, &chain).envelope_len(), 7164);
    assert_eq!(plan(90, &complete(90)).envelope_len(), 16290);
    let matrix = BlockMatrix::from_pairs(91, &complete(91)).unwrap();
    assert_eq!(
        SkylineCholesky::new(&matrix).unwrap_err(),
        Error::Refused(Refusal::LongEnvelope)
    );
}

#[test]
fn one_block_by_hand() {
    let matrix = single([[4.0, 2.0], [2.0, 10.0]]);
    let mut direct = SkylineCholesky::new(&matrix).unwrap();
    assert_eq!(direct.factorize(&matrix), Ok(Factored::Done));
    assert_eq!(direct.values(), [2.0, 1.0, 3.0]);
    let mut x = [[0.0; 2]];
    direct.solve(&[[6.0, 12.0]], &mut x).unwrap();
    assert_eq!(x, [[1.0, 1.0]]);
}

#[test]
fn a_failure_tells_its_row_and_pivot() {
    let matrix = single([[1.0, 2.0], [2.0, 4.0]]);
    let mut direct = SkylineCholesky::new(&matrix).unwrap();
    assert_eq!(
        direct.factorize(&matrix),
        Ok(Factored::Failed { row: 1, pivot: 0.0 })
    );
    assert_eq!(direct.values(), [1.0, 2.0, 4.0]);
    let spoiled = direct.factorize(&single([[f32::NAN, 0.0], [0.0, 1.0]]));
    assert!(matches!(spoiled, Ok(Factored::Failed { row: 0, pivot }) if pivot.is_nan()));
}

#[test]
fn one_plan_serves_every_matrix_of_its_pattern() {
    let matrix = BRACKET.matrix().unwrap();
    let mut direct = SkylineCholesky::new(&matrix).unwrap();
    let b = BRACKET.load(1.0);
    let mut x = vec![[0.0; 2]; b.len()];
    let mut product = x.clone();
    for k in [1.0, 0.5, 16.0] {
        let matrix = scaled(&matrix, k);
        assert_eq!(direct.factorize(&matrix), Ok(Factored::Done));
        direct.solve(&b, &mut x).unwrap();
        matrix.mul(&x, &mut product).unwrap();
        assert!(close(&product, &b), "{product:?} {b:?}");
    }
}

#[test]
fn another_pattern_is_refused_unless_the_plan_fits() {
    let chain = BlockMatrix::from_pairs(4, &[(0, 1), (1, 2), (2, 3)]).unwrap();
    let ring = BlockMatrix::from_pairs(4, &[(0, 1), (1, 2), (2, 3), (3, 0)]).unwrap();
    let mut direct = SkylineCholesky::new(&chain).unwrap();
    assert_eq!(
        direct.factorize(&ring),
        Err(Error::Refused(Refusal::BadPlan))
    );
    let mut wide = SkylineCholesky::new(&ring).unwrap();
    assert!(matches!(
        wide.factorize(&chain),
        Ok(Factored::Failed { row: 0, .. })
    ));
}
