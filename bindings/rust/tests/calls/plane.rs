//! Plane numbers, and the refusals' numbers and sentences.

use bracket::plane::{determinant, dot, inverse, root, times};
use bracket::Refusal;

#[test]
fn roots_are_rounded_once() {
    assert_eq!(root(2.0).to_bits(), 0x3FB5_04F3);
    let below_one = f32::from_bits(0x3F7F_FFFF);
    assert_eq!(root(below_one), below_one);
    assert_eq!(root(f32::INFINITY), f32::INFINITY);
    assert!(root(-1.0).is_nan());
}

#[test]
fn a_block_is_two_columns() {
    let block = [[4.0, 2.0], [6.0, 8.0]];
    assert_eq!(determinant(block), 20.0);
    assert_eq!(times(block, [1.0, 0.5]), [7.0, 6.0]);
    assert_eq!(dot([1.0, 2.0], [3.0, 4.0]), 11.0);
    assert_eq!(
        inverse([[2.0, 0.0], [0.0, 4.0]]),
        [[0.5, -0.0], [-0.0, 0.25]]
    );
}

#[test]
fn refusals_are_numbered_and_told_apart() {
    for (k, refusal) in Refusal::ALL.into_iter().enumerate() {
        assert_eq!(refusal.number() as usize, k + 1);
        let told = Refusal::ALL
            .iter()
            .filter(|other| other.to_string() == refusal.to_string());
        assert_eq!(told.count(), 1);
    }
    let as_error: Box<dyn std::error::Error> = Box::new(Refusal::OutOfRange);
    assert!(as_error.to_string().contains("at n or above"));
}
