//! The block matrix: as the source builds and fills it, and what is refused.

use crate::springs::Bracket;
use bracket::{BlockMatrix, Error, Matrix, Refusal, ABSENT, IDENTITY};

const BRACKET: Bracket = Bracket {
    columns: 4,
    rows: 3,
    mass: 1.0,
    stiffness: 8.0,
};

fn chain(particles: u32) -> Vec<(u32, u32)> {
    (1..particles).map(|p| (p - 1, p)).collect()
}

#[test]
fn repeats_and_equal_pairs_add_nothing() {
    let matrix = BlockMatrix::from_pairs(2, &[(0, 1), (1, 0), (0, 1), (1, 1)]).unwrap();
    assert_eq!(matrix.cols(), [0, 1, 0, 1]);
    assert_eq!(matrix.diagonal_index(0), Ok(0));
    assert_eq!(matrix.diagonal_index(1), Ok(3));
    assert_eq!(matrix.blocks(), [[[0.0; 2]; 2]; 4]);
}

#[test]
fn an_equal_pair_out_of_range_is_ignored_and_another_is_refused() {
    let alone = BlockMatrix::from_pairs(2, &[]).unwrap();
    assert_eq!(BlockMatrix::from_pairs(2, &[(9, 9)]), Ok(alone));
    assert_eq!(
        BlockMatrix::from_pairs(2, &[(0, 2)]),
        Err(Error::Refused(Refusal::OutOfRange))
    );
}

#[test]
fn counts_above_the_limits_are_refused() {
    assert_eq!(
        BlockMatrix::from_pairs(1024, &chain(1024)).map(|m| m.num_rows()),
        Ok(1024)
    );
    assert_eq!(
        BlockMatrix::from_pairs(1025, &[]),
        Err(Error::Refused(Refusal::TooManyParticles))
    );
    assert_eq!(
        BlockMatrix::from_pairs(usize::MAX, &[]),
        Err(Error::Refused(Refusal::TooManyParticles))
    );
    assert!(BlockMatrix::from_pairs(2, &[(0, 1); 4096]).is_ok());
    assert_eq!(
        BlockMatrix::from_pairs(2, &[(0, 1); 4097]),
        Err(Error::Refused(Refusal::TooManyEntries))
    );
    assert_eq!(
        BlockMatrix::from_pairs(1025, &[(0, 1); 4097]),
        Err(Error::Refused(Refusal::TooManyParticles))
    );
}

#[test]
fn an_absent_block_has_no_slot() {
    let matrix = BlockMatrix::from_pairs(3, &chain(3)).unwrap();
    assert_eq!(matrix.block_index(1, 2), Ok(4));
    assert_eq!(matrix.block_index(0, 2), Ok(ABSENT));
    assert_eq!(matrix.block_index(0, u32::MAX), Ok(ABSENT));
    assert_eq!(
        matrix.block_index(3, 0),
        Err(Error::Refused(Refusal::OutOfRange))
    );
    assert_eq!(
        matrix.diagonal_index(3),
        Err(Error::Refused(Refusal::OutOfRange))
    );
}

#[test]
fn every_spring_is_stored_in_both_triangles() {
    let matrix = BRACKET.free_matrix().unwrap();
    let n = matrix.num_rows() as u32;
    for (row, col) in (0..n).flat_map(|row| (0..n).map(move |col| (row, col))) {
        let slots = [(row, col), (col, row)].map(|(r, c)| matrix.block_index(r, c).unwrap());
        match slots {
            [ABSENT, mirror] => assert_eq!(mirror, ABSENT),
            slots => {
                let [[c0, c1], mirror] = slots.map(|slot| matrix.blocks()[slot as usize]);
                assert_eq!(mirror, [[c0[0], c1[0]], [c0[1], c1[1]]]);
            }
        }
    }
}

#[test]
fn a_moved_frame_stretches_no_spring() {
    let matrix = BRACKET.free_matrix().unwrap();
    let shift = vec![[3.0, -2.0]; matrix.num_rows()];
    let mut force = vec![[0.0; 2]; matrix.num_rows()];
    matrix.mul(&shift, &mut force).unwrap();
    for [x, y] in force {
        assert!(
            (x - 3.0).abs() < 1.0e-4 && (y + 2.0).abs() < 1.0e-4,
            "({x}, {y})"
        );
    }
}

#[test]
fn a_pinned_row_is_the_identity_and_the_rest_stays() {
    let free = BRACKET.free_matrix().unwrap();
    let mut pinned = free.clone();
    pinned.make_dirichlet(5).unwrap();
    for row in 0..free.num_rows() as u32 {
        for col in 0..free.num_rows() as u32 {
            let slot = free.block_index(row, col).unwrap();
            if slot == ABSENT {
                continue;
            }
            let wanted = match (row, col) {
                (5, 5) => IDENTITY,
                (5, _) | (_, 5) => [[0.0; 2]; 2],
                _ => free.blocks()[slot as usize],
            };
            assert_eq!(pinned.blocks()[slot as usize], wanted);
        }
    }
    assert_eq!(
        pinned.make_dirichlet(12),
        Err(Error::Refused(Refusal::OutOfRange))
    );
}

#[test]
fn clearing_keeps_the_pattern() {
    let mut matrix = BRACKET.matrix().unwrap();
    let cols = matrix.cols().to_vec();
    matrix.clear_values().unwrap();
    assert_eq!(matrix.cols(), cols);
    assert!(matrix.blocks().iter().all(|&block| block == [[0.0; 2]; 2]));
}

#[test]
fn marked_particles_are_pinned_as_one_after_the_other() {
    let free = BRACKET.free_matrix().unwrap();
    let all = vec![true; free.num_rows()];
    for pinned in [BRACKET.pinned(), vec![false; free.num_rows()], all] {
        let (mut singly, mut at_once) = (free.clone(), free.clone());
        for (particle, _) in pinned.iter().enumerate().filter(|(_, &mark)| mark) {
            singly.make_dirichlet(particle as u32).unwrap();
        }
        at_once.make_dirichlet_marked(&pinned).unwrap();
        assert_eq!(at_once, singly);
    }
}

#[test]
fn a_block_is_read_and_written_by_its_place() {
    let mut matrix = BRACKET.free_matrix().unwrap();
    let (at, block) = (BRACKET.particle(1, 1), [[1.0, 2.0], [3.0, 4.0]]);
    *matrix.block_mut(at, at + 1).unwrap() = block;
    assert_eq!(matrix.block(at, at + 1), Ok(&block));
    let slot = matrix.block_index(at, at + 1).unwrap();
    assert_eq!(matrix.blocks()[slot as usize], block);
    let slot = matrix.diagonal_index(at).unwrap();
    assert_eq!(matrix.block(at, at), Ok(&matrix.blocks()[slot as usize]));
    for col in [BRACKET.particle(3, 2), 12, u32::MAX] {
        let absent = Error::NoBlock { row: at, col };
        assert_eq!(matrix.block(at, col), Err(absent));
        assert_eq!(matrix.block_mut(at, col), Err(absent));
    }
    let above = Error::Refused(Refusal::OutOfRange);
    assert_eq!(matrix.block(12, at), Err(above));
    assert_eq!(matrix.block_mut(12, at), Err(above));
}

#[test]
fn the_matrix_of_no_particles_is_whole() {
    let mut none = BlockMatrix::default();
    assert_eq!(BlockMatrix::from_pairs(0, &[]), Ok(none.clone()));
    assert_eq!((none.num_rows(), none.blocks()), (0, &[][..]));
    assert_eq!(none.mul(&[], &mut []), Ok(()));
    assert_eq!(none.clear_values(), Ok(()));
    assert_eq!(none.make_dirichlet_marked(&[]), Ok(()));
    let above = Error::Refused(Refusal::OutOfRange);
    assert_eq!(none.block_index(0, 0), Err(above));
    assert_eq!(none.diagonal_index(0), Err(above));
    assert_eq!(none.make_dirichlet(0), Err(above));
}

/// The lower triangle, dense, read as the source's factorization reads it.
fn lower(matrix: &BlockMatrix) -> Vec<Vec<Option<Matrix>>> {
    let n = matrix.num_rows();
    let mut lower = vec![vec![None; n]; n];
    for (r, row) in lower.iter_mut().enumerate() {
        let shown = matrix.for_each_block_of_row(r as u32, |c, block| {
            if c as usize <= r {
                row[c as usize] = Some(*block);
            }
        });
        assert_eq!(shown, Ok(()));
    }
    lower
}

#[test]
fn a_row_is_shown_as_the_source_reads_it() {
    let mut matrix = BlockMatrix::from_pairs(4, &[(0, 2), (2, 1), (3, 2)]).unwrap();
    for (slot, block) in matrix.blocks_mut().iter_mut().enumerate() {
        block[0][0] = slot as f32;
    }
    // The particle adjacency, without the diagonal.
    let mut adjacency = vec![Vec::new(); 4];
    for (r, neighbors) in adjacency.iter_mut().enumerate() {
        let shown = matrix.for_each_block_of_row(r as u32, |c, _| {
            if c as usize != r {
                neighbors.push(c);
            }
        });
        assert_eq!(shown, Ok(()));
    }
    assert_eq!(adjacency, [vec![2], vec![2], vec![0, 1, 3], vec![2]]);
    for (r, row) in lower(&matrix).iter().enumerate() {
        for (c, block) in row.iter().enumerate() {
            let slot = matrix.block_index(r as u32, c as u32).unwrap();
            let stored = (c <= r && slot != ABSENT).then(|| matrix.blocks()[slot as usize]);
            assert_eq!(*block, stored);
        }
    }
}

#[test]
fn a_row_past_the_last_one_is_refused() {
    let matrix = BlockMatrix::from_pairs(4, &[(0, 2), (2, 1), (3, 2)]).unwrap();
    let shown =
        |matrix: &BlockMatrix, row| matrix.for_each_block_of_row(row, |_, _| unreachable!());
    let above = Err(Error::Refused(Refusal::OutOfRange));
    assert_eq!(shown(&matrix, 4), above);
    assert_eq!(shown(&matrix, u32::MAX), above);
    assert_eq!(shown(&BlockMatrix::default(), 0), above);
}
