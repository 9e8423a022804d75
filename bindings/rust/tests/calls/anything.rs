//! Any calls in any order with any numbers: nothing panics, what fails changes nothing, and every step solve asked for is counted.

use crate::fixture::{scaled, BRACKET};
use bracket::{
    BlockMatrix, Combined, ConjugateGradient, Error, Responded, SkylineCholesky, SoftFemParameters,
    Step, Tally, Vector,
};
use std::fmt::Debug;

/// Draws numbers, the same at each run.
struct Draw(u64);

impl Draw {
    fn below(&mut self, end: usize) -> usize {
        self.0 = self
            .0
            .wrapping_mul(6364136223846793005)
            .wrapping_add(1442695040888963407);
        (self.0 >> 33) as usize % end
    }

    fn one<T: Clone>(&mut self, list: &[T]) -> T {
        list[self.below(list.len())].clone()
    }

    fn float(&mut self) -> f32 {
        self.one(&[
            0.0,
            -0.0,
            1.0,
            -2.5,
            1.0e30,
            1.0e-40,
            f32::INFINITY,
            f32::NAN,
        ])
    }

    /// The bracket's particles, three times out of four.
    fn length(&mut self) -> usize {
        self.one(&[0, 1, 14, 16, 15, 15, 15, 15, 15, 15, 15, 15, 15, 15, 15, 15])
    }

    fn index(&mut self) -> u32 {
        self.one(&[0, 1, 2, 7, 14, 15, 16, u32::MAX])
    }

    /// Zeros, ordinary numbers, or any.
    fn vectors(&mut self) -> Vec<Vector> {
        let (length, kind) = (self.length(), self.below(3));
        let mut number = || match kind {
            0 => 0.0,
            1 => self.below(9) as f32 - 4.0,
            _ => self.float(),
        };
        (0..length).map(|_| [number(), number()]).collect()
    }

    fn marks(&mut self) -> Vec<bool> {
        let length = self.length();
        (0..length).map(|_| self.below(2) == 0).collect()
    }

    fn limit(&mut self) -> usize {
        self.one(&[0, 1, 20, 100, 200, 4096, 4097, usize::MAX])
    }

    fn params(&mut self) -> SoftFemParameters {
        SoftFemParameters {
            max_dense_dofs: self.one(&[0, 29, 30, 31, usize::MAX]),
            linear_tolerance: self.one(&[0.0, 1.0e-3, 1.0e-3, 0.1, 2.0, 2.0, -1.0, f32::NAN]),
            max_linear_iterations: self.limit(),
        }
    }

    /// The bracket's matrix, the same with other values, or any pattern with any values.
    fn matrix(&mut self) -> BlockMatrix {
        match self.below(4) {
            0 => BRACKET.matrix().unwrap(),
            1 => scaled(&BRACKET.free_matrix().unwrap(), self.float()),
            _ => self.any_matrix(),
        }
    }

    fn any_matrix(&mut self) -> BlockMatrix {
        let n = self.length().max(1);
        let count = self.below(40);
        let pairs: Vec<_> = (0..count)
            .map(|_| (self.below(n) as u32, self.below(n) as u32))
            .collect();
        let mut matrix = BlockMatrix::from_pairs(n, &pairs).unwrap();
        for number in matrix.blocks_mut().as_flattened_mut().as_flattened_mut() {
            *number = self.float();
        }
        matrix
    }
}

/// Makes a call, which must leave all as it was if it fails.
fn called<T: Clone + Debug, A>(
    object: &mut T,
    list: &mut [Vector],
    call: impl FnOnce(&mut T, &mut [Vector]) -> Result<A, Error>,
) -> Result<A, Error> {
    let before = format!("{object:?} {list:?}");
    let answer = call(object, list);
    if let Err(error) = answer {
        assert_eq!(format!("{object:?} {list:?}"), before, "{error}");
    }
    answer
}

#[test]
fn of_a_matrix() {
    let draw = &mut Draw(1);
    let mut failed = 0;
    for _ in 0..3000 {
        let (mut matrix, mut list) = (draw.matrix(), draw.vectors());
        let (row, col, marks, x) = (draw.index(), draw.index(), draw.marks(), draw.vectors());
        let kind = draw.below(8);
        let answer = called(&mut matrix, &mut list, |matrix, list| match kind {
            0 => matrix.block_index(row, col).map(drop),
            1 => matrix.diagonal_index(row).map(drop),
            2 => matrix.block_mut(row, col).map(|block| block[0][0] = 3.0),
            3 => matrix.for_each_block_of_row(row, |col, _| assert!(col < 16)),
            4 => matrix.clear_values(),
            5 => matrix.mul(&x, list),
            6 => matrix.make_dirichlet(row),
            _ => matrix.make_dirichlet_marked(&marks),
        });
        failed += usize::from(answer.is_err());
    }
    assert!((500..2500).contains(&failed), "{failed}");
}

#[test]
fn of_pairs() {
    let draw = &mut Draw(2);
    for _ in 0..3000 {
        let n = draw.one(&[0, 1, 3, 16, 1024, 1025, usize::MAX]);
        let count = draw.one(&[0, 1, 2, 5, 20]);
        let pairs: Vec<_> = (0..count).map(|_| (draw.index(), draw.index())).collect();
        if let Ok(matrix) = BlockMatrix::from_pairs(n, &pairs) {
            assert_eq!(matrix.num_rows(), n);
            assert_eq!(matrix.blocks().len(), matrix.cols().len());
        }
    }
}

#[test]
fn of_both_solvers() {
    let draw = &mut Draw(3);
    let (mut direct, mut cg) = (SkylineCholesky::default(), ConjugateGradient::default());
    let mut solved = [0, 0];
    for _ in 0..4000 {
        let (matrix, b, mut x) = (draw.matrix(), draw.vectors(), draw.vectors());
        let (tolerance, limit) = (draw.float(), draw.limit());
        match draw.below(8) {
            0 => direct = SkylineCholesky::new(&matrix).unwrap(),
            1..=3 => {
                let _ = called(&mut direct, &mut x, |direct, _| direct.factorize(&matrix));
            }
            4 => {
                let answer = called(&mut direct, &mut x, |direct, x| direct.solve(&b, x));
                solved[0] += usize::from(answer.is_ok());
            }
            5 => cg.update_preconditioner(&matrix).unwrap(),
            _ => {
                let answer = called(&mut cg, &mut x, |cg, x| {
                    cg.solve(&matrix, &b, x, tolerance, limit)
                });
                solved[1] += usize::from(answer.is_ok());
            }
        }
    }
    assert!(solved.iter().all(|&count| count > 10), "{solved:?}");
}

#[test]
fn of_a_step() {
    let draw = &mut Draw(4);
    let (mut tally, mut asked) = (Tally::default(), 0);
    let mut step = Step::default();
    for _ in 0..6000 {
        let (matrix, params, b, mut x) =
            (draw.matrix(), draw.params(), draw.vectors(), draw.vectors());
        match draw.below(20) {
            0 => step = Step::new(&draw.marks()),
            1..=6 => {
                let _ = called(&mut step, &mut x, |step, _| {
                    step.factorize_step_matrix(&matrix, &params)
                });
            }
            7..=13 => {
                let _ = called(&mut step, &mut x, |step, x| {
                    step.solve_step(&b, x, &params, &mut tally)
                });
                asked += 1;
            }
            _ => {
                let count = draw.one(&[0, 1, 2, 16, 17]);
                let entries: Vec<_> = (0..count)
                    .map(|_| (draw.index(), [draw.float(), 1.0]))
                    .collect();
                let answer = called(&mut step, &mut x, |step, out| {
                    step.response_into(&entries, out, &params, &mut tally)
                });
                asked += u64::from(answer != Ok(Responded::Nothing));
            }
        }
        assert_eq!(tally.total(), asked);
    }
    assert!(tally.counts().iter().all(|&count| count > 10), "{tally}");
}

/// Of these the computed columns alone are counted: two solves for each loaded particle, or one refused call.
#[test]
fn of_columns() {
    let draw = &mut Draw(5);
    let (mut tally, mut asked) = (Tally::default(), 0);
    let mut step = Step::default();
    let mut met = [0; 6];
    for _ in 0..8000 {
        let (matrix, params, mut out) = (draw.matrix(), draw.params(), draw.vectors());
        match draw.below(40) {
            0 => step = Step::new(&draw.marks()),
            1..=4 => {
                let _ = called(&mut step, &mut out, |step, _| {
                    step.factorize_step_matrix(&matrix, &params)
                });
            }
            5 => called(&mut step, &mut out, |step, _| step.clear_columns()).unwrap(),
            6..=15 => {
                let particle = draw.index();
                let _ = called(&mut step, &mut out, |step, _| step.load_particle(particle));
            }
            16..=23 => {
                let computed = called(&mut step, &mut out, |step, _| {
                    step.compute_columns(&params, &mut tally)
                });
                assert!(computed.is_err() || computed.ok() == step.computed());
                asked += computed.map_or(1, |computed| computed.total());
                met[0] += usize::from(computed.is_ok_and(|computed| computed.total() > 2));
            }
            24..=33 => {
                let count = draw.one(&[0, 1, 1, 2, 2, 16, 17]);
                let entries: Vec<_> = (0..count)
                    .map(|_| (draw.one(&[0, 1, 2, 7, 7, 14, 14, 15]), [draw.float(), 1.0]))
                    .collect();
                let combined = called(&mut step, &mut out, |step, out| {
                    step.response_from_columns(&entries, out)
                });
                match combined {
                    Ok(Combined::Gain(_)) => met[1] += 1,
                    Ok(Combined::NotLoaded) => met[2] += 1,
                    Ok(Combined::Nothing) => met[3] += 1,
                    Err(_) => {}
                }
            }
            _ => {
                let particle = draw.index();
                let mut both = [out.clone(), out].concat();
                let block = called(&mut step, &mut both, |step, out| {
                    step.particle_block_from_columns(particle, out)
                });
                met[4] += usize::from(block.is_ok_and(|block| block.block().is_some()));
                met[5] += usize::from(block.is_ok_and(|block| block.block().is_none()));
            }
        }
        assert!(step.num_columns() <= 16);
        assert_eq!(tally.total(), asked);
    }
    assert!(met.iter().all(|&count| count > 10), "{met:?}");
}
