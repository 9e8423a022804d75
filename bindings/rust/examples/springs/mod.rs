//! A sprung bracket: a grid of particles, springs along its edges and across its cells, its first column bolted to a wall.

use bracket::{BlockMatrix, Error, Matrix, Vector};
use std::f32::consts::FRAC_1_SQRT_2;

pub struct Bracket {
    pub columns: u32,
    pub rows: u32,
    pub mass: f32,
    /// A spring's stiffness times the squared time step.
    pub stiffness: f32,
}

struct Spring {
    ends: (u32, u32),
    direction: Vector,
}

impl Spring {
    fn add_to(&self, matrix: &mut BlockMatrix, k: f32) -> Result<(), Error> {
        let ((a, b), [x, y]) = (self.ends, self.direction);
        let block = [[k * x * x, k * x * y], [k * y * x, k * y * y]];
        let opposite = block.map(|column| column.map(|entry| -entry));
        add_block(matrix, a, a, block)?;
        add_block(matrix, b, b, block)?;
        add_block(matrix, a, b, opposite)?;
        add_block(matrix, b, a, opposite)
    }
}

impl Bracket {
    pub fn particles(&self) -> usize {
        (self.columns * self.rows) as usize
    }

    pub fn particle(&self, column: u32, row: u32) -> u32 {
        row * self.columns + column
    }

    /// Which particles the wall holds.
    pub fn pinned(&self) -> Vec<bool> {
        let columns = self.columns as usize;
        (0..self.particles()).map(|p| p % columns == 0).collect()
    }

    /// The springs that begin at a particle: to the right, up, and the two across the cell.
    fn springs_at(&self, column: u32, row: u32) -> Vec<Spring> {
        let right = column + 1 < self.columns;
        let up = row + 1 < self.rows;
        let (slope, here) = (FRAC_1_SQRT_2, self.particle(column, row));
        let mut springs = Vec::new();
        let mut add = |a, b, direction| {
            springs.push(Spring {
                ends: (a, b),
                direction,
            })
        };
        if right {
            add(here, here + 1, [1.0, 0.0]);
        }
        if up {
            add(here, here + self.columns, [0.0, 1.0]);
        }
        if right && up {
            add(here, here + self.columns + 1, [slope, slope]);
            add(here + 1, here + self.columns, [-slope, slope]);
        }
        springs
    }

    fn springs(&self) -> Vec<Spring> {
        (0..self.rows)
            .flat_map(|row| (0..self.columns).flat_map(move |column| self.springs_at(column, row)))
            .collect()
    }

    /// The mass of each particle and the stiffness of each spring, with nothing pinned.
    pub fn free_matrix(&self) -> Result<BlockMatrix, Error> {
        let springs = self.springs();
        let pairs: Vec<_> = springs.iter().map(|spring| spring.ends).collect();
        let mut matrix = BlockMatrix::from_pairs(self.particles(), &pairs)?;
        let mass = [[self.mass, 0.0], [0.0, self.mass]];
        for particle in 0..self.particles() as u32 {
            add_block(&mut matrix, particle, particle, mass)?;
        }
        for spring in &springs {
            spring.add_to(&mut matrix, self.stiffness)?;
        }
        Ok(matrix)
    }

    /// The same with the wall's particles pinned.
    pub fn matrix(&self) -> Result<BlockMatrix, Error> {
        let mut matrix = self.free_matrix()?;
        matrix.make_dirichlet_marked(&self.pinned())?;
        Ok(matrix)
    }

    /// A downward load on the outer column, where the sign hangs.
    pub fn load(&self, weight: f32) -> Vec<Vector> {
        let mut load = vec![[0.0; 2]; self.particles()];
        for row in 0..self.rows {
            load[self.particle(self.columns - 1, row) as usize][1] = -weight;
        }
        load
    }
}

fn add_block(matrix: &mut BlockMatrix, row: u32, col: u32, block: Matrix) -> Result<(), Error> {
    for (sum, column) in matrix.block_mut(row, col)?.iter_mut().zip(block) {
        for (sum, entry) in sum.iter_mut().zip(column) {
            *sum += entry;
        }
    }
    Ok(())
}
