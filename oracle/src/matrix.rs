//! A block: two columns of two numbers.

use super::{Real, Vector};
use std::ops::{Add, Mul};

#[derive(Clone, Copy, Debug, Default, PartialEq)]
pub struct Matrix {
    columns: [Vector; 2],
}

impl Matrix {
    pub const ZERO: Self = Self::new(Vector::ZERO, Vector::ZERO);
    pub const IDENTITY: Self = Self::new(Vector::new(1.0, 0.0), Vector::new(0.0, 1.0));

    pub const fn new(column0: Vector, column1: Vector) -> Self {
        Self {
            columns: [column0, column1],
        }
    }

    pub fn col(&self, index: usize) -> Vector {
        self.columns[index]
    }

    pub fn col_mut(&mut self, index: usize) -> &mut Vector {
        &mut self.columns[index]
    }

    pub fn determinant(&self) -> Real {
        let [c0, c1] = self.columns;
        c0.x * c1.y - c1.x * c0.y
    }

    /// The determinant is inverted once, and its inverse is what negates.
    pub fn inverse(&self) -> Self {
        let [c0, c1] = self.columns;
        let r = 1.0 / self.determinant();
        Self::new(
            Vector::new(c1.y * r, c0.y * -r),
            Vector::new(c1.x * -r, c0.x * r),
        )
    }

    pub fn is_finite(&self) -> bool {
        self.columns.iter().all(|column| column.is_finite())
    }

    pub fn transpose(&self) -> Self {
        let [c0, c1] = self.columns;
        Self::new(Vector::new(c0.x, c1.x), Vector::new(c0.y, c1.y))
    }
}

impl Mul<Vector> for Matrix {
    type Output = Vector;

    fn mul(self, v: Vector) -> Vector {
        self.columns[0] * v.x + self.columns[1] * v.y
    }
}

impl Mul<Real> for Matrix {
    type Output = Self;

    fn mul(self, factor: Real) -> Self {
        Self::new(self.columns[0] * factor, self.columns[1] * factor)
    }
}

impl Add for Matrix {
    type Output = Self;

    fn add(self, other: Self) -> Self {
        Self::new(
            self.columns[0] + other.columns[0],
            self.columns[1] + other.columns[1],
        )
    }
}
