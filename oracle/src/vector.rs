//! A vector of the plane. Operators work component by component.

use super::Real;
use std::ops::{Add, AddAssign, Index, IndexMut, Mul, MulAssign, Sub, SubAssign};

#[derive(Clone, Copy, Debug, Default, PartialEq)]
pub struct Vector {
    pub x: Real,
    pub y: Real,
}

impl Vector {
    pub const ZERO: Self = Self::new(0.0, 0.0);

    pub const fn new(x: Real, y: Real) -> Self {
        Self { x, y }
    }

    pub fn dot(self, other: Self) -> Real {
        self.x * other.x + self.y * other.y
    }

    pub fn length_squared(self) -> Real {
        self.dot(self)
    }

    pub fn is_finite(self) -> bool {
        self.x.is_finite() && self.y.is_finite()
    }
}

impl Index<usize> for Vector {
    type Output = Real;

    fn index(&self, axis: usize) -> &Real {
        match axis {
            0 => &self.x,
            1 => &self.y,
            _ => panic!("a vector of the plane has no axis {axis}"),
        }
    }
}

impl IndexMut<usize> for Vector {
    fn index_mut(&mut self, axis: usize) -> &mut Real {
        match axis {
            0 => &mut self.x,
            1 => &mut self.y,
            _ => panic!("a vector of the plane has no axis {axis}"),
        }
    }
}

impl Add for Vector {
    type Output = Self;

    fn add(self, other: Self) -> Self {
        Self::new(self.x + other.x, self.y + other.y)
    }
}

impl Sub for Vector {
    type Output = Self;

    fn sub(self, other: Self) -> Self {
        Self::new(self.x - other.x, self.y - other.y)
    }
}

impl Mul<Real> for Vector {
    type Output = Self;

    fn mul(self, factor: Real) -> Self {
        Self::new(self.x * factor, self.y * factor)
    }
}

impl AddAssign for Vector {
    fn add_assign(&mut self, other: Self) {
        *self = *self + other;
    }
}

impl SubAssign for Vector {
    fn sub_assign(&mut self, other: Self) {
        *self = *self - other;
    }
}

impl MulAssign<Real> for Vector {
    fn mul_assign(&mut self, factor: Real) {
        *self = *self * factor;
    }
}
