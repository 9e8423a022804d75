//! The Rust solvers as the judge of the proved code, and a plain-text language of cases and answers.

// The sources hold more than is judged.
#![allow(dead_code)]

pub mod alloc_prelude;
pub mod answer;
pub mod blocks;
pub mod call;
pub mod calls;
pub mod cases;
pub mod columns;
pub mod direct;
pub mod draw;
pub mod dynamics;
pub mod gradient;
pub mod graphs;
pub mod limits;
pub mod lists;
pub mod math;
pub mod moves;
pub mod plan;
pub mod planes;
pub mod reading;
pub mod roots;
pub mod shapes;
mod soft_fem;
pub mod solves;
pub mod step;
pub mod steps;
pub mod systems;
pub mod tables;
pub mod text;
pub mod values;
