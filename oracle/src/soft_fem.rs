//! The three source files, at the places where their `super` paths look for each other.

#[path = "soft_fem_skyline.rs"]
pub(crate) mod soft_fem_skyline;
#[path = "soft_fem_sparse.rs"]
pub(crate) mod soft_fem_sparse;
#[path = "system.rs"]
pub(crate) mod system;
