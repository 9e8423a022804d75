//! The wrapper's calls: as the source uses these types, what is refused, and what stays as it was then.

mod anything;
mod build;
mod columns;
mod fixture;
mod gradient;
mod lengths;
mod matrix;
mod plane;
mod refused;
mod response;
mod skyline;
#[path = "../../examples/springs/mod.rs"]
mod springs;
mod state;
mod step;
mod tally;
mod words;
