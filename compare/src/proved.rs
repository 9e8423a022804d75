//! The proved side: C functions of the crate `abi_calls`.

use crate::sides::Side;
use crate::sys::c;

pub const PROVED: Side = Side {
    root: c::bracket_root,
    dot: c::bracket_dot,
    determinant: c::bracket_determinant,
    times: c::bracket_times,
    inverse: c::bracket_inverse,
};
