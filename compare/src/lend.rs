//! C calls over lists.

/// What a refused call must leave in its places.
pub const UNTOUCHED: u32 = 0x5a5a_5a5a;

/// Calls a C function: numbers and lists by turns, a place that is written being a number here. A list becomes a pointer and a
/// length, its items 32 bits that the function may take for a float's, or the bytes of a list of bytes.
macro_rules! lend {
    ($call:ident($($($number:expr),*; $($list:expr),*);*)) => {
        $call($($($number,)* $($list.as_mut_ptr().cast(), $list.len(),)*)*)
    };
}
