//! What the proved calls do with a lent buffer: one too short is refused and left as it was, and a
//! longer one's rest is never touched.

use crate::judge::Judged;
use crate::sides::{Side, Sides};
use oracle::draw::Draw;

/// No answer of these cases has these bits.
const MARK: f32 = f32::from_bits(0x7f12_3456);

const ROOM: usize = 8;
const DRAWN: usize = 1000;

/// Lends the first 0 to 8 places of a marked buffer to the proved `call`, for each case that `one`
/// draws. What the buffer holds afterwards is judged, and the status beside it as a float.
pub fn compare<const N: usize, const M: usize>(
    word: &'static str,
    sides: &Sides,
    call: impl Fn(&Side, [f32; N], &mut [f32]) -> u8,
    answer: impl Fn(&Side, [f32; N]) -> [f32; M],
    draw: &mut Draw,
    one: fn(&mut Draw, usize) -> [f32; N],
) -> usize {
    let mut judged = Judged::new(word);
    for turn in 0..DRAWN {
        let given = one(draw, turn);
        for len in 0..=ROOM {
            let mut left = [MARK; ROOM + 1];
            left[ROOM] = f32::from(call(&sides.proved, given, &mut left[..len]));
            judged.judge(&given, &left, &expected(answer(&sides.rust, given), len));
        }
    }
    judged.close(" over lent buffers of 0 to 8 places")
}

fn expected<const M: usize>(answer: [f32; M], len: usize) -> [f32; ROOM + 1] {
    let mut left = [MARK; ROOM + 1];
    if len < M {
        left[ROOM] = 3.0;
    } else {
        left[..M].copy_from_slice(&answer);
        left[ROOM] = 0.0;
    }
    left
}
