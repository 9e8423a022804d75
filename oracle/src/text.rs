//! The tokens of case and answer lines.

/// A float of a case line: `x` and the eight hex digits of its bits, a NaN's too.
pub fn float_token(x: f32) -> String {
    format!("x{:08x}", x.to_bits())
}

/// A float of an answer line: a NaN's bits are left open, so every NaN is one word.
pub fn answer_token(x: f32) -> String {
    if x.is_nan() {
        "nan".to_string()
    } else {
        float_token(x)
    }
}

pub fn case_line(operation: &str, inputs: &[f32]) -> String {
    let mut line = operation.to_string();
    for &x in inputs {
        line.push(' ');
        line.push_str(&float_token(x));
    }
    line
}

pub fn answer_line(answers: &[f32]) -> String {
    let tokens: Vec<String> = answers.iter().map(|&x| answer_token(x)).collect();
    tokens.join(" ")
}

/// The float that a token writes, if it is one.
pub fn read_float(token: &str) -> Option<f32> {
    let digits = token.strip_prefix('x')?;
    let hex = |b: u8| b.is_ascii_digit() || (b'a'..=b'f').contains(&b);
    if digits.len() != 8 || !digits.bytes().all(hex) {
        return None;
    }
    u32::from_str_radix(digits, 16).ok().map(f32::from_bits)
}

/// The tokens as exactly N floats.
pub fn read_floats<const N: usize>(tokens: &[&str]) -> Option<[f32; N]> {
    let floats: Option<Vec<f32>> = tokens.iter().map(|token| read_float(token)).collect();
    floats?.try_into().ok()
}
