//! The words of a line of text, as the programs of this repository read and write them: floats by
//! their bits in lower-case hexadecimal, `nan` for any NaN.

/// At most this many bytes, the line's end not counted.
pub const LINE: usize = 1024;

/// The words of a line, apart by blanks, up to a `#`. None where the line is too long.
pub fn words(line: &[u8]) -> Option<Vec<&[u8]>> {
    if line.len() > LINE {
        return None;
    }
    let end = line.iter().position(|b| *b == b'#').unwrap_or(line.len());
    Some(
        line[..end]
            .split(|b| *b == b' ')
            .filter(|w| !w.is_empty())
            .collect(),
    )
}

fn digits(word: &[u8], count: usize) -> Option<u64> {
    if word.len() != count {
        return None;
    }
    word.iter().try_fold(0, |sum, b| {
        let digit = match b {
            b'0'..=b'9' => b - b'0',
            b'a'..=b'f' => b - b'a' + 10,
            _ => return None,
        };
        Some(sum * 16 + digit as u64)
    })
}

pub fn parse_f32(word: &[u8]) -> Option<f32> {
    if word == b"nan" {
        return Some(f32::NAN);
    }
    digits(word, 8).map(|bits| f32::from_bits(bits as u32))
}

pub fn parse_f64(word: &[u8]) -> Option<f64> {
    if word == b"nan" {
        return Some(f64::NAN);
    }
    digits(word, 16).map(f64::from_bits)
}

pub fn f32_word(x: f32) -> String {
    if x.is_nan() {
        "nan".to_string()
    } else {
        format!("{:08x}", x.to_bits())
    }
}

pub fn f64_word(x: f64) -> String {
    if x.is_nan() {
        "nan".to_string()
    } else {
        format!("{:016x}", x.to_bits())
    }
}
