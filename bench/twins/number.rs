//! The plain twin of `fix_point::scaled`: the same grammar and the same answers, with no proof.
#![allow(dead_code)]

#[derive(Clone, Copy, PartialEq)]
pub enum Extra {
    Refuse,
    Round,
}

#[derive(Debug)]
pub enum NumFault {
    NotNumber,
    TooFine,
    OutOfRange,
}

fn is_blank(byte: u8) -> bool {
    byte == b' ' || byte == b'\t'
}

/// The digits at the front as a number onto `value`, how many they are, and the rest.
fn digits(mut value: u128, text: &[u8], room: usize) -> Option<(u128, usize, &[u8])> {
    let mut count = 0;
    while count < text.len() && text[count].is_ascii_digit() {
        if count == room {
            return None;
        }
        value = value * 10 + u128::from(text[count] - b'0');
        count += 1;
    }
    Some((value, count, &text[count..]))
}

fn sign(text: &[u8]) -> (bool, &[u8]) {
    match text {
        [b'-', rest @ ..] => (true, rest),
        [b'+', rest @ ..] => (false, rest),
        _ => (false, text),
    }
}

/// The tens of an exponent, and the rest.
fn exponent(text: &[u8]) -> Option<(i64, &[u8])> {
    match text {
        [b'e' | b'E', rest @ ..] => {
            let (negative, rest) = sign(rest);
            let (tens, count, rest) = digits(0, rest, 3)?;
            if count == 0 {
                return None;
            }
            Some((if negative { -(tens as i64) } else { tens as i64 }, rest))
        }
        _ => Some((0, text)),
    }
}

pub fn scaled(text: &[u8], d: u32, extra: Extra, most: i64) -> Result<i64, NumFault> {
    if text.len() > 64 {
        return Err(NumFault::NotNumber);
    }
    let mut rest = text;
    while let [byte, more @ ..] = rest {
        if !is_blank(*byte) {
            break;
        }
        rest = more;
    }
    let (negative, rest) = sign(rest);
    let (value, whole, rest) = digits(0, rest, 30).ok_or(NumFault::NotNumber)?;
    let (value, after, rest) = match rest {
        [b'.', more @ ..] => digits(value, more, 30 - whole).ok_or(NumFault::NotNumber)?,
        _ => (value, 0, rest),
    };
    if whole + after == 0 {
        return Err(NumFault::NotNumber);
    }
    let (tens, rest) = exponent(rest).ok_or(NumFault::NotNumber)?;
    if !rest.iter().all(|byte| is_blank(*byte)) {
        return Err(NumFault::NotNumber);
    }
    let size = sized(value, i64::from(d) + tens - after as i64, extra)?;
    if size > most as u128 {
        return Err(NumFault::OutOfRange);
    }
    Ok(if negative { -(size as i64) } else { size as i64 })
}

fn sized(value: u128, tens: i64, extra: Extra) -> Result<u128, NumFault> {
    let mut size = value;
    if tens >= 0 {
        for _ in 0..tens {
            if size == 0 || size > 10u128.pow(19) {
                break;
            }
            size *= 10;
        }
        return Ok(size);
    }
    if tens < -31 {
        return if extra == Extra::Refuse && value != 0 {
            Err(NumFault::TooFine)
        } else {
            Ok(0)
        };
    }
    let power = 10u128.pow(tens.unsigned_abs() as u32);
    let rest = value % power;
    match extra {
        Extra::Refuse if rest != 0 => Err(NumFault::TooFine),
        Extra::Refuse => Ok(value / power),
        Extra::Round => Ok(value / power + u128::from(2 * rest >= power)),
    }
}

pub fn units(text: &[u8], d: u32, extra: Extra) -> Result<i64, NumFault> {
    scaled(text, d, extra, 1_000_000_000_000_000)
}
