//! The plain twin of `fix_point::push_text_of`: the same texts, with no proof.

use std::convert::TryFrom;

pub fn push_text_of(text: &mut Vec<u8>, value: i128, d: u32) {
    let size = value.unsigned_abs();
    if value < 0 {
        text.push(b'-');
    }
    let power = 10u64.pow(d);
    let rest = match u64::try_from(size) {
        Ok(size) => {
            push_digits(text, size / power);
            size % power
        }
        Err(_) => {
            text.extend_from_slice((size / u128::from(power)).to_string().as_bytes());
            (size % u128::from(power)) as u64
        }
    };
    if d > 0 {
        text.push(b'.');
        for place in (0..d).rev() {
            text.push(b'0' + (rest / 10u64.pow(place) % 10) as u8);
        }
    }
}

pub fn push_digits(text: &mut Vec<u8>, mut number: u64) {
    let mut digits = [0; 20];
    let mut from = digits.len();
    loop {
        from -= 1;
        digits[from] = b'0' + (number % 10) as u8;
        number /= 10;
        if number == 0 {
            break;
        }
    }
    text.extend_from_slice(&digits[from..]);
}
