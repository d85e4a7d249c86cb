//! Words of eight bytes, the first of which is the lowest: where a field ends, the number in a short field, and the digits
//! of a number.

const ZEROS: u64 = each(b'0');

const fn each(byte: u8) -> u64 {
    0x0101_0101_0101_0101 * byte as u64
}

/// Marks the bytes that are zero by their high bits. Above the first of them others may be marked, too.
fn zeros(word: u64) -> u64 {
    word.wrapping_sub(each(1)) & !word & each(0x80)
}

/// The word from a place on. Behind the end stand line feeds.
pub fn word_at(bytes: &[u8], at: usize) -> u64 {
    match bytes.get(at..).and_then(|rest| rest.first_chunk()) {
        Some(word) => u64::from_le_bytes(*word),
        None => last_word(bytes, at),
    }
}

#[cold]
fn last_word(bytes: &[u8], at: usize) -> u64 {
    let mut word = [b'\n'; 8];
    let rest = bytes.get(at..).unwrap_or_default();
    word[..rest.len()].copy_from_slice(rest);
    u64::from_le_bytes(word)
}

/// How many bytes stand before the first comma or line feed of a word.
pub fn end_in(word: u64) -> usize {
    let ends = zeros(word ^ each(b',')) | zeros(word ^ each(b'\n'));
    ends.trailing_zeros() as usize / 8
}

/// Where the field that begins at a place ends.
pub fn field_end(bytes: &[u8], from: usize) -> usize {
    let mut at = from;
    loop {
        let len = end_in(word_at(bytes, at));
        at += len;
        if len < 8 {
            return at;
        }
    }
}

/// The first bytes of a word, fewer than eight, as a number: a sign, if any, and digits with a point, if any. Gives the
/// digits as a number, and how many of them stand after the point.
pub fn short_number(word: u64, len: usize) -> Option<(i64, usize)> {
    if len == 0 || len > 7 {
        return None;
    }
    let minus = usize::from(word as u8 == b'-');
    let (word, len) = (word >> (8 * minus), len - minus);
    if len == 0 {
        return None;
    }
    let text = word << (64 - 8 * len);
    let points = zeros(text ^ each(b'.'));
    let (digits, count, after) = if points == 0 {
        (text, len, 0)
    } else {
        let point = points & points.wrapping_neg();
        let (before, behind) = (text & ((point >> 7) - 1), text & !(point | (point - 1)));
        (before << 8 | behind, len - 1, point.leading_zeros() as usize / 8)
    };
    let digits = (digits | ZEROS >> (8 * count)) ^ ZEROS;
    if count == 0 || (digits.wrapping_add(each(0x76)) | digits) & each(0x80) != 0 {
        return None;
    }
    let size = number_of(digits) as i64;
    Some((if minus == 1 { -size } else { size }, after))
}

/// The number of eight digits.
fn number_of(digits: u64) -> u64 {
    let pairs = digits.wrapping_mul(10).wrapping_add(digits >> 8);
    let low = (pairs & 0xFF_0000_00FF).wrapping_mul(0x000F_4240_0000_0064);
    let high = (pairs >> 16 & 0xFF_0000_00FF).wrapping_mul(0x0000_2710_0000_0001);
    low.wrapping_add(high) >> 32
}

/// The eight digits of a number below 100,000,000.
fn digits_of(number: u64) -> u64 {
    let fours = number / 10_000 | (number % 10_000) << 32;
    let hundreds = fours * 10_486 >> 20 & 0x7F_0000_007F;
    let twos = hundreds | (fours - 100 * hundreds) << 16;
    let tens = twos * 103 >> 10 & 0x000F_000F_000F_000F;
    tens | (twos - 10 * tens) << 8
}

/// The text of a number below 10,000,000 with so many decimals, six at most, and how many bytes it has.
pub fn short_text(number: u64, decimals: usize) -> (u64, usize) {
    let digits = digits_of(number);
    let skipped = (digits.trailing_zeros() as usize / 8).min(7 - decimals);
    let text = (digits | ZEROS) >> (8 * skipped);
    let whole = 8 - skipped - decimals;
    if decimals == 0 {
        return (text, whole);
    }
    let before = (1 << (8 * whole)) - 1;
    (text & before | u64::from(b'.') << (8 * whole) | (text & !before) << 8, whole + 1 + decimals)
}
