//! The plain twin of `time_text::ticks` for instants: a reader of RFC 3339 texts by hand, with no proof.
//! It makes two million texts, reads each, and prints the picoseconds for each text and the sum of the nanoseconds.

use std::time::Instant;

const TEXTS: usize = 2_000_000;
const WIDTH: usize = 29;
const MOST: i128 = 9_000_000_000_000_000_000;

/// So many digits at the front as a number, and the rest.
fn digits(text: &[u8], count: usize) -> Option<(i64, &[u8])> {
    let mut number = 0;
    for byte in text.get(..count)? {
        if !byte.is_ascii_digit() {
            return None;
        }
        number = number * 10 + i64::from(byte - b'0');
    }
    Some((number, &text[count..]))
}

fn after(byte: u8, text: &[u8]) -> Option<&[u8]> {
    match text {
        [first, rest @ ..] if *first == byte => Some(rest),
        _ => None,
    }
}

/// The days of a month.
fn last_day(year: i64, month: i64) -> i64 {
    match month {
        2 if year % 4 == 0 && (year % 100 != 0 || year % 400 == 0) => 29,
        2 => 28,
        4 | 6 | 9 | 11 => 30,
        _ => 31,
    }
}

/// The days since 1970-01-01.
fn days(year: i64, month: i64, day: i64) -> i64 {
    let shifted = if month <= 2 { year - 1 } else { year };
    let era = shifted.div_euclid(400);
    let of_era = shifted - era * 400;
    let of_year = (153 * (if month > 2 { month - 3 } else { month + 9 }) + 2) / 5 + day - 1;
    era * 146_097 + of_era * 365 + of_era / 4 - of_era / 100 + of_year - 719_468
}

/// The nanoseconds of the digits after a point, if there is one, and the rest.
fn fraction(text: &[u8]) -> Option<(i64, &[u8])> {
    let Some(mut rest) = after(b'.', text) else {
        return Some((0, text));
    };
    let (mut nanos, mut place) = (0, 100_000_000);
    let mut count = 0;
    while let [byte @ b'0'..=b'9', more @ ..] = rest {
        nanos += i64::from(byte - b'0') * place;
        place /= 10;
        count += 1;
        rest = more;
    }
    (1..=9).contains(&count).then_some((nanos, rest))
}

/// The seconds of an offset from UTC, up to the end of the text.
fn offset(text: &[u8]) -> Option<i64> {
    if matches!(text, [b'Z' | b'z']) {
        return Some(0);
    }
    let (sign, rest) = match text {
        [b'+', rest @ ..] => (1, rest),
        [b'-', rest @ ..] => (-1, rest),
        _ => return None,
    };
    let (hours, rest) = digits(rest, 2)?;
    let (minutes, rest) = digits(after(b':', rest)?, 2)?;
    (rest.is_empty() && hours <= 25 && minutes < 60).then_some(sign * (hours * 3600 + minutes * 60))
}

fn ticks(text: &[u8]) -> Option<i64> {
    let (year, rest) = digits(text, 4)?;
    let (month, rest) = digits(after(b'-', rest)?, 2)?;
    let (day, rest) = digits(after(b'-', rest)?, 2)?;
    if !(1..=12).contains(&month) || !(1..=last_day(year, month)).contains(&day) {
        return None;
    }
    let rest = match rest {
        [b'T' | b't' | b' ', rest @ ..] => rest,
        _ => return None,
    };
    let (hour, rest) = digits(rest, 2)?;
    let (minute, rest) = digits(after(b':', rest)?, 2)?;
    let (second, rest) = digits(after(b':', rest)?, 2)?;
    if hour > 23 || minute > 59 || second > 60 {
        return None;
    }
    let (nanos, rest) = fraction(rest)?;
    let seconds = days(year, month, day) * 86_400 + hour * 3600 + minute * 60 + second.min(59) - offset(rest)?;
    let ticks = i128::from(seconds) * 1_000_000_000 + i128::from(nanos);
    (-MOST..=MOST).contains(&ticks).then_some(ticks as i64)
}

/// Texts such as `2024-05-17T12:34:56.789+02:00`, one after the other.
fn instants() -> Vec<u8> {
    let mut bytes = Vec::with_capacity(TEXTS * WIDTH);
    let mut state: u64 = 1;
    let mut next = || {
        state = (state * 1_103_515_245 + 12_345) % (1 << 31);
        (state >> 8) % 100_000
    };
    for _ in 0..TEXTS {
        let (day, second, milli) = (next(), next(), next());
        let date = [19 + day / 100 % 3, day % 100, 1 + day / 300 % 12, 1 + day / 3600 % 28];
        let time = [second % 24, second / 24 % 60, second / 1440 % 60];
        let [century, year, month, day] = date;
        let [hour, minute, second] = time;
        let text = format!(
            "{century:02}{year:02}-{month:02}-{day:02}T{hour:02}:{minute:02}:{second:02}.{:03}+0{}:00",
            milli % 1000,
            milli / 1000 % 10
        );
        bytes.extend_from_slice(text.as_bytes());
    }
    bytes
}

fn main() {
    let texts = instants();
    let began = Instant::now();
    let mut sum: i64 = 0;
    for text in texts.chunks_exact(WIDTH) {
        sum = sum.wrapping_add(ticks(text).unwrap_or(0));
    }
    let nanos = began.elapsed().as_nanos() as u64;
    println!("{} {sum}", nanos * 1000 / TEXTS as u64);
}
