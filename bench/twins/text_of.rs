//! Writes ten million short numbers of hundredths by the plain twin of `fix_point::push_text_of`, and prints the
//! picoseconds for each number and the number of bytes.

mod number_text;

use number_text::push_text_of;
use std::time::Instant;

const TEXTS: usize = 10_000_000;
const ENOUGH: usize = 65_536;

fn main() {
    let began = Instant::now();
    let mut text = Vec::new();
    let mut count = 0;
    let mut state: u64 = 1;
    for _ in 0..TEXTS {
        state = (state * 1_103_515_245 + 12_345) % (1 << 31);
        push_text_of(&mut text, i128::from((state >> 8) % 100_000) - 50_000, 2);
        if text.len() >= ENOUGH {
            count += text.len();
            text.clear();
        }
    }
    count += text.len();
    let nanos = began.elapsed().as_nanos() as u64;
    println!("{} {count}", nanos * 1000 / TEXTS as u64);
}
