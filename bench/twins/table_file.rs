//! The readings files on which tables are measured.

use crate::number_text::push_text_of;

pub const ROWS: u32 = 200_000;

/// The readings file: a time in seconds, and hundredths in the other columns.
pub fn file(columns: u32) -> Vec<u8> {
    let mut bytes = Vec::new();
    let header: &[u8] = if columns == 2 { b"time,a\n" } else { b"time,a,n,b,o,p,c,q\n" };
    bytes.extend_from_slice(header);
    let mut state: u64 = 1;
    for row in 0..ROWS {
        bytes.extend_from_slice(row.to_string().as_bytes());
        for col in 1..columns {
            state = (state * 1_103_515_245 + 12_345) % (1 << 31);
            bytes.push(b',');
            // Of columns 2, 4 and 7 each misses every third reading, where there are others.
            if columns == 2 || (row + col) % 3 != 0 || !matches!(col, 1 | 3 | 6) {
                push_text_of(&mut bytes, i128::from((state >> 8) % 100_000), 2);
            }
        }
        bytes.push(b'\n');
    }
    bytes
}
