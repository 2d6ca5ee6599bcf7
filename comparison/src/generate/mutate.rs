//! Lines that are no calls, made from lines that are; also comments and empty lines.

use super::rng::Rng;

/// The line with one thing about it changed. It may still be a call, but never two lines.
pub fn mutated(rng: &mut Rng, line: &[u8]) -> Vec<u8> {
    let mut parts = line.split(|byte| *byte == b' ').map(<[u8]>::to_vec).collect::<Vec<_>>();
    let place = rng.below(parts.len() as u64) as usize;
    match rng.below(16) {
        0 => {
            parts.pop();
        }
        1 => parts.push(b"0".to_vec()),
        2..=4 => {
            let numbers: [&[u8]; 16] = [
                b"01",
                b"+1",
                b"-0",
                b"",
                b"18446744073709551616",
                b"-1",
                b"a",
                b"1.0",
                b"--1",
                b"-",
                b"999999999999999999999999999999999999999999",
                b"00",
                b"4294967296",
                b"0x1",
                b"-9223372036854775809",
                b"2147483648",
            ];
            parts[place] = rng.pick(&numbers).to_vec();
        }
        5 => parts[place].insert(0, b' '),
        6 => parts.push(Vec::new()),
        7 => parts.insert(0, Vec::new()),
        8 => {
            let last = parts.len() - 1;
            parts[last].push(b'\r');
        }
        9 => parts[0].make_ascii_uppercase(),
        10 => {
            parts[0].pop();
        }
        11 => {
            let byte = rng.pick(&[0xFF, 0x00, b'\t', 0xC3, b',', b'#']);
            parts[place].push(byte);
        }
        12 => parts.extend((0..260).map(|_| b"1".to_vec())),
        13 => parts[0].extend((0..5_000).map(|_| b'a')),
        14 => return b"# a comment 1 2 3".to_vec(),
        _ => return Vec::new(),
    }
    parts.join(&b' ')
}
