//! Names of operations that are nearly, or exactly, what a reader takes.

use crate::reference::ops;

/// Both sides of every boundary of table 3-7 of the Unicode Standard, at each byte of a sequence, whole and cut short.
pub fn boundary_names() -> Vec<Vec<u8>> {
    const LEADS: [u8; 30] = [
        0x00, 0x7f, 0x80, 0x8f, 0x90, 0x9f, 0xa0, 0xbf, 0xc0, 0xc1, 0xc2, 0xdf, 0xe0, 0xe1, 0xec, 0xed, 0xee, 0xef,
        0xf0, 0xf1, 0xf3, 0xf4, 0xf5, 0xf7, 0xf8, 0xfb, 0xfc, 0xfd, 0xfe, 0xff,
    ];
    const SECONDS: [u8; 10] = [0x00, 0x7f, 0x80, 0x8f, 0x90, 0x9f, 0xa0, 0xbf, 0xc0, 0xff];
    const TAILS: [u8; 4] = [0x7f, 0x80, 0xbf, 0xc0];

    let ones: Vec<Vec<u8>> = LEADS.iter().map(|&lead| vec![lead]).collect();
    let twos = longer(&ones, &SECONDS);
    let threes = longer(&twos, &TAILS);
    let fours = longer(&threes, &TAILS);
    [ones, twos, threes, fours].concat()
}

fn longer(names: &[Vec<u8>], ends: &[u8]) -> Vec<Vec<u8>> {
    names.iter().flat_map(|name| ends.iter().map(|&end| with_end(name, end))).collect()
}

fn with_end(name: &[u8], end: u8) -> Vec<u8> {
    let mut longer = name.to_vec();
    longer.push(end);
    longer
}

/// A listed name and what is one step away from it.
fn around(name: &str) -> Vec<Vec<u8>> {
    let bytes = name.as_bytes();
    vec![
        bytes.to_vec(),
        bytes[..bytes.len() - 1].to_vec(),
        bytes[1..].to_vec(),
        with_end(bytes, b'x'),
        with_end(bytes, 0),
        with_end(bytes, b' '),
        name.to_uppercase().into_bytes(),
        [b" ", bytes].concat(),
        name.repeat(2).into_bytes(),
    ]
}

/// The names of the class "names": size 0, the listed ones and their neighbours, long ones, and the boundaries of
/// UTF-8 alone and inside ordinary text.
pub fn all() -> Vec<Vec<u8>> {
    let mut names = vec![vec![], b"a".repeat(300), [b"a".repeat(300), vec![0xff]].concat()];
    names.extend(ops().iter().flat_map(|(name, _)| around(name)));
    let boundary = boundary_names();
    names.extend(boundary.iter().step_by(7).map(|name| [b"mov".as_slice(), name, b"z"].concat()));
    names.extend(boundary);
    names
}
