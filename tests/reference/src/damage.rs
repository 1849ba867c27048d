//! Texts and numbers with faults.

use crate::chance::Chance;
use crate::sheet::{Numbers, RANGES};
use crate::text::MOST_SPELT;

/// Bytes that a fault puts in: those with a meaning in a text and some others.
pub const FAULTS: [u8; 18] = [
    0, 9, b'\n', b'\r', b' ', b'+', b'-', b'.', b'=', b'0', b'1', b'9', b':', b'C', b'Z', b'c',
    127, 255,
];

fn lines(text: &[u8]) -> Vec<Vec<u8>> {
    text.split_inclusive(|&byte| byte == b'\n')
        .map(<[u8]>::to_vec)
        .collect()
}

/// Values that lines may not have, or only some, and that one changed byte does not give.
const VALUES: [&str; 8] = [
    "",
    "0",
    "00",
    "-0",
    "-01",
    "10000000000",
    "-10000000000",
    "18446744073709551616",
];

/// The text with a byte at a place changed, put in, or left out.
fn faults_at(text: &[u8], at: usize) -> Vec<Vec<u8>> {
    let (front, behind) = (&text[..at], &text[at + 1..]);
    let mut faults = vec![[front, behind].concat()];
    let near = [1, 255, 32, 128].map(|step| text[at].wrapping_add(step));
    for byte in FAULTS.into_iter().chain(near) {
        faults.push([front, &[byte], behind].concat());
        faults.push([front, &[byte], &text[at..]].concat());
    }
    faults
}

/// A text with each line put otherwise, in each of some ways.
fn each_line_put<const WAYS: usize>(
    text: &[u8],
    put: impl Fn(&[u8]) -> [Vec<u8>; WAYS],
) -> Vec<Vec<u8>> {
    let lines = lines(text);
    let mut faults = Vec::new();
    for (i, line) in lines.iter().enumerate() {
        let (before, behind) = (lines[..i].concat(), lines[i + 1..].concat());
        let with = |line: Vec<u8>| [&before[..], &line, &behind].concat();
        faults.extend(put(line).map(with));
    }
    faults
}

/// A text with each line left out, doubled, in capitals, behind an empty one, ended by
/// two bytes.
fn line_faults(text: &[u8]) -> Vec<Vec<u8>> {
    each_line_put(text, |line| {
        let capitals = line.to_ascii_uppercase();
        let ended = [line.trim_ascii_end(), b"\r\n"].concat();
        let behind = [b"\n", line].concat();
        [Vec::new(), line.repeat(2), capitals, behind, ended]
    })
}

/// A text with other values in each line, most of them misspelt.
fn value_faults(text: &[u8]) -> Vec<Vec<u8>> {
    each_line_put(text, |line| {
        let line = String::from_utf8_lossy(line);
        let (key, _) = line.split_once('=').expect("key=value");
        VALUES.map(|value| format!("{key}={value}\n").into_bytes())
    })
}

/// The text with one fault: at every place, in every line, and bytes behind.
pub fn every_fault(text: &[u8]) -> Vec<Vec<u8>> {
    let places = (0..text.len()).flat_map(|at| faults_at(text, at));
    let mut faults: Vec<_> = places.collect();
    faults.extend(line_faults(text));
    faults.extend(value_faults(text));
    for byte in FAULTS {
        faults.extend([1, 2, 300].map(|n| [text, &vec![byte; n]].concat()));
    }
    faults
}

/// Puts one more fault in.
fn damage(chance: &mut Chance, text: &mut Vec<u8>) {
    let at = chance.place(text.len() + 1);
    match chance.between(0, 12) {
        0 => text.insert(at, chance.one_of(&FAULTS)),
        1 => text.truncate(at),
        2 => text.extend((0..=chance.between(0, 200)).map(|_| chance.one_of(&FAULTS))),
        3 | 4 if at < text.len() => text[at] = chance.one_of(&FAULTS),
        5 if at < text.len() => text[at] ^= 1 << chance.between(0, 7),
        6 if at < text.len() => {
            text.remove(at);
        }
        7 | 8 => *text = exchanged_lines(chance, lines(text)).concat(),
        _ => *text = another_value(chance, lines(text)).concat(),
    }
}

/// A line left out, doubled, or exchanged with another.
fn exchanged_lines(chance: &mut Chance, mut lines: Vec<Vec<u8>>) -> Vec<Vec<u8>> {
    if lines.is_empty() {
        return lines;
    }
    let (i, j) = (chance.place(lines.len()), chance.place(lines.len()));
    match chance.between(0, 2) {
        0 => {
            lines.remove(i);
        }
        1 => lines.insert(i, lines[j].clone()),
        _ => lines.swap(i, j),
    }
    lines
}

/// A line with another value, spelt right or not.
fn another_value(chance: &mut Chance, mut lines: Vec<Vec<u8>>) -> Vec<Vec<u8>> {
    if lines.is_empty() {
        return lines;
    }
    let i = chance.place(lines.len());
    let line = String::from_utf8_lossy(&lines[i]).into_owned();
    let (key, old) = line.trim_end().split_once('=').unwrap_or((&line, ""));
    let old: u64 = old.parse().unwrap_or(0);
    let value = match chance.between(0, 9) {
        0 => format!("0{old}"),
        1 => format!("-{old}"),
        2 => "-0".to_string(),
        3 => String::new(),
        4 => number(chance).to_string(),
        5 => chance.between(0, old.min(1 << 40) * 2).to_string(),
        6 | 7 => old.saturating_sub(1).to_string(),
        _ => old.saturating_add(1).to_string(),
    };
    lines[i] = format!("{key}={value}\n").into_bytes();
    lines
}

/// A number of any size.
fn number(chance: &mut Chance) -> u64 {
    const EDGES: [u64; 8] = [
        0,
        MOST_SPELT,
        MOST_SPELT + 1,
        1 << 31,
        1 << 32,
        1 << 63,
        u64::MAX - 1,
        u64::MAX,
    ];
    match chance.between(0, 3) {
        0 => chance.one_of(&EDGES),
        1 => chance.between(0, 9),
        _ => chance.between(0, (1 << 48) - 1) >> chance.between(0, 47),
    }
}

/// A text with one fault, or some; another than it was.
pub fn damaged(chance: &mut Chance, text: &[u8]) -> Vec<u8> {
    let mut changed = text.to_vec();
    while changed == text {
        for _ in 0..chance.one_of(&[1, 1, 1, 2, 4]) {
            damage(chance, &mut changed);
        }
    }
    changed
}

/// A sheet's numbers with one to three of them moved a little, put to an end of
/// their range or beside it, or replaced.
pub fn moved(chance: &mut Chance, mut numbers: Numbers) -> Numbers {
    for _ in 0..chance.between(1, 3) {
        let i = chance.place(numbers.len());
        numbers[i] = match chance.between(0, 5) {
            0 => numbers[i].saturating_add(1),
            1 => numbers[i].saturating_sub(1),
            2 => chance.one_of(&RANGES[i].ends_and_beside()),
            3 | 4 => chance.one_in_range(RANGES[i]),
            _ => number(chance),
        };
    }
    numbers
}
