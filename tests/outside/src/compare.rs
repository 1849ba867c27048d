//! One call of the archive beside the reference: the answer and every byte of
//! the memory in which the buffer lies.

use crate::calls;
use reference::catalogue::{write_report, LONGEST_REPORT};
use reference::lip_table::{write_table, TABLE_LENGTH};
use reference::sheet::Numbers;
use reference::text::{self, Answer, LONGEST_CERTIFICATE, REFUSALS};
use std::fmt::Write;

/// What a call is given.
#[derive(Clone, Copy)]
pub enum Call<'a> {
    Write(&'a [u8]),
    Check(&'a [u8]),
    FromNumbers(Numbers),
    Report(&'a [u8]),
    LipTable,
}

impl Call<'_> {
    /// A buffer of so many bytes takes everything that the call writes.
    fn longest(self) -> usize {
        match self {
            Call::Report(_) => LONGEST_REPORT,
            Call::LipTable => TABLE_LENGTH,
            _ => LONGEST_CERTIFICATE,
        }
    }
}

/// At least so many bytes stand on either side of a buffer, which no call may
/// touch.
const GUARD: usize = 64;

/// Where the buffer begins: at any place of a machine word, by its length.
fn front(room: usize) -> usize {
    GUARD + room % 16
}

/// How many sheets or texts were tried, and how many calls agreed, by the
/// refusal's number, 0 for none.
#[derive(Default)]
pub struct Agreed {
    pub cases: u64,
    pub calls: [u64; REFUSALS + 1],
}

impl Agreed {
    /// Calls both with a buffer of so many bytes; what is written, or how they
    /// differ.
    pub fn call(&mut self, call: Call, room: usize) -> Result<Vec<u8>, String> {
        let mut seen = guarded(room);
        let mut expected = seen.clone();
        let answer = of_archive(call, buffer_in(&mut seen, room));
        let right = of_reference(call, buffer_in(&mut expected, room));
        let report = || difference(call, room, (answer, &seen), (right, &expected));
        if answer != right || seen != expected {
            return Err(report());
        }
        if !fits(answer, room, call.longest()) {
            let rule = format!("{} bytes are always to suffice\n", call.longest());
            return Err(report() + &rule);
        }
        self.calls[answer.refusal as usize] += 1;
        let written = match (call, answer.refusal) {
            (Call::Check(_), _) | (_, 1..) => 0,
            _ => answer.length as usize,
        };
        Ok(buffer_in(&mut seen, room)[..written].to_vec())
    }
}

/// No certificate, no report and no table is longer than the header's constant, and a
/// buffer of so many bytes is never too short.
fn fits(answer: Answer, room: usize, longest: usize) -> bool {
    let too_short = answer.refusal == 12 && room >= longest;
    answer.length <= longest as u64 && !too_short
}

/// Memory with a buffer in its middle. The bytes vary, so that one moved to
/// another place shows.
fn guarded(room: usize) -> Vec<u8> {
    (0..front(room) + room + GUARD)
        .map(|i| (i * 31 % 251) as u8)
        .collect()
}

fn buffer_in(memory: &mut [u8], room: usize) -> &mut [u8] {
    &mut memory[front(room)..][..room]
}

fn of_archive(call: Call, buffer: &mut [u8]) -> Answer {
    match call {
        Call::Write(sheet) => calls::write(sheet, buffer),
        Call::Check(certificate) => calls::check(certificate),
        Call::FromNumbers(numbers) => calls::from_numbers(numbers, buffer),
        Call::Report(sheets) => calls::report(sheets, buffer),
        Call::LipTable => calls::lip_table(buffer),
    }
}

fn of_reference(call: Call, buffer: &mut [u8]) -> Answer {
    match call {
        Call::Write(sheet) => text::write_from_text(sheet, buffer),
        Call::Check(certificate) => text::check(certificate),
        Call::FromNumbers(numbers) => text::write_from_numbers(numbers, buffer),
        Call::Report(sheets) => write_report(sheets, buffer),
        Call::LipTable => write_table(buffer),
    }
}

/// The case, so that a person can paste it.
pub fn pasted(call: Call, room: usize) -> String {
    let on = |name: &str, text: &[u8]| {
        let text = for_printf(text);
        format!("{name}, on what this prints:\n    printf '{text}'\n")
    };
    let buffer = format!("a buffer of {room} bytes");
    match call {
        Call::Write(sheet) => on(&format!("hm_certificate_write, {buffer}"), sheet),
        Call::Check(certificate) => on("hm_certificate_check", certificate),
        Call::FromNumbers(numbers) => {
            let numbers = numbers.map(|n| n.to_string()).join(", ");
            format!("hm_certificate_from_numbers({numbers}, buffer, {room})\n")
        }
        Call::Report(sheets) => on(&format!("hm_catalogue_report, {buffer}"), sheets),
        Call::LipTable => format!("hm_lip_table, {buffer}\n"),
    }
}

/// The case and both results.
fn difference(call: Call, room: usize, seen: (Answer, &[u8]), expected: (Answer, &[u8])) -> String {
    let mut report = pasted(call, room);
    let unlike = (0..seen.1.len()).find(|&at| seen.1[at] != expected.1[at]);
    let place = unlike.map(|at| at as i64 - front(room) as i64);
    for (whose, (answer, memory)) in [("archive", seen), ("reference", expected)] {
        let Answer {
            refusal,
            line,
            length,
        } = answer;
        let bytes = shown(&memory[front(room)..][..room], place.unwrap_or(0));
        let _ = writeln!(
            report,
            "{whose}: refusal {refusal}, line {line}, length {length}; the buffer:\n    {bytes}"
        );
    }
    if let Some(place) = place {
        let _ = writeln!(
            report,
            "the first byte that differs is at {place} of the buffer"
        );
    }
    report
}

/// The bytes of a buffer; of more than a certificate takes, those about a place.
fn shown(buffer: &[u8], place: i64) -> String {
    const MOST: usize = 400;
    let first = (place.max(0) as usize).saturating_sub(MOST / 2);
    let bytes: Vec<u8> = match buffer.len() {
        0..=MOST => buffer.to_vec(),
        _ => buffer.iter().copied().skip(first).take(MOST).collect(),
    };
    bytes.escape_ascii().to_string()
}

/// Bytes as a format of printf(1) in single quotes.
fn for_printf(bytes: &[u8]) -> String {
    let mut format = String::new();
    for &byte in bytes {
        match byte {
            b'\n' => format += "\\n",
            b'%' => format += "%%",
            b'\\' | b'\'' | 0..=31 | 127.. => format += &format!("\\{byte:03o}"),
            _ => format.push(byte as char),
        }
    }
    format
}
