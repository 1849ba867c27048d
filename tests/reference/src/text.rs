//! Sheets and certificates as text: questions 1, 12 and 13 (document 01,
//! "Sheet and certificate", "The questions, in this order").

use crate::sheet::{
    ask, ask_numbers, Accepted, FigureNumbers, Figures, Numbers, Refusal, Sheet, CERTIFICATE_LINES,
};

/// No sheet that is spelt right is longer: each number has at most ten digits.
pub const LONGEST_SHEET: usize = 184;

/// No certificate is longer: a shift may have a minus, too.
pub const LONGEST_CERTIFICATE: usize = 289;

/// A certificate's line that has the key; a sheet's lines are the first of them.
pub fn line_of(key: &str) -> u64 {
    let mut keys = Sheet::KEYS.iter().chain(&Figures::KEYS);
    keys.position(|&its| its == key).expect("a key") as u64 + 1
}

/// The line behind the last of a sheet, or of a certificate.
pub const BEHIND_SHEET: u64 = Sheet::LINES as u64 + 1;
pub const BEHIND_CERTIFICATE: u64 = CERTIFICATE_LINES as u64 + 1;

/// The refusals have the numbers from 1 to this.
pub const REFUSALS: usize = 16;

/// What a call returns, as include/honemagenta.h has it: 0 or the number of the
/// refusal, a line and a length.
#[repr(C)]
#[derive(Clone, Copy, Debug, PartialEq, Eq)]
pub struct Answer {
    pub refusal: u64,
    pub line: u64,
    pub length: u64,
}

impl Answer {
    /// A text of that length is written or passes.
    pub(crate) fn in_order(length: usize) -> Answer {
        Answer {
            refusal: 0,
            line: 0,
            length: length as u64,
        }
    }

    pub(crate) fn refused(refusal: Refusal) -> Answer {
        Answer {
            refusal: refusal.number,
            line: refusal.line,
            length: 0,
        }
    }
}

/// The bytes not read yet; each line must be key=value and byte 10.
struct Reader<'a> {
    rest: &'a [u8],
}

impl<'a> Reader<'a> {
    /// The value of the next line, if its key is as asked.
    fn value(&mut self, key: &str) -> Option<&'a [u8]> {
        let end = self.rest.iter().position(|&byte| byte == 10)?;
        let line = &self.rest[..end];
        let value = line.strip_prefix(key.as_bytes())?.strip_prefix(b"=")?;
        self.rest = &self.rest[end + 1..];
        Some(value)
    }
}

/// The one letter C or Z.
fn form_of(value: &[u8]) -> Option<u64> {
    match value {
        b"C" => Some(0),
        b"Z" => Some(1),
        _ => None,
    }
}

/// A number has so many digits at most.
const DIGITS: usize = 10;

/// The greatest number that can be spelt.
pub const MOST_SPELT: u64 = 10_u64.pow(DIGITS as u32) - 1;

/// 1 to 10 digits, no leading zero but in 0 itself.
fn number_of(value: &[u8]) -> Option<u64> {
    if value.is_empty() || value.len() > DIGITS || (value[0] == b'0' && value.len() > 1) {
        return None;
    }
    let mut number = 0;
    for byte in value {
        if !byte.is_ascii_digit() {
            return None;
        }
        number = number * 10 + u64::from(byte - b'0');
    }
    Some(number)
}

/// A number that may have a minus, never before 0.
fn shift_of(value: &[u8]) -> Option<i128> {
    match value.strip_prefix(b"-") {
        None => number_of(value).map(i128::from),
        Some(digits) => number_of(digits)
            .filter(|&n| n != 0)
            .map(|n| -i128::from(n)),
    }
}

pub(crate) fn may_have_minus(key: &str) -> bool {
    key == "shiftlo" || key == "shifthi"
}

fn bad_line(place: usize) -> Refusal {
    Refusal::at(1, place)
}

/// The lines of a sheet.
fn sheet_lines(reader: &mut Reader) -> Result<Numbers, Refusal> {
    let mut numbers = [0; Sheet::LINES];
    for (i, key) in Sheet::KEYS.iter().enumerate() {
        let read = if i == 0 { form_of } else { number_of };
        numbers[i] = reader.value(key).and_then(read).ok_or(bad_line(i))?;
    }
    Ok(numbers)
}

/// The lines behind the sheet's.
fn figure_lines(reader: &mut Reader) -> Result<FigureNumbers, Refusal> {
    let mut numbers = [0; Figures::LINES];
    for (i, key) in Figures::KEYS.iter().enumerate() {
        let bad = bad_line(Sheet::LINES + i);
        let value = reader.value(key).ok_or(bad)?;
        let number = if may_have_minus(key) {
            shift_of(value)
        } else {
            number_of(value).map(i128::from)
        };
        numbers[i] = number.ok_or(bad)?;
    }
    Ok(numbers)
}

/// Nothing behind so many lines.
fn nothing_behind(reader: &Reader, lines: usize) -> Result<(), Refusal> {
    ask(reader.rest.is_empty(), 1, lines)
}

/// Question 1 on a sheet.
pub fn read_sheet(text: &[u8]) -> Result<Numbers, Refusal> {
    let mut reader = Reader { rest: text };
    let numbers = sheet_lines(&mut reader)?;
    nothing_behind(&reader, Sheet::LINES)?;
    Ok(numbers)
}

/// Question 1 on a certificate: the sheet and the figures that it shows.
pub fn read_certificate(text: &[u8]) -> Result<(Sheet, Figures), Refusal> {
    let mut reader = Reader { rest: text };
    let numbers = sheet_lines(&mut reader)?;
    let figures = figure_lines(&mut reader)?;
    nothing_behind(&reader, CERTIFICATE_LINES)?;
    Ok((Sheet::from_numbers(numbers), Figures::from_numbers(figures)))
}

/// The lines of a sheet, of any numbers.
pub fn sheet_text(numbers: Numbers) -> String {
    let mut text = format!("form={}\n", if numbers[0] == 1 { "Z" } else { "C" });
    for (key, number) in Sheet::KEYS.iter().zip(numbers).skip(1) {
        text += &format!("{key}={number}\n");
    }
    text
}

/// The lines of a certificate, of any numbers.
pub fn certificate_lines(numbers: Numbers, figures: FigureNumbers) -> String {
    let mut text = sheet_text(numbers);
    for (key, figure) in Figures::KEYS.iter().zip(figures) {
        text += &format!("{key}={figure}\n");
    }
    text
}

pub fn certificate_text(accepted: &Accepted) -> String {
    certificate_lines(accepted.sheet.numbers(), accepted.figures.numbers())
}

/// Question 12; the buffer is written where it is met.
pub(crate) fn write_text(text: &str, buffer: &mut [u8]) -> Answer {
    if text.len() > buffer.len() {
        return Answer {
            refusal: 12,
            line: 0,
            length: text.len() as u64,
        };
    }
    buffer[..text.len()].copy_from_slice(text.as_bytes());
    Answer::in_order(text.len())
}

/// The certificate of a sheet's text, into the buffer.
pub fn write_from_text(sheet: &[u8], buffer: &mut [u8]) -> Answer {
    match read_sheet(sheet) {
        Ok(numbers) => write_from_numbers(numbers, buffer),
        Err(refusal) => Answer::refused(refusal),
    }
}

/// The certificate of a sheet's numbers, into the buffer; the first question asked is
/// the second.
pub fn write_from_numbers(numbers: Numbers, buffer: &mut [u8]) -> Answer {
    match ask_numbers(numbers) {
        Ok(accepted) => write_text(&certificate_text(&accepted), buffer),
        Err(refusal) => Answer::refused(refusal),
    }
}

/// Question 13: do the figures agree with the working?
fn ask_agreement(accepted: &Accepted, shown: Figures) -> Result<(), Refusal> {
    let worked = accepted.figures.numbers();
    for (i, figure) in shown.numbers().into_iter().enumerate() {
        ask(figure == worked[i], 13, Sheet::LINES + i)?;
    }
    Ok(())
}

fn ask_certificate(certificate: &[u8]) -> Result<(), Refusal> {
    let (sheet, figures) = read_certificate(certificate)?;
    let accepted = ask_numbers(sheet.numbers())?;
    ask_agreement(&accepted, figures)
}

pub fn check(certificate: &[u8]) -> Answer {
    match ask_certificate(certificate) {
        Ok(()) => Answer::in_order(certificate.len()),
        Err(refusal) => Answer::refused(refusal),
    }
}

/// What the program prints for a sheet on standard input.
pub fn printed(sheet: &[u8]) -> String {
    match read_sheet(sheet).and_then(ask_numbers) {
        Ok(accepted) => certificate_text(&accepted),
        Err(refusal) => refusal_lines(refusal),
    }
}

/// What the program prints for a certificate on standard input.
pub fn printed_check(certificate: &[u8]) -> String {
    match ask_certificate(certificate) {
        Ok(()) => format!("passed={}\n", certificate.len()),
        Err(refusal) => refusal_lines(refusal),
    }
}

pub(crate) fn refusal_lines(refusal: Refusal) -> String {
    format!("refused={}\nline={}\n", refusal.number, refusal.line)
}
