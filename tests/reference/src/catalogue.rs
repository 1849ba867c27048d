//! A report on a catalogue, sheets joined end to end: how many there are and under
//! which question they fall, and the figures of those accepted (document 02, W-202).

use crate::sheet::{ask_numbers, Figures, Numbers, Refusal, Sheet};
use crate::text::{read_sheet, refusal_lines, write_text, Answer, LONGEST_SHEET};

/// A catalogue has so many sheets at most.
pub const MOST_SHEETS: usize = 1000;

/// No catalogue that is spelt right is longer.
pub const LONGEST_CATALOGUE: usize = MOST_SHEETS * LONGEST_SHEET;

/// No report is longer, with counts of four digits, figures of ten and sums of thirteen.
pub const LONGEST_REPORT: usize = 27_088;

/// The questions under which single sheets are counted, the first and the last; spelling
/// and room are asked of the whole catalogue.
pub const COUNTED: (u64, u64) = (2, 11);

/// So many questions.
pub const COUNTS: usize = (COUNTED.1 - COUNTED.0 + 1) as usize;

/// The sheets of a catalogue: each run of as many lines as a sheet has, and a shorter
/// rest. A line ends with byte 10; what stands behind the last such byte is one too.
pub fn sheets_of(catalogue: &[u8]) -> Vec<Vec<u8>> {
    let lines: Vec<&[u8]> = catalogue.split_inclusive(|&byte| byte == 10).collect();
    let runs = lines.chunks(Sheet::LINES);
    runs.map(|lines| lines.concat()).collect()
}

/// An accepted sheet: its place in the catalogue, from 1, and its figures.
#[derive(Clone, Copy, Debug, PartialEq, Eq)]
pub struct Row {
    pub place: usize,
    pub area: i128,
    pub axial: i128,
}

impl Row {
    pub fn new(place: usize, figures: &Figures) -> Row {
        let Figures { area, axial, .. } = *figures;
        Row { place, area, axial }
    }
}

#[derive(Clone, Debug, Default, PartialEq, Eq)]
pub struct Report {
    /// How many sheets the catalogue has.
    pub sheets: usize,
    /// How many of them each question refuses, in the questions' order.
    pub refused: [usize; COUNTS],
    /// Those accepted, in the order of the catalogue.
    pub rows: Vec<Row>,
}

impl Report {
    /// Counts one more sheet that a question from 2 to 11 refuses.
    pub fn count(&mut self, question: u64) {
        self.refused[(question - COUNTED.0) as usize] += 1;
    }

    /// The sum of a figure over the accepted sheets.
    fn sum(&self, figure: impl Fn(&Row) -> i128) -> i128 {
        self.rows.iter().map(figure).sum()
    }

    /// One number to a line: the sheets, those accepted, those under each question, and
    /// both sums. Then a line for each accepted sheet.
    pub fn text(&self) -> String {
        let mut text = format!("{}\n{}\n", self.sheets, self.rows.len());
        for count in self.refused {
            text += &format!("{count}\n");
        }
        let (area, axial) = (self.sum(|row| row.area), self.sum(|row| row.axial));
        text += &format!("{area}\n{axial}\n");
        for row in &self.rows {
            text += &format!("{} {} {}\n", row.place, row.area, row.axial);
        }
        text
    }
}

/// Question 14, before any sheet is read: are there sheets, and not too many?
fn ask_number_of_sheets(sheets: usize) -> Result<(), Refusal> {
    match sheets {
        1..=MOST_SHEETS => Ok(()),
        _ => Err(Refusal {
            number: 14,
            line: 0,
        }),
    }
}

/// Question 15: does each sheet meet the first question? The first that does not is
/// named by its place.
fn ask_spelling(sheets: &[Vec<u8>]) -> Result<Vec<Numbers>, Refusal> {
    let numbered = sheets.iter().enumerate();
    let read = numbered.map(|(i, sheet)| read_sheet(sheet).map_err(|_| Refusal::at(15, i)));
    read.collect()
}

/// Each sheet is judged by questions 2 to 11 alone.
fn judged(sheets: Vec<Numbers>) -> Report {
    let mut report = Report {
        sheets: sheets.len(),
        ..Report::default()
    };
    for (i, numbers) in sheets.into_iter().enumerate() {
        match ask_numbers(numbers) {
            Ok(accepted) => report.rows.push(Row::new(i + 1, &accepted.figures)),
            Err(refusal) => report.count(refusal.number),
        }
    }
    report
}

/// Questions 14 and 15, and what is to be reported where they are met.
pub fn report(catalogue: &[u8]) -> Result<Report, Refusal> {
    let sheets = sheets_of(catalogue);
    ask_number_of_sheets(sheets.len())?;
    ask_spelling(&sheets).map(judged)
}

/// The report on a catalogue, into the buffer; question 12 comes last.
pub fn write_report(catalogue: &[u8], buffer: &mut [u8]) -> Answer {
    match report(catalogue) {
        Ok(report) => write_text(&report.text(), buffer),
        Err(refusal) => Answer::refused(refusal),
    }
}

/// What the program prints for a catalogue on standard input.
pub fn printed_report(catalogue: &[u8]) -> String {
    match report(catalogue) {
        Ok(report) => report.text(),
        Err(refusal) => refusal_lines(refusal),
    }
}
