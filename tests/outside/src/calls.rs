//! The calls of the archive, as include/honemagenta.h declares them.

use reference::lip_table::Coefficient;
use reference::sheet::Numbers;
use reference::text::Answer;
use reference::with_sheet_lines;

extern "C" {
    fn hm_certificate_write(
        sheet: *const u8,
        sheet_len: usize,
        buffer: *mut u8,
        buffer_len: usize,
    ) -> Answer;

    fn hm_certificate_check(certificate: *const u8, certificate_len: usize) -> Answer;

    fn hm_catalogue_report(
        sheets: *const u8,
        sheets_len: usize,
        buffer: *mut u8,
        buffer_len: usize,
    ) -> Answer;

    fn hm_lip_table(buffer: *mut u8, buffer_len: usize) -> Answer;

    fn hm_lip_coefficient(ratio: u64) -> Coefficient;
}

pub fn write(sheet: &[u8], buffer: &mut [u8]) -> Answer {
    let (room, buffer) = (buffer.len(), buffer.as_mut_ptr());
    unsafe { hm_certificate_write(sheet.as_ptr(), sheet.len(), buffer, room) }
}

pub fn check(certificate: &[u8]) -> Answer {
    unsafe { hm_certificate_check(certificate.as_ptr(), certificate.len()) }
}

pub fn report(sheets: &[u8], buffer: &mut [u8]) -> Answer {
    let (room, buffer) = (buffer.len(), buffer.as_mut_ptr());
    unsafe { hm_catalogue_report(sheets.as_ptr(), sheets.len(), buffer, room) }
}

pub fn lip_table(buffer: &mut [u8]) -> Answer {
    unsafe { hm_lip_table(buffer.as_mut_ptr(), buffer.len()) }
}

pub fn lip_coefficient(ratio: u64) -> Coefficient {
    unsafe { hm_lip_coefficient(ratio) }
}

macro_rules! declare_from_numbers {
    ($($number:ident $place:ident $range:tt)*) => {
        extern "C" {
            fn hm_certificate_from_numbers(
                $($number: u64,)*
                buffer: *mut u8,
                buffer_len: usize,
            ) -> Answer;
        }

        pub fn from_numbers([$($number),*]: Numbers, buffer: &mut [u8]) -> Answer {
            let (room, buffer) = (buffer.len(), buffer.as_mut_ptr());
            unsafe { hm_certificate_from_numbers($($number,)* buffer, room) }
        }
    };
}

with_sheet_lines!(declare_from_numbers);
