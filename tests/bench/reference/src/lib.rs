//! The reference's four calls for C, as tests/bench/calls.h has them.

use reference::catalogue::write_report;
use reference::text::{check, write_from_numbers, write_from_text, Answer};
use reference::with_sheet_lines;
use std::slice;

macro_rules! define_writing {
    ($($name:ident: $written:ident),*) => {$(
        /// # Safety
        /// Both parts are the caller's, with their lengths.
        #[no_mangle]
        pub unsafe extern "C" fn $name(
            text: *const u8,
            length: usize,
            buffer: *mut u8,
            room: usize,
        ) -> Answer {
            let text = slice::from_raw_parts(text, length);
            $written(text, slice::from_raw_parts_mut(buffer, room))
        }
    )*};
}

define_writing!(reference_write: write_from_text, reference_report: write_report);

/// # Safety
/// The certificate is the caller's, with its length.
#[no_mangle]
pub unsafe extern "C" fn reference_check(certificate: *const u8, length: usize) -> Answer {
    check(slice::from_raw_parts(certificate, length))
}

macro_rules! define_from_numbers {
    ($($number:ident $place:ident $range:tt)*) => {
        /// # Safety
        /// The buffer is the caller's, with its room.
        #[no_mangle]
        #[allow(clippy::too_many_arguments)]
        pub unsafe extern "C" fn reference_from_numbers(
            $($number: u64,)*
            buffer: *mut u8,
            room: usize,
        ) -> Answer {
            let buffer = slice::from_raw_parts_mut(buffer, room);
            write_from_numbers([$($number),*], buffer)
        }
    };
}

with_sheet_lines!(define_from_numbers);
