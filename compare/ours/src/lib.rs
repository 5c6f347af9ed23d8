//! The proved implementation, through the functions that its static library exports.

use engine::{Engine, Printed, Verdict};

#[link(name = "exports", kind = "static")]
extern "C" {
    fn sillauger_read(text: *const u8, length: usize) -> u64;
    fn sillauger_check(sheet: *const u8, length: usize) -> u64;
    fn sillauger_print(
        text: *const u8,
        length: usize,
        times: u32,
        out: *mut u8,
        room: usize,
    ) -> u64;
    fn sillauger_margin(
        book: *const u8,
        book_length: usize,
        sheet: *const u8,
        sheet_length: usize,
        times: u32,
        out: *mut u8,
        room: usize,
    ) -> u64;
    fn sillauger_run(
        book: *const u8,
        book_length: usize,
        words: *const u32,
        count: usize,
        numbers: *mut u8,
        cells: usize,
        out: *mut u8,
        room: usize,
    ) -> u64;
}

/// The proved implementation. None of its exported functions asks anything of its arguments.
pub struct Ours;

/// The number above 32 bits, and what stands below: a line or a length.
fn parted(coded: u64) -> (u8, u32) {
    ((coded >> 32) as u8, coded as u32)
}

fn verdict(coded: u64) -> Verdict {
    let (number, line) = parted(coded);
    Verdict { number, line }
}

fn printed(coded: u64) -> Printed {
    let (number, rest) = parted(coded);
    match number {
        0 => Printed { number, line: 0, length: rest as usize },
        _ => Printed { number, line: rest, length: 0 },
    }
}

impl Engine for Ours {
    fn name(&self) -> &'static str {
        "ours"
    }

    fn read(&self, text: &[u8]) -> Verdict {
        verdict(unsafe { sillauger_read(text.as_ptr(), text.len()) })
    }

    fn print(&self, text: &[u8], times: u32, out: &mut [u8]) -> Printed {
        let coded = unsafe {
            sillauger_print(
                text.as_ptr(),
                text.len(),
                times,
                out.as_mut_ptr(),
                out.len(),
            )
        };
        printed(coded)
    }

    fn check(&self, sheet: &[u8]) -> Verdict {
        verdict(unsafe { sillauger_check(sheet.as_ptr(), sheet.len()) })
    }

    fn margin(&self, book: &[u8], sheet: &[u8], times: u32, out: &mut [u8]) -> Printed {
        printed(unsafe {
            sillauger_margin(
                book.as_ptr(),
                book.len(),
                sheet.as_ptr(),
                sheet.len(),
                times,
                out.as_mut_ptr(),
                out.len(),
            )
        })
    }

    fn run(&self, book: &[u8], words: &[u32], numbers: &mut [u8], out: &mut [u8]) -> Printed {
        printed(unsafe {
            sillauger_run(
                book.as_ptr(),
                book.len(),
                words.as_ptr(),
                words.len(),
                numbers.as_mut_ptr(),
                numbers.len(),
                out.as_mut_ptr(),
                out.len(),
            )
        })
    }
}
