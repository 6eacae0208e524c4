//! The seven calls of include/chmurzeta.h for a host in Rust, with slices for
//! pointers and `Result` for numbers. One file, `core` alone: take it in with
//! `mod chmurzeta;` and link librecorder.a.
//!
//! What every call needs of its pointers (the header's first list) holds by
//! the types here, so each of these functions is safe to call with anything.

#![allow(dead_code)]

/// Bytes: no accepted sheet is longer.
pub const SHEET_MAX: usize = 2537;
/// Bytes: a buffer of this size has room for any sheet's code.
pub const CODE_MAX: usize = 26028;
/// Bytes: no accepted code is longer.
pub const CODE_LIMIT: usize = 32768;
/// Milliseconds: the clock is held here; also the largest wait.
pub const CLOCK_MAX: u32 = 16_777_215;

/// Why a call refused, and where: docs/REFERENCE.md has each number. Numbers
/// may be added, so one that has no name here is a refusal all the same.
#[derive(Clone, Copy, Debug, PartialEq, Eq)]
pub struct Refusal {
    pub number: u32,
    pub place: u32,
}

const NAMES: [&str; 18] = [
    "SHORT", "ONE-STATE", "STATE-NO", "INPUT-NO", "BIG", "TAIL", "LOOP", "PAIR", "RANK",
    "NO-HOME", "HOME-FORM", "GATE", "ACTIVITY", "ROOM", "CODE-END", "WORD", "LANDING", "NO-STATE",
];

impl Refusal {
    pub fn name(&self) -> &'static str {
        match NAMES.get(self.number.wrapping_sub(1) as usize) {
            Some(name) => name,
            None => "a number of a later version",
        }
    }
}

impl core::fmt::Display for Refusal {
    fn fmt(&self, f: &mut core::fmt::Formatter<'_>) -> core::fmt::Result {
        write!(f, "refused: {} {} at {}", self.number, self.name(), self.place)
    }
}

/// What lasts from one `scan` to the next.
#[derive(Clone, Copy, Debug, PartialEq, Eq)]
pub struct State {
    pub state: u8,
    pub outputs: u16,
    pub clock: u32,
}

/// What lasts from one `run` to the next: flag s has weight 2^s.
#[derive(Clone, Copy, Debug, PartialEq, Eq)]
pub struct Record {
    pub flags: u32,
    pub outputs: u16,
    pub clock: u32,
}

mod c {
    extern "C" {
        pub fn chz_check_sheet(sheet: *const u8, sheet_len: usize, place: *mut u32) -> u32;
        pub fn chz_check_code(code: *const u8, code_len: usize, place: *mut u32) -> u32;
        pub fn chz_translate(
            sheet: *const u8, sheet_len: usize, code: *mut u8, code_len: usize, length: *mut u32,
            place: *mut u32,
        ) -> u32;
        pub fn chz_cold_scan(
            sheet: *const u8, sheet_len: usize, state: *mut u8, outputs: *mut u16, clock: *mut u32,
            place: *mut u32,
        ) -> u32;
        pub fn chz_cold_run(
            sheet: *const u8, sheet_len: usize, flags: *mut u32, outputs: *mut u16, clock: *mut u32,
            place: *mut u32,
        ) -> u32;
        pub fn chz_scan(
            sheet: *const u8, sheet_len: usize, state: *mut u8, outputs: *mut u16, clock: *mut u32,
            inputs: u16, elapsed: u32, place: *mut u32,
        ) -> u32;
        pub fn chz_run(
            code: *const u8, code_len: usize, flags: *mut u32, outputs: *mut u16, clock: *mut u32,
            inputs: u16, elapsed: u32, place: *mut u32,
        ) -> u32;
    }
}

fn answered<T>(number: u32, place: u32, value: T) -> Result<T, Refusal> {
    if number == 0 {
        Ok(value)
    } else {
        Err(Refusal { number, place })
    }
}

/// Judges a sheet: 1 to 13.
pub fn check_sheet(sheet: &[u8]) -> Result<(), Refusal> {
    let mut place = 0;
    let number = unsafe { c::chz_check_sheet(sheet.as_ptr(), sheet.len(), &mut place) };
    answered(number, place, ())
}

/// Judges code, whoever wrote it: 15 to 17.
pub fn check_code(code: &[u8]) -> Result<(), Refusal> {
    let mut place = 0;
    let number = unsafe { c::chz_check_code(code.as_ptr(), code.len(), &mut place) };
    answered(number, place, ())
}

/// Writes a sheet's code from the start of `code`, and gives its length in
/// bytes: 1 to 14. Where refused, no byte of `code` is written.
pub fn translate(sheet: &[u8], code: &mut [u8]) -> Result<usize, Refusal> {
    let (mut length, mut place) = (0, 0);
    let number = unsafe {
        c::chz_translate(
            sheet.as_ptr(), sheet.len(), code.as_mut_ptr(), code.len(), &mut length, &mut place,
        )
    };
    answered(number, place, length as usize)
}

/// The record to begin with, for `scan`: 1 to 13.
pub fn cold_scan(sheet: &[u8]) -> Result<State, Refusal> {
    let mut s = State { state: 0, outputs: 0, clock: 0 };
    let mut place = 0;
    let number = unsafe {
        c::chz_cold_scan(
            sheet.as_ptr(), sheet.len(), &mut s.state, &mut s.outputs, &mut s.clock, &mut place,
        )
    };
    answered(number, place, s)
}

/// The record to begin with, for `run`: 1 to 13.
pub fn cold_run(sheet: &[u8]) -> Result<Record, Refusal> {
    let mut r = Record { flags: 0, outputs: 0, clock: 0 };
    let mut place = 0;
    let number = unsafe {
        c::chz_cold_run(
            sheet.as_ptr(), sheet.len(), &mut r.flags, &mut r.outputs, &mut r.clock, &mut place,
        )
    };
    answered(number, place, r)
}

/// One scan from the sheet: 1 to 13, or 18. Where refused, `s` is as it was.
pub fn scan(sheet: &[u8], s: &mut State, inputs: u16, elapsed: u32) -> Result<(), Refusal> {
    let mut place = 0;
    let number = unsafe {
        c::chz_scan(
            sheet.as_ptr(), sheet.len(), &mut s.state, &mut s.outputs, &mut s.clock, inputs,
            elapsed, &mut place,
        )
    };
    answered(number, place, ())
}

/// One scan from code: 15 to 17. Where refused, `r` is as it was.
pub fn run(code: &[u8], r: &mut Record, inputs: u16, elapsed: u32) -> Result<(), Refusal> {
    let mut place = 0;
    let number = unsafe {
        c::chz_run(
            code.as_ptr(), code.len(), &mut r.flags, &mut r.outputs, &mut r.clock, inputs, elapsed,
            &mut place,
        )
    };
    answered(number, place, ())
}
