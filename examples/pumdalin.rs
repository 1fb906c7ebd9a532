//! The C calls for Rust: declarations and a safe wrapper. Link with `-l static=pumdalin`.
#![allow(dead_code)] // a program may use a part of it

extern "C" {
    fn pumdalin_figures(
        sheet: *const u8,
        sheet_length: usize,
        p1: i16,
        p2: i16,
        p3: i16,
        p4: i16,
        budget: u32,
        answer: *mut u8,
        answer_length: usize,
    ) -> u32;

    fn pumdalin_range(
        sheet: *const u8,
        sheet_length: usize,
        p1: i16,
        p2: i16,
        p3: i16,
        p4: i16,
        budget: u32,
        number: u32,
        first: i16,
        last: i16,
        answer: *mut u8,
        answer_length: usize,
    ) -> u32;

    fn pumdalin_with_skips(
        sheet: *const u8,
        sheet_length: usize,
        sheet_out: *mut u8,
        sheet_out_length: usize,
        answer: *mut u8,
        answer_length: usize,
    ) -> u32;

    fn pumdalin_without_skips(
        sheet: *const u8,
        sheet_length: usize,
        sheet_out: *mut u8,
        sheet_out_length: usize,
        answer: *mut u8,
        answer_length: usize,
    ) -> u32;
}

pub const AREA_LENGTH: usize = 24;
pub const RANGE_AREA_LENGTH: usize = 40;
pub const LENGTH_AREA_LENGTH: usize = 8;
/// Bytes that hold every sheet.
pub const SHEET_LENGTH: usize = 3456;

#[derive(Clone, Copy, Debug, PartialEq, Eq)]
pub struct Figures {
    pub least: u64,
    pub most: u64,
    pub visits: u64,
}

/// The C call as it is: it fills the area's first 24 bytes and returns 0, or returns a refusal's
/// number and leaves the area alone.
pub fn fill(sheet: &[u8], parameters: [i16; 4], budget: u32, area: &mut [u8]) -> u32 {
    let [p1, p2, p3, p4] = parameters;
    let (bytes, length) = (area.as_mut_ptr(), area.len());
    // SAFETY: both pointers come from live slices of these lengths, so they are not null, and the
    // mutable one overlaps nothing. The call keeps neither.
    unsafe { pumdalin_figures(sheet.as_ptr(), sheet.len(), p1, p2, p3, p4, budget, bytes, length) }
}

/// The number of 8 bytes with this index in an area.
fn number_in(area: &[u8], index: usize) -> u64 {
    let mut bytes = [0; 8];
    bytes.copy_from_slice(&area[8 * index..][..8]);
    u64::from_le_bytes(bytes)
}

/// The figures that an area holds.
pub fn figures_in(area: &[u8; AREA_LENGTH]) -> Figures {
    Figures { least: number_in(area, 0), most: number_in(area, 1), visits: number_in(area, 2) }
}

/// The figures of a sheet, or the number of the refusal.
pub fn figures(sheet: &[u8], parameters: [i16; 4], budget: u32) -> Result<Figures, u32> {
    let mut area = [0; AREA_LENGTH];
    match fill(sheet, parameters, budget, &mut area) {
        0 => Ok(figures_in(&area)),
        number => Err(number),
    }
}

/// The values from first to last of the parameter with this number, 1 to 4.
#[derive(Clone, Copy, Debug, PartialEq, Eq)]
pub struct ParameterRange {
    pub number: u32,
    pub first: i16,
    pub last: i16,
}

/// A figure, and the smallest value that gives it.
#[derive(Clone, Copy, Debug, PartialEq, Eq)]
pub struct Extreme {
    pub cycles: u64,
    pub value: i16,
}

/// The smallest least and the largest most over a range, and the visits at all its values.
#[derive(Clone, Copy, Debug, PartialEq, Eq)]
pub struct Extremes {
    pub least: Extreme,
    pub most: Extreme,
    pub visits: u64,
}

/// The C call as it is: it fills the area's first 40 bytes and returns 0, or returns a refusal's
/// number and leaves the area alone.
pub fn fill_range(sheet: &[u8], parameters: [i16; 4], budget: u32, range: ParameterRange, area: &mut [u8]) -> u32 {
    let [p1, p2, p3, p4] = parameters;
    let ParameterRange { number, first, last } = range;
    let (bytes, length) = (area.as_mut_ptr(), area.len());
    // SAFETY: as in `fill`.
    unsafe { pumdalin_range(sheet.as_ptr(), sheet.len(), p1, p2, p3, p4, budget, number, first, last, bytes, length) }
}

/// What an area holds after a call over a range. Each value is one of the range, so that it fits 16
/// bits.
pub fn extremes_in(area: &[u8; RANGE_AREA_LENGTH]) -> Extremes {
    let extreme = |index: usize| Extreme { cycles: number_in(area, index), value: number_in(area, index + 1) as i16 };
    Extremes { least: extreme(0), most: extreme(2), visits: number_in(area, 4) }
}

/// The extremes of a sheet's figures over a range of one parameter, or the number of the refusal.
/// What `parameters` have for that one is not looked at; one budget covers all values.
pub fn extremes(sheet: &[u8], parameters: [i16; 4], budget: u32, range: ParameterRange) -> Result<Extremes, u32> {
    let mut area = [0; RANGE_AREA_LENGTH];
    match fill_range(sheet, parameters, budget, range, &mut area) {
        0 => Ok(extremes_in(&area)),
        number => Err(number),
    }
}

/// What the loops of a converted sheet are: all of kind 6, with a skip each, or all of kind 2.
#[derive(Clone, Copy, Debug, PartialEq, Eq)]
pub enum Loops {
    WithSkips,
    WithoutSkips,
}

/// The C call as it is: it puts the new sheet at the buffer's start, its length into the area's
/// first 8 bytes and returns 0, or returns a refusal's number and leaves both alone.
pub fn convert(sheet: &[u8], to: Loops, sheet_out: &mut [u8], area: &mut [u8]) -> u32 {
    let call = match to {
        Loops::WithSkips => pumdalin_with_skips,
        Loops::WithoutSkips => pumdalin_without_skips,
    };
    let (bytes, length) = (sheet_out.as_mut_ptr(), sheet_out.len());
    // SAFETY: the pointers come from live slices of these lengths, so they are not null, and the
    // mutable ones overlap nothing. The call keeps none.
    unsafe { call(sheet.as_ptr(), sheet.len(), bytes, length, area.as_mut_ptr(), area.len()) }
}

/// The sheet with all its loops of one kind, or the number of the refusal: 1 to 5, or 10 where a
/// skip that is to go differs from its loop's start.
pub fn converted(sheet: &[u8], to: Loops) -> Result<Vec<u8>, u32> {
    let mut new_sheet = vec![0; SHEET_LENGTH];
    let mut area = [0; LENGTH_AREA_LENGTH];
    match convert(sheet, to, &mut new_sheet, &mut area) {
        0 => {
            new_sheet.truncate(u64::from_le_bytes(area) as usize);
            Ok(new_sheet)
        }
        number => Err(number),
    }
}
