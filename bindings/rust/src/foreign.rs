//! The exported functions, as `include/rulefile.h` declares them. This module has all `unsafe` of the crate.

use crate::{Direction, Query, Tally};

#[repr(C)]
pub struct CheckAnswer {
    pub number: u32,
    pub line: usize,
}

#[repr(C)]
pub struct TurnAnswer {
    pub number: u32,
    pub line: usize,
    pub length: usize,
}

#[repr(C)]
pub struct RunAnswer {
    pub number: u32,
    pub count: u32,
    pub length: usize,
}

#[repr(C)]
pub struct SheetAnswer {
    pub number: u32,
    pub line: usize,
    pub queries: usize,
}

#[repr(C)]
pub struct NumberAnswer {
    pub number: u32,
    pub setting: u32,
}

#[repr(C)]
pub struct SettingAnswer {
    pub number: u32,
    pub length: usize,
}

#[repr(C)]
pub struct OverlapAnswer {
    pub number: u32,
    pub line: usize,
    pub clash: bool,
    pub pairs: u32,
}

#[repr(C)]
pub struct BoundsAnswer {
    pub number: u32,
    pub least: u32,
    pub greatest: u32,
    pub least_over: bool,
    pub greatest_over: bool,
}

#[repr(C)]
pub struct WitnessAnswer {
    pub number: u32,
    pub line: usize,
    pub length: usize,
}

#[repr(C)]
pub struct ExportAnswer {
    pub number: u32,
    pub line: usize,
    pub length: usize,
}

#[repr(C)]
pub struct ImportAnswer {
    pub number: u32,
    pub line: usize,
    pub length: usize,
}

extern "C" {
    fn rulefile_check(
        file: *const u8,
        file_length: usize,
        table: *mut u16,
        table_length: usize,
        work: *mut u8,
        work_length: usize,
    ) -> CheckAnswer;

    fn rulefile_turn(
        file: *const u8,
        file_length: usize,
        table: *mut u16,
        table_length: usize,
        work: *mut u8,
        work_length: usize,
        output: *mut u8,
        output_length: usize,
    ) -> TurnAnswer;

    fn rulefile_run(
        file: *const u8,
        file_length: usize,
        table: *mut u16,
        table_length: usize,
        work: *mut u8,
        work_length: usize,
        iso: u32,
        back: bool,
        budget: u32,
        value: *const u8,
        value_length: usize,
        result: *mut u8,
        result_length: usize,
    ) -> RunAnswer;

    fn rulefile_sheet(
        file: *const u8,
        file_length: usize,
        table: *mut u16,
        table_length: usize,
        work: *mut u8,
        work_length: usize,
        queries: *const u8,
        queries_length: usize,
        numbers: *mut u32,
        numbers_length: usize,
        letters: *mut u8,
        letters_length: usize,
    ) -> SheetAnswer;

    fn rulefile_number_of(
        file: *const u8,
        file_length: usize,
        table: *mut u16,
        table_length: usize,
        work: *mut u8,
        work_length: usize,
        ty: u32,
        value: *const u8,
        value_length: usize,
    ) -> NumberAnswer;

    fn rulefile_setting_of(
        file: *const u8,
        file_length: usize,
        table: *mut u16,
        table_length: usize,
        work: *mut u8,
        work_length: usize,
        ty: u32,
        setting: u32,
        result: *mut u8,
        result_length: usize,
    ) -> SettingAnswer;

    fn rulefile_overlap(
        file: *const u8,
        file_length: usize,
        table: *mut u16,
        table_length: usize,
        work: *mut u8,
        work_length: usize,
        left: u32,
        right: u32,
    ) -> OverlapAnswer;

    fn rulefile_bounds(
        file: *const u8,
        file_length: usize,
        table: *mut u16,
        table_length: usize,
        work: *mut u8,
        work_length: usize,
        iso: u32,
    ) -> BoundsAnswer;

    fn rulefile_witness(
        file: *const u8,
        file_length: usize,
        table: *mut u16,
        table_length: usize,
        work: *mut u8,
        work_length: usize,
        result: *mut u8,
        result_length: usize,
    ) -> WitnessAnswer;

    fn rulefile_play(
        file: *const u8,
        file_length: usize,
        table: *mut u16,
        table_length: usize,
        work: *mut u8,
        work_length: usize,
        types: *mut u32,
        types_length: usize,
        settings: *mut u32,
        settings_length: usize,
        script: *const u8,
        script_length: usize,
        budget: u32,
        tally: *mut Tally,
    ) -> CheckAnswer;

    fn rulefile_export(
        file: *const u8,
        file_length: usize,
        table: *mut u16,
        table_length: usize,
        work: *mut u8,
        work_length: usize,
        iso: u32,
        budget: u32,
        output: *mut u8,
        output_length: usize,
    ) -> ExportAnswer;

    fn rulefile_import(
        file: *const u8,
        file_length: usize,
        table: *mut u16,
        table_length: usize,
        work: *mut u8,
        work_length: usize,
        from: u32,
        to: u32,
        list: *const u8,
        list_length: usize,
        output: *mut u8,
        output_length: usize,
    ) -> ImportAnswer;
}

pub fn check(file: &[u8], table: &mut [u16], work: &mut [u8]) -> CheckAnswer {
    // SAFETY: each pointer and length are those of a slice; the borrows keep the areas apart and live.
    unsafe {
        rulefile_check(
            file.as_ptr(),
            file.len(),
            table.as_mut_ptr(),
            table.len(),
            work.as_mut_ptr(),
            work.len(),
        )
    }
}

pub fn turn(file: &[u8], table: &mut [u16], work: &mut [u8], output: &mut [u8]) -> TurnAnswer {
    // SAFETY: as for `check`.
    unsafe {
        rulefile_turn(
            file.as_ptr(),
            file.len(),
            table.as_mut_ptr(),
            table.len(),
            work.as_mut_ptr(),
            work.len(),
            output.as_mut_ptr(),
            output.len(),
        )
    }
}

pub fn run(
    file: &[u8],
    table: &mut [u16],
    work: &mut [u8],
    query: Query,
    result: &mut [u8],
) -> RunAnswer {
    // SAFETY: as for `check`.
    unsafe {
        rulefile_run(
            file.as_ptr(),
            file.len(),
            table.as_mut_ptr(),
            table.len(),
            work.as_mut_ptr(),
            work.len(),
            query.iso,
            query.direction == Direction::Back,
            query.budget,
            query.letters.as_ptr(),
            query.letters.len(),
            result.as_mut_ptr(),
            result.len(),
        )
    }
}

pub fn sheet(
    file: &[u8],
    table: &mut [u16],
    work: &mut [u8],
    queries: &[u8],
    numbers: &mut [u32],
    letters: &mut [u8],
) -> SheetAnswer {
    // SAFETY: as for `check`.
    unsafe {
        rulefile_sheet(
            file.as_ptr(),
            file.len(),
            table.as_mut_ptr(),
            table.len(),
            work.as_mut_ptr(),
            work.len(),
            queries.as_ptr(),
            queries.len(),
            numbers.as_mut_ptr(),
            numbers.len(),
            letters.as_mut_ptr(),
            letters.len(),
        )
    }
}

pub fn number_of(
    file: &[u8],
    table: &mut [u16],
    work: &mut [u8],
    ty: u32,
    letters: &[u8],
) -> NumberAnswer {
    // SAFETY: as for `check`.
    unsafe {
        rulefile_number_of(
            file.as_ptr(),
            file.len(),
            table.as_mut_ptr(),
            table.len(),
            work.as_mut_ptr(),
            work.len(),
            ty,
            letters.as_ptr(),
            letters.len(),
        )
    }
}

pub fn setting_of(
    file: &[u8],
    table: &mut [u16],
    work: &mut [u8],
    ty: u32,
    setting: u32,
    result: &mut [u8],
) -> SettingAnswer {
    // SAFETY: as for `check`.
    unsafe {
        rulefile_setting_of(
            file.as_ptr(),
            file.len(),
            table.as_mut_ptr(),
            table.len(),
            work.as_mut_ptr(),
            work.len(),
            ty,
            setting,
            result.as_mut_ptr(),
            result.len(),
        )
    }
}

pub fn overlap(
    file: &[u8],
    table: &mut [u16],
    work: &mut [u8],
    left: u32,
    right: u32,
) -> OverlapAnswer {
    // SAFETY: as for `check`.
    unsafe {
        rulefile_overlap(
            file.as_ptr(),
            file.len(),
            table.as_mut_ptr(),
            table.len(),
            work.as_mut_ptr(),
            work.len(),
            left,
            right,
        )
    }
}

pub fn bounds(file: &[u8], table: &mut [u16], work: &mut [u8], iso: u32) -> BoundsAnswer {
    // SAFETY: as for `check`.
    unsafe {
        rulefile_bounds(
            file.as_ptr(),
            file.len(),
            table.as_mut_ptr(),
            table.len(),
            work.as_mut_ptr(),
            work.len(),
            iso,
        )
    }
}

pub fn witness(
    file: &[u8],
    table: &mut [u16],
    work: &mut [u8],
    result: &mut [u8],
) -> WitnessAnswer {
    // SAFETY: as for `check`.
    unsafe {
        rulefile_witness(
            file.as_ptr(),
            file.len(),
            table.as_mut_ptr(),
            table.len(),
            work.as_mut_ptr(),
            work.len(),
            result.as_mut_ptr(),
            result.len(),
        )
    }
}

#[allow(clippy::too_many_arguments)]
pub fn play(
    file: &[u8],
    table: &mut [u16],
    work: &mut [u8],
    types: &mut [u32],
    settings: &mut [u32],
    script: &[u8],
    budget: u32,
    tally: &mut Tally,
) -> CheckAnswer {
    // SAFETY: as for `check`; the tally is one struct of C's layout.
    unsafe {
        rulefile_play(
            file.as_ptr(),
            file.len(),
            table.as_mut_ptr(),
            table.len(),
            work.as_mut_ptr(),
            work.len(),
            types.as_mut_ptr(),
            types.len(),
            settings.as_mut_ptr(),
            settings.len(),
            script.as_ptr(),
            script.len(),
            budget,
            tally,
        )
    }
}

pub fn export(
    file: &[u8],
    table: &mut [u16],
    work: &mut [u8],
    iso: u32,
    budget: u32,
    output: &mut [u8],
) -> ExportAnswer {
    // SAFETY: as for `check`.
    unsafe {
        rulefile_export(
            file.as_ptr(),
            file.len(),
            table.as_mut_ptr(),
            table.len(),
            work.as_mut_ptr(),
            work.len(),
            iso,
            budget,
            output.as_mut_ptr(),
            output.len(),
        )
    }
}

pub fn import(
    file: &[u8],
    table: &mut [u16],
    work: &mut [u8],
    types: [u32; 2],
    list: &[u8],
    output: &mut [u8],
) -> ImportAnswer {
    let [from, to] = types;
    // SAFETY: as for `check`.
    unsafe {
        rulefile_import(
            file.as_ptr(),
            file.len(),
            table.as_mut_ptr(),
            table.len(),
            work.as_mut_ptr(),
            work.len(),
            from,
            to,
            list.as_ptr(),
            list.len(),
            output.as_mut_ptr(),
            output.len(),
        )
    }
}
