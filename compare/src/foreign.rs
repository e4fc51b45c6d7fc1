//! The exported functions of the library, as `include/rulefile.h` declares
//! them: unlike the Rust wrapper they give count, length, queries, setting,
//! clash and pairs, and bounds on refusal too. This module has all `unsafe` of
//! the package.

use crate::service::{Answer, Ask, Call, Lent};
use apart::units;
use std::ptr::{null, null_mut};

#[repr(C)]
struct CheckAnswer {
    number: u32,
    line: usize,
}

#[repr(C)]
struct TurnAnswer {
    number: u32,
    line: usize,
    length: usize,
}

#[repr(C)]
struct RunAnswer {
    number: u32,
    count: u32,
    length: usize,
}

#[repr(C)]
struct SheetAnswer {
    number: u32,
    line: usize,
    queries: usize,
}

#[repr(C)]
struct NumberAnswer {
    number: u32,
    setting: u32,
}

#[repr(C)]
struct SettingAnswer {
    number: u32,
    length: usize,
}

#[repr(C)]
struct OverlapAnswer {
    number: u32,
    line: usize,
    clash: bool,
    pairs: u32,
}

#[repr(C)]
struct BoundsAnswer {
    number: u32,
    least: u32,
    greatest: u32,
    least_over: bool,
    greatest_over: bool,
}

#[repr(C)]
struct WitnessAnswer {
    number: u32,
    line: usize,
    length: usize,
}

/// What an export and an import give.
#[repr(C)]
struct WrittenAnswer {
    number: u32,
    line: usize,
    length: usize,
}

extern "C" {
    fn rulefile_check(
        file: *const u8,
        file_length: usize,
        table: *mut u16,
        table_length: usize,
        work: *mut u8,
        work_length: usize,
    ) -> CheckAnswer;

    fn rulefile_turn(
        file: *const u8,
        file_length: usize,
        table: *mut u16,
        table_length: usize,
        work: *mut u8,
        work_length: usize,
        output: *mut u8,
        output_length: usize,
    ) -> TurnAnswer;

    fn rulefile_run(
        file: *const u8,
        file_length: usize,
        table: *mut u16,
        table_length: usize,
        work: *mut u8,
        work_length: usize,
        iso: u32,
        back: bool,
        budget: u32,
        value: *const u8,
        value_length: usize,
        result: *mut u8,
        result_length: usize,
    ) -> RunAnswer;

    fn rulefile_sheet(
        file: *const u8,
        file_length: usize,
        table: *mut u16,
        table_length: usize,
        work: *mut u8,
        work_length: usize,
        queries: *const u8,
        queries_length: usize,
        numbers: *mut u32,
        numbers_length: usize,
        letters: *mut u8,
        letters_length: usize,
    ) -> SheetAnswer;

    fn rulefile_number_of(
        file: *const u8,
        file_length: usize,
        table: *mut u16,
        table_length: usize,
        work: *mut u8,
        work_length: usize,
        ty: u32,
        value: *const u8,
        value_length: usize,
    ) -> NumberAnswer;

    fn rulefile_setting_of(
        file: *const u8,
        file_length: usize,
        table: *mut u16,
        table_length: usize,
        work: *mut u8,
        work_length: usize,
        ty: u32,
        setting: u32,
        result: *mut u8,
        result_length: usize,
    ) -> SettingAnswer;

    fn rulefile_overlap(
        file: *const u8,
        file_length: usize,
        table: *mut u16,
        table_length: usize,
        work: *mut u8,
        work_length: usize,
        left: u32,
        right: u32,
    ) -> OverlapAnswer;

    fn rulefile_bounds(
        file: *const u8,
        file_length: usize,
        table: *mut u16,
        table_length: usize,
        work: *mut u8,
        work_length: usize,
        iso: u32,
    ) -> BoundsAnswer;

    fn rulefile_witness(
        file: *const u8,
        file_length: usize,
        table: *mut u16,
        table_length: usize,
        work: *mut u8,
        work_length: usize,
        result: *mut u8,
        result_length: usize,
    ) -> WitnessAnswer;

    fn rulefile_export(
        file: *const u8,
        file_length: usize,
        table: *mut u16,
        table_length: usize,
        work: *mut u8,
        work_length: usize,
        iso: u32,
        budget: u32,
        output: *mut u8,
        output_length: usize,
    ) -> WrittenAnswer;

    fn rulefile_import(
        file: *const u8,
        file_length: usize,
        table: *mut u16,
        table_length: usize,
        work: *mut u8,
        work_length: usize,
        from: u32,
        to: u32,
        list: *const u8,
        list_length: usize,
        output: *mut u8,
        output_length: usize,
    ) -> WrittenAnswer;

    fn rulefile_play(
        file: *const u8,
        file_length: usize,
        table: *mut u16,
        table_length: usize,
        work: *mut u8,
        work_length: usize,
        types: *mut u32,
        types_length: usize,
        settings: *mut u32,
        settings_length: usize,
        script: *const u8,
        script_length: usize,
        budget: u32,
        tally: *mut units::Tally,
    ) -> CheckAnswer;
}

/// Where bytes that are only read begin; null where there are none.
fn begin(bytes: &[u8]) -> *const u8 {
    if bytes.is_empty() {
        null()
    } else {
        bytes.as_ptr()
    }
}

/// Where a lent area begins; null where it is empty.
fn start<T>(area: &mut [T]) -> *mut T {
    if area.is_empty() {
        null_mut()
    } else {
        area.as_mut_ptr()
    }
}

pub fn call(file: &[u8], call: Call, lent: Lent) -> Answer {
    match call {
        Call::Check => check(file, lent),
        Call::Turn => turn(file, lent),
        Call::Run(ask) => run(file, ask, lent),
        Call::Sheet(list) => sheet(file, list, lent),
        Call::NumberOf(ty, letters) => number_of(file, ty, letters, lent),
        Call::SettingOf(ty, setting) => setting_of(file, ty, setting, lent),
        Call::Overlap(left, right) => overlap(file, left, right, lent),
        Call::Bounds(iso) => bounds(file, iso, lent),
        Call::Witness => witness(file, lent),
        Call::Export(iso, budget) => export(file, iso, budget, lent),
        Call::Import(from, to, list) => import(file, [from, to], list, lent),
    }
}

fn check(file: &[u8], lent: Lent) -> Answer {
    let Lent { table, work, .. } = lent;
    // SAFETY: each pointer and length are those of a slice, or null and 0,
    // which the header allows; the borrows keep the areas apart and live.
    let given = unsafe {
        rulefile_check(
            begin(file),
            file.len(),
            start(table),
            table.len(),
            start(work),
            work.len(),
        )
    };
    Answer {
        number: given.number,
        line: given.line,
        ..Answer::default()
    }
}

fn turn(file: &[u8], lent: Lent) -> Answer {
    let Lent {
        table, work, out, ..
    } = lent;
    // SAFETY: as for `check`.
    let given = unsafe {
        rulefile_turn(
            begin(file),
            file.len(),
            start(table),
            table.len(),
            start(work),
            work.len(),
            start(out),
            out.len(),
        )
    };
    Answer {
        number: given.number,
        line: given.line,
        length: given.length,
        ..Answer::default()
    }
}

fn run(file: &[u8], ask: Ask, lent: Lent) -> Answer {
    let Lent {
        table, work, out, ..
    } = lent;
    // SAFETY: as for `check`.
    let given = unsafe {
        rulefile_run(
            begin(file),
            file.len(),
            start(table),
            table.len(),
            start(work),
            work.len(),
            ask.iso,
            ask.back,
            ask.budget,
            begin(ask.letters),
            ask.letters.len(),
            start(out),
            out.len(),
        )
    };
    Answer {
        number: given.number,
        count: given.count.into(),
        length: given.length,
        ..Answer::default()
    }
}

fn sheet(file: &[u8], list: &[u8], lent: Lent) -> Answer {
    let Lent {
        table,
        work,
        out,
        numbers,
    } = lent;
    // SAFETY: as for `check`.
    let given = unsafe {
        rulefile_sheet(
            begin(file),
            file.len(),
            start(table),
            table.len(),
            start(work),
            work.len(),
            begin(list),
            list.len(),
            start(numbers),
            numbers.len(),
            start(out),
            out.len(),
        )
    };
    Answer {
        number: given.number,
        line: given.line,
        queries: given.queries,
        ..Answer::default()
    }
}

fn number_of(file: &[u8], ty: u32, letters: &[u8], lent: Lent) -> Answer {
    let Lent { table, work, .. } = lent;
    // SAFETY: as for `check`.
    let given = unsafe {
        rulefile_number_of(
            begin(file),
            file.len(),
            start(table),
            table.len(),
            start(work),
            work.len(),
            ty,
            begin(letters),
            letters.len(),
        )
    };
    Answer {
        number: given.number,
        setting: given.setting,
        ..Answer::default()
    }
}

fn setting_of(file: &[u8], ty: u32, setting: u32, lent: Lent) -> Answer {
    let Lent {
        table, work, out, ..
    } = lent;
    // SAFETY: as for `check`.
    let given = unsafe {
        rulefile_setting_of(
            begin(file),
            file.len(),
            start(table),
            table.len(),
            start(work),
            work.len(),
            ty,
            setting,
            start(out),
            out.len(),
        )
    };
    Answer {
        number: given.number,
        length: given.length,
        ..Answer::default()
    }
}

fn overlap(file: &[u8], left: u32, right: u32, lent: Lent) -> Answer {
    let Lent { table, work, .. } = lent;
    // SAFETY: as for `check`.
    let given = unsafe {
        rulefile_overlap(
            begin(file),
            file.len(),
            start(table),
            table.len(),
            start(work),
            work.len(),
            left,
            right,
        )
    };
    Answer {
        number: given.number,
        line: given.line,
        clash: given.clash,
        pairs: given.pairs,
        ..Answer::default()
    }
}

fn bounds(file: &[u8], iso: u32, lent: Lent) -> Answer {
    let Lent { table, work, .. } = lent;
    // SAFETY: as for `check`.
    let given = unsafe {
        rulefile_bounds(
            begin(file),
            file.len(),
            start(table),
            table.len(),
            start(work),
            work.len(),
            iso,
        )
    };
    Answer {
        number: given.number,
        least: given.least,
        greatest: given.greatest,
        least_over: given.least_over,
        greatest_over: given.greatest_over,
        ..Answer::default()
    }
}

fn witness(file: &[u8], lent: Lent) -> Answer {
    let Lent {
        table, work, out, ..
    } = lent;
    // SAFETY: as for `check`.
    let given = unsafe {
        rulefile_witness(
            begin(file),
            file.len(),
            start(table),
            table.len(),
            start(work),
            work.len(),
            start(out),
            out.len(),
        )
    };
    Answer {
        number: given.number,
        line: given.line,
        length: given.length,
        ..Answer::default()
    }
}

fn written(given: WrittenAnswer) -> Answer {
    Answer {
        number: given.number,
        line: given.line,
        length: given.length,
        ..Answer::default()
    }
}

fn export(file: &[u8], iso: u32, budget: u32, lent: Lent) -> Answer {
    let Lent {
        table, work, out, ..
    } = lent;
    // SAFETY: as for `check`.
    written(unsafe {
        rulefile_export(
            begin(file),
            file.len(),
            start(table),
            table.len(),
            start(work),
            work.len(),
            iso,
            budget,
            start(out),
            out.len(),
        )
    })
}

fn import(file: &[u8], [from, to]: [u32; 2], list: &[u8], lent: Lent) -> Answer {
    let Lent {
        table, work, out, ..
    } = lent;
    // SAFETY: as for `check`.
    written(unsafe {
        rulefile_import(
            begin(file),
            file.len(),
            start(table),
            table.len(),
            start(work),
            work.len(),
            from,
            to,
            begin(list),
            list.len(),
            start(out),
            out.len(),
        )
    })
}

pub fn play(file: &[u8], script: &[u8], budget: u32, lent: units::Lent) -> (u32, usize) {
    // SAFETY: as for `check`; the record is one struct of C's layout.
    let given = unsafe {
        rulefile_play(
            begin(file),
            file.len(),
            start(lent.table),
            lent.table.len(),
            start(lent.work),
            lent.work.len(),
            start(lent.types),
            lent.types.len(),
            start(lent.settings),
            lent.settings.len(),
            begin(script),
            script.len(),
            budget,
            lent.tally,
        )
    };
    (given.number, given.line)
}
