//! The calls of the static library, with their bare numbers. Each slice goes over as its pointer and its length; `include/entryreader.h` declares the
//! same for programs in C.

unsafe extern "C" {
    fn entryreader_verdict(
        sheet: *const u8,
        sheet_length: usize,
        input: *const u8,
        input_length: usize,
    ) -> u32;

    fn entryreader_sheet(
        sheet: *const u8,
        sheet_length: usize,
        answer: *mut [u32; 4],
        words: *mut [u32; 256],
    ) -> u32;

    fn entryreader_judge(
        sheet: *const u8,
        sheet_length: usize,
        input: *const u8,
        input_length: usize,
        table: *mut u32,
        table_length: usize,
        work: *mut u32,
        work_length: usize,
        answer: *mut [u32; 4],
    ) -> u32;

    fn entryreader_opening(
        sheet: *const u8,
        sheet_length: usize,
        input: *const u8,
        input_length: usize,
        table: *mut u32,
        table_length: usize,
        work: *mut u32,
        work_length: usize,
        answer: *mut [u32; 2],
    ) -> u32;

    fn entryreader_question(
        sheet: *const u8,
        sheet_length: usize,
        input: *const u8,
        input_length: usize,
        variable: u32,
        position: u32,
        table: *mut u32,
        table_length: usize,
        work: *mut u32,
        work_length: usize,
        answer: *mut [u32; 4],
    ) -> u32;

    fn entryreader_correct(
        sheet: *const u8,
        sheet_length: usize,
        old: *const u8,
        old_length: usize,
        input: *const u8,
        input_length: usize,
        variable: u32,
        position: u32,
        c: u32,
        table: *mut u32,
        table_length: usize,
        work: *mut u32,
        work_length: usize,
        answer: *mut [u32; 4],
    ) -> u32;

    fn entryreader_further(
        sheet: *const u8,
        sheet_length: usize,
        input: *const u8,
        input_length: usize,
        variable: u32,
        position: u32,
        table: *mut u32,
        table_length: usize,
        work: *mut u32,
        work_length: usize,
        answer: *mut [u32; 4],
    ) -> u32;

    fn entryreader_store(
        variables: u32,
        length: u32,
        table: *const u32,
        table_length: usize,
        stored: *mut u32,
        stored_length: usize,
    ) -> u32;

    fn entryreader_restore(
        variables: u32,
        length: u32,
        stored: *const u32,
        stored_length: usize,
        table: *mut u32,
        table_length: usize,
    ) -> u32;

    fn entryreader_write(
        sheet: *const u8,
        sheet_length: usize,
        input: *const u8,
        input_length: usize,
        variable: u32,
        position: u32,
        table: *mut u32,
        table_length: usize,
        work: *mut u32,
        work_length: usize,
        out: *mut u8,
        out_length: usize,
        answer: *mut [u32; 5],
    ) -> u32;

    fn entryreader_check(
        sheet: *const u8,
        sheet_length: usize,
        input: *const u8,
        input_length: usize,
        variable: u32,
        position: u32,
        reading: *const u8,
        reading_length: usize,
        answer: *mut [u32; 2],
    ) -> u32;

    fn entryreader_shorthand(
        text: *const u8,
        text_length: usize,
        out: *mut u8,
        out_length: usize,
        answer: *mut [u32; 1],
    ) -> u32;
}

/// 0 to 3 or 5, or 100 plus the number of a refusal.
pub fn verdict(sheet: &[u8], entry: &[u8]) -> u32 {
    // SAFETY: the call has no precondition, and reads the two slices only.
    unsafe { entryreader_verdict(sheet.as_ptr(), sheet.len(), entry.as_ptr(), entry.len()) }
}

/// 0 with 0, V, start and endmarker in `answer` and the rules in `words`; or 100 plus the number of a refusal, with number and line in `answer`.
pub fn sheet(sheet: &[u8], answer: &mut [u32; 4], words: &mut [u32; 256]) -> u32 {
    // SAFETY: the call has no precondition; it reads the first slice, and writes inside the two arrays that are lent exclusively.
    unsafe { entryreader_sheet(sheet.as_ptr(), sheet.len(), answer, words) }
}

/// 0, with the four numbers of a verdict's first line in `answer`, a refusal too.
pub fn judge(
    sheet: &[u8],
    entry: &[u8],
    table: &mut [u32],
    work: &mut [u32],
    answer: &mut [u32; 4],
) -> u32 {
    // SAFETY: the call has no precondition; it reads the first two slices, and writes inside the three that are lent exclusively.
    unsafe {
        entryreader_judge(
            sheet.as_ptr(),
            sheet.len(),
            entry.as_ptr(),
            entry.len(),
            table.as_mut_ptr(),
            table.len(),
            work.as_mut_ptr(),
            work.len(),
            answer,
        )
    }
}

/// 0 with 1 and the least number of bytes, or 0 and 0, in `answer`; or 100 plus the number of a refusal.
pub fn opening(
    sheet: &[u8],
    entry: &[u8],
    table: &mut [u32],
    work: &mut [u32],
    answer: &mut [u32; 2],
) -> u32 {
    // SAFETY: the call has no precondition; it reads the first two slices, and writes inside the three that are lent exclusively.
    unsafe {
        entryreader_opening(
            sheet.as_ptr(),
            sheet.len(),
            entry.as_ptr(),
            entry.len(),
            table.as_mut_ptr(),
            table.len(),
            work.as_mut_ptr(),
            work.len(),
            answer,
        )
    }
}

/// 0 with the four numbers in `answer`, or 100 plus the number of a refusal.
pub fn question(
    sheet: &[u8],
    entry: &[u8],
    variable: u32,
    position: u32,
    table: &mut [u32],
    work: &mut [u32],
    answer: &mut [u32; 4],
) -> u32 {
    // SAFETY: the call has no precondition; it reads the first two slices, and writes inside the three that are lent exclusively.
    unsafe {
        entryreader_question(
            sheet.as_ptr(),
            sheet.len(),
            entry.as_ptr(),
            entry.len(),
            variable,
            position,
            table.as_mut_ptr(),
            table.len(),
            work.as_mut_ptr(),
            work.len(),
            answer,
        )
    }
}

/// 0 with the four numbers in `answer`, or 100 plus the number of a refusal.
#[allow(clippy::too_many_arguments)] // Those of the exported call.
pub fn correct(
    sheet: &[u8],
    old: &[u8],
    entry: &[u8],
    variable: u32,
    position: u32,
    c: u32,
    table: &mut [u32],
    work: &mut [u32],
    answer: &mut [u32; 4],
) -> u32 {
    // SAFETY: the call has no precondition; it reads the first three slices, and writes inside the three that are lent exclusively.
    unsafe {
        entryreader_correct(
            sheet.as_ptr(),
            sheet.len(),
            old.as_ptr(),
            old.len(),
            entry.as_ptr(),
            entry.len(),
            variable,
            position,
            c,
            table.as_mut_ptr(),
            table.len(),
            work.as_mut_ptr(),
            work.len(),
            answer,
        )
    }
}

/// 0 with the four numbers in `answer`, or 100 plus the number of a refusal.
pub fn further(
    sheet: &[u8],
    entry: &[u8],
    variable: u32,
    position: u32,
    table: &mut [u32],
    work: &mut [u32],
    answer: &mut [u32; 4],
) -> u32 {
    // SAFETY: the call has no precondition; it reads the first two slices, and writes inside the three that are lent exclusively.
    unsafe {
        entryreader_further(
            sheet.as_ptr(),
            sheet.len(),
            entry.as_ptr(),
            entry.len(),
            variable,
            position,
            table.as_mut_ptr(),
            table.len(),
            work.as_mut_ptr(),
            work.len(),
            answer,
        )
    }
}

/// 0, or 100 plus the number of a refusal.
pub fn store(variables: u32, length: u32, table: &[u32], stored: &mut [u32]) -> u32 {
    // SAFETY: the call has no precondition; it reads the first slice, and writes inside the second, which is lent exclusively.
    unsafe {
        entryreader_store(
            variables,
            length,
            table.as_ptr(),
            table.len(),
            stored.as_mut_ptr(),
            stored.len(),
        )
    }
}

/// 0, or 100 plus the number of a refusal.
pub fn restore(variables: u32, length: u32, stored: &[u32], table: &mut [u32]) -> u32 {
    // SAFETY: the call has no precondition; it reads the first slice, and writes inside the second, which is lent exclusively.
    unsafe {
        entryreader_restore(
            variables,
            length,
            stored.as_ptr(),
            stored.len(),
            table.as_mut_ptr(),
            table.len(),
        )
    }
}

/// 0 with the question's four numbers and the count of lines in `answer`, or 100 plus the number of a refusal.
#[allow(clippy::too_many_arguments)] // Those of the exported call.
pub fn write(
    sheet: &[u8],
    entry: &[u8],
    variable: u32,
    position: u32,
    table: &mut [u32],
    work: &mut [u32],
    out: &mut [u8],
    answer: &mut [u32; 5],
) -> u32 {
    // SAFETY: the call has no precondition; it reads the first two slices, and writes inside the four that are lent exclusively.
    unsafe {
        entryreader_write(
            sheet.as_ptr(),
            sheet.len(),
            entry.as_ptr(),
            entry.len(),
            variable,
            position,
            table.as_mut_ptr(),
            table.len(),
            work.as_mut_ptr(),
            work.len(),
            out.as_mut_ptr(),
            out.len(),
            answer,
        )
    }
}

/// 0 with the code of the claimed outcome and the end in the last line in `answer`, or 100 plus the number of a refusal.
pub fn check(
    sheet: &[u8],
    entry: &[u8],
    variable: u32,
    position: u32,
    reading: &[u8],
    answer: &mut [u32; 2],
) -> u32 {
    // SAFETY: the call has no precondition; it reads the three slices, and writes inside the answer.
    unsafe {
        entryreader_check(
            sheet.as_ptr(),
            sheet.len(),
            entry.as_ptr(),
            entry.len(),
            variable,
            position,
            reading.as_ptr(),
            reading.len(),
            answer,
        )
    }
}

/// 0 with the sheet's length in `answer`, or 100 plus the number of a refusal.
pub fn shorthand(text: &[u8], out: &mut [u8], answer: &mut [u32; 1]) -> u32 {
    // SAFETY: the call has no precondition; it reads the first slice, and writes inside the two that are lent exclusively.
    unsafe {
        entryreader_shorthand(
            text.as_ptr(),
            text.len(),
            out.as_mut_ptr(),
            out.len(),
            answer,
        )
    }
}

/// A number of the library as a length: on the machines that it serves, every one is.
pub fn length(number: u32) -> usize {
    usize::try_from(number).unwrap_or(usize::MAX)
}
