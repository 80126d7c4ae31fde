//! What the static library exports, declared once, and each function as a safe one over slices: the refusal number, 0 for none, and eight
//! entries in `answer`. bindings/c/mirvashol.h says the same to C. For those who look at every lent byte: the tests and the benchmarks. All
//! others take the typed functions of the crate.
//!
//! Each function is inlined, so that a program links just those exports that it calls. A further export is its declaration, its function here,
//! and its typed function.

/// Every slice goes as pointer, then length.
mod exported {
    extern "C" {
        pub fn mirvashol_check_table(table: *const u8, length: usize, answer: *mut u64, entries: usize) -> u8;
        pub fn mirvashol_check_list(
            list: *const u8,
            length: usize,
            free: usize,
            answer: *mut u64,
            entries: usize,
        ) -> u8;
        pub fn mirvashol_check_trace(trace: *const u8, length: usize, answer: *mut u64, entries: usize) -> u8;
        pub fn mirvashol_type_of(list: *const u8, length: usize, symbol: usize, answer: *mut u64, entries: usize)
            -> u8;
        pub fn mirvashol_type(
            table: *const u8,
            length: usize,
            out: *mut u8,
            lent: usize,
            answer: *mut u64,
            entries: usize,
        ) -> u8;
        pub fn mirvashol_compile(
            table: *const u8,
            length: usize,
            out: *mut u8,
            lent: usize,
            answer: *mut u64,
            entries: usize,
        ) -> u8;
        pub fn mirvashol_judge(
            table: *const u8,
            table_length: usize,
            list: *const u8,
            list_length: usize,
            answer: *mut u64,
            entries: usize,
        ) -> u8;
        pub fn mirvashol_judge_shelf(
            table: *const u8,
            table_length: usize,
            lists: *const u8,
            lists_length: usize,
            lengths: *const u64,
            lengths_length: usize,
            verdicts: *mut u8,
            verdicts_lent: usize,
            answer: *mut u64,
            entries: usize,
        ) -> u8;
        pub fn mirvashol_run(
            table: *const u8,
            table_length: usize,
            list: *const u8,
            list_length: usize,
            trace: *const u8,
            trace_length: usize,
            values: *mut u8,
            values_lent: usize,
            log: *mut u8,
            log_lent: usize,
            answer: *mut u64,
            entries: usize,
        ) -> u8;
    }
}

/// A slice of length 0 may have any pointer: none at all is the hardest one.
fn start<T>(given: &[T]) -> *const T {
    if given.is_empty() {
        std::ptr::null()
    } else {
        given.as_ptr()
    }
}

/// The same for what is lent to be written.
fn start_mut<T>(lent: &mut [T]) -> *mut T {
    if lent.is_empty() {
        std::ptr::null_mut()
    } else {
        lent.as_mut_ptr()
    }
}

#[inline]
pub fn check_table(table: &[u8], answer: &mut [u64]) -> u8 {
    // SAFETY: all slices are valid for their lengths during the call; so in each function below.
    unsafe { exported::mirvashol_check_table(start(table), table.len(), start_mut(answer), answer.len()) }
}

#[inline]
pub fn check_list(list: &[u8], free: usize, answer: &mut [u64]) -> u8 {
    unsafe { exported::mirvashol_check_list(start(list), list.len(), free, start_mut(answer), answer.len()) }
}

#[inline]
pub fn check_trace(trace: &[u8], answer: &mut [u64]) -> u8 {
    unsafe { exported::mirvashol_check_trace(start(trace), trace.len(), start_mut(answer), answer.len()) }
}

#[inline]
pub fn type_of(list: &[u8], symbol: usize, answer: &mut [u64]) -> u8 {
    unsafe { exported::mirvashol_type_of(start(list), list.len(), symbol, start_mut(answer), answer.len()) }
}

#[inline]
pub fn type_table(table: &[u8], out: &mut [u8], answer: &mut [u64]) -> u8 {
    unsafe {
        exported::mirvashol_type(
            start(table),
            table.len(),
            start_mut(out),
            out.len(),
            start_mut(answer),
            answer.len(),
        )
    }
}

#[inline]
pub fn compile(table: &[u8], out: &mut [u8], answer: &mut [u64]) -> u8 {
    unsafe {
        exported::mirvashol_compile(
            start(table),
            table.len(),
            start_mut(out),
            out.len(),
            start_mut(answer),
            answer.len(),
        )
    }
}

#[inline]
pub fn judge(table: &[u8], list: &[u8], answer: &mut [u64]) -> u8 {
    unsafe {
        exported::mirvashol_judge(
            start(table),
            table.len(),
            start(list),
            list.len(),
            start_mut(answer),
            answer.len(),
        )
    }
}

#[inline]
pub fn judge_shelf(table: &[u8], lists: &[u8], lengths: &[u64], verdicts: &mut [u8], answer: &mut [u64]) -> u8 {
    unsafe {
        exported::mirvashol_judge_shelf(
            start(table),
            table.len(),
            start(lists),
            lists.len(),
            start(lengths),
            lengths.len(),
            start_mut(verdicts),
            verdicts.len(),
            start_mut(answer),
            answer.len(),
        )
    }
}

#[inline]
pub fn run(table: &[u8], list: &[u8], trace: &[u8], values: &mut [u8], log: &mut [u8], answer: &mut [u64]) -> u8 {
    unsafe {
        exported::mirvashol_run(
            start(table),
            table.len(),
            start(list),
            list.len(),
            start(trace),
            trace.len(),
            start_mut(values),
            values.len(),
            start_mut(log),
            log.len(),
            start_mut(answer),
            answer.len(),
        )
    }
}
