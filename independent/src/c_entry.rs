//! The planner as a function that C can call, for the benchmark.

use crate::text;

/// Writes the answer to a text and gives how many bytes it has, 0 where `out`
/// is shorter.
///
/// # Safety
/// Each pointer points at as many bytes as its length says, and the two do not
/// overlap.
#[no_mangle]
pub unsafe extern "C" fn independent_plan(
    text: *const u8,
    text_len: usize,
    out: *mut u8,
    out_len: usize,
) -> usize {
    let answer = text::plan_text(std::slice::from_raw_parts(text, text_len));
    if answer.len() > out_len {
        return 0;
    }
    std::slice::from_raw_parts_mut(out, answer.len()).copy_from_slice(&answer);
    answer.len()
}
