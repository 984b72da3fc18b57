//! One call of one door of the proved library for each input of a coverage-guided fuzzer, beside the independent program: every number
//! and every cell of every lent buffer is compared, and any difference stops the run.

mod arena;
mod automata;
mod files;
mod helpers;
mod input;
mod lent;
mod sets;
mod tables;
mod words;

use arena::Arena;
use input::Input;

#[global_allocator]
static MEMORY: Arena = Arena::new();

/// What libFuzzer calls with each input. The first byte picks the door.
///
/// # Safety
/// The pointer and the length are of one readable block.
#[no_mangle]
pub unsafe extern "C" fn LLVMFuzzerTestOneInput(bytes: *const u8, length: usize) -> i32 {
    let bytes = if length == 0 { &[] } else { unsafe { std::slice::from_raw_parts(bytes, length) } };
    // Nothing of an earlier input is kept.
    unsafe { MEMORY.clear() };
    let mut input = Input::new(bytes);
    match input.byte() % 15 {
        0 => files::read(&mut input),
        1 => files::write(&mut input),
        2 => files::run(&mut input),
        3 => files::productive(&mut input),
        4 => words::is_sound(&mut input),
        5 => words::make(&mut input),
        6 => words::measure(&mut input),
        7 => words::list(&mut input),
        8 => files::convert_partly(&mut input),
        9 => files::convert(&mut input),
        10 => files::printed(&mut input),
        11 => sets::all(&mut input),
        12 => helpers::put_bytes(&mut input),
        13 => helpers::put_number(&mut input),
        _ => helpers::node_at(&mut input),
    }
    0
}
