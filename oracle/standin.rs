//! The plain arena behind the names of the calls for C, as a static library:
//! what stands in for the proved one where a trial in C is itself tried.

#![allow(dead_code)]

mod arena;
mod calls;
mod line;
mod plain;
mod shape;
mod splay;
mod whole;

use whole::{make, run};

unsafe fn lent<'a>(first: *const u32, words: usize) -> &'a [u32] {
    if words == 0 { &[] } else { std::slice::from_raw_parts(first, words) }
}

unsafe fn lent_mut<'a>(first: *mut u32, words: usize) -> &'a mut [u32] {
    if words == 0 { &mut [] } else { std::slice::from_raw_parts_mut(first, words) }
}

macro_rules! calls {
    ($make:ident, $run:ident, $width:expr) => {
        #[no_mangle]
        pub unsafe extern "C" fn $make(arena: *mut u32, words: usize, slots: u32) -> u32 {
            make($width, lent_mut(arena, words), slots)
        }

        #[no_mangle]
        pub unsafe extern "C" fn $run(
            arena: *mut u32,
            words: usize,
            list: *const u32,
            list_words: usize,
            answers: *mut u32,
            answer_words: usize,
        ) -> u32 {
            run($width, lent_mut(arena, words), lent(list, list_words), lent_mut(answers, answer_words))
        }
    };
}
calls!(mingdholep_make, mingdholep_run, 1);
calls!(mingdholep64_make, mingdholep64_run, 2);
