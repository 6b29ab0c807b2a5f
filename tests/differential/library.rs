//! The library's functions for C callers (`include/arbac.h`), called from Rust: a slice crosses as
//! its pointer and its length. A call that is lent memory goes to the function that works in it.

/// Memory to work in, where some is lent.
pub type Memory<'a> = Option<&'a mut [u64]>;

/// Makes a function of each two of the library, the second of which works in lent memory: from the
/// texts that they read, and the buffers and arrays that they write.
macro_rules! functions {
    ($($name:ident, $plain:ident, $lent:ident,
       ($($text:ident),*; $($written:ident: $of:ty),*) -> $answer:ty;)*) => {
        extern "C" {
            $(
                fn $plain(
                    $($text: *const u8, _: usize,)*
                    $($written: *mut $of, _: usize,)*
                ) -> $answer;

                fn $lent(
                    $($text: *const u8, _: usize,)*
                    $($written: *mut $of, _: usize,)*
                    memory: *mut u64,
                    _: usize,
                ) -> $answer;
            )*
        }

        $(
            pub fn $name(
                $($text: &[u8],)*
                $($written: &mut [$of],)*
                memory: Memory,
            ) -> $answer {
                match memory {
                    None => unsafe {
                        $plain(
                            $($text.as_ptr(), $text.len(),)*
                            $($written.as_mut_ptr(), $written.len(),)*
                        )
                    },
                    Some(memory) => unsafe {
                        $lent(
                            $($text.as_ptr(), $text.len(),)*
                            $($written.as_mut_ptr(), $written.len(),)*
                            memory.as_mut_ptr(),
                            memory.len(),
                        )
                    },
                }
            }
        )*
    };
}

functions! {
    check, arbac_check, arbac_check_in,
        (policy, evidence; values: u64) -> u64;
    check_line, arbac_check_line, arbac_check_line_in,
        (policy, evidence; line: u8) -> usize;
    bad_line, arbac_bad_line, arbac_bad_line_in,
        (policy, evidence; place: u64) -> u64;
    bad_typing_line, arbac_bad_typing_line, arbac_bad_typing_line_in,
        (policy, typing; place: u64) -> u64;
    sum, arbac_sum, arbac_sum_in,
        (policy, first, second; out: u8, values: u64) -> u64;
    merge, arbac_merge, arbac_merge_in,
        (policy_1, typing_1, policy_2, typing_2; out: u8, values: u64) -> u64;
    spell, arbac_spell, arbac_spell_in,
        (policy; out: u8, values: u64) -> u64;
}
