//! The exported functions of the archive: their signatures, the work memory that each is lent, and all
//! unsafe code there is. A slice goes as its pointer and its length, a number that is answered as a
//! pointer. Slices of Rust are what the functions ask for: none is null, each has as many elements as its
//! length says, and none that is written overlaps another. None is kept after the call.

use crate::least;

/// Declares an exported function by what it takes after the image: numbers, slices that the caller lends,
/// work slices with their least lengths, and numbers that it answers beside the one that it returns, in
/// this order. Of this come the work slices with a safe call, and memory that can be lent as such.
macro_rules! exported {
    (
        $(#[$what:meta])*
        $name:ident of $work:ident and $memory:ident
        takes [$($number:ident: $type:ty),*]
        lent [$($lent:ident: $own:ty),*]
        answers [$($out:ident),*]
        works on [$($slice:ident: $element:ty = $least:expr,)*]
    ) => {
        $(#[$what])*
        /// What they hold before does not matter; all of them are zero afterwards.
        pub struct $work<'a> {
            $(pub $slice: &'a mut [$element],)*
        }

        impl $work<'_> {
            /// The bytes of all slices together, where each has its least length.
            pub const BYTES: usize = 0 $(+ $least * size_of::<$element>())*;

            /// What the exported function returns, and the other numbers that it answers.
            pub(crate) fn call(
                self,
                image: &[u8],
                $($number: $type,)*
                $($lent: &mut [$own],)*
            ) -> (usize, [usize; [$(stringify!($out)),*].len()]) {
                unsafe extern "C" {
                    fn $name(
                        _: *const u8, _: usize,
                        $(_: $type,)*
                        $(_: *mut $own, _: usize,)*
                        $(_: *mut $element, _: usize,)*
                        $($out: *mut usize),*
                    ) -> usize;
                }
                // Every number is to be written: one that isn't is seen by this.
                $(let mut $out = usize::MAX;)*
                let returned = unsafe {
                    $name(
                        image.as_ptr(), image.len(),
                        $($number,)*
                        $($lent.as_mut_ptr(), $lent.len(),)*
                        $(self.$slice.as_mut_ptr(), self.$slice.len(),)*
                        $(&raw mut $out),*
                    )
                };
                (returned, [$($out),*])
            }
        }

        /// Slices of the least lengths, all zero.
        pub(crate) struct $memory {
            $($slice: Vec<$element>,)*
        }

        impl $memory {
            pub(crate) fn new() -> $memory {
                $memory { $($slice: vec![0; $least],)* }
            }

            pub(crate) fn lend(&mut self) -> $work<'_> {
                $work { $($slice: &mut self.$slice,)* }
            }
        }
    };
}

check_slices! {
    exported! {
        /// The slices that a check works on, each at least as long as [`least`] says.
        rl_vm_check of CheckWork and CheckMemory
        takes []
        lent []
        answers [line, chunk, offset]
        works on
    }
}

run_slices! {
    exported! {
        /// The slices that a run works on, each at least as long as [`least`] says.
        rl_vm_run of RunWork and RunMemory
        takes [budget: usize]
        lent [result: u8]
        answers [count, length, line, chunk, offset]
        works on
    }
}
