//! Work memory that tests can see into.

use rl_vm::{CheckWork, RunWork, least};

/// Declares memory for the slices of an operation, by their names, elements and least lengths.
macro_rules! memory {
    ($name:ident for $work:ident [$($slice:ident: $element:ty = $least:expr,)*]) => {
        pub struct $name {
            $($slice: Vec<$element>,)*
        }

        impl $name {
            /// The name of each slice and the least length that is not refused with 9.
            pub const LEAST: &[(&str, usize)] = &[$((stringify!($slice), $least)),*];

            /// Slices of the given lengths, in the order of `LEAST`, all zero.
            pub fn of(lengths: &[usize]) -> $name {
                assert_eq!(lengths.len(), Self::LEAST.len(), "a length for each slice");
                let mut lengths = lengths.iter().copied();
                let mut next = || lengths.next().unwrap_or(0);
                $name { $($slice: vec![0; next()],)* }
            }

            pub fn lend(&mut self) -> $work<'_> {
                $work { $($slice: &mut self.$slice,)* }
            }

            /// Whether every element is zero. All are looked at, which is quicker than to stop at the
            /// first that isn't.
            pub fn is_zero(&self) -> bool {
                true $(& (self.$slice.iter().fold(0, |all, one| all | one) == 0))*
            }

            /// Puts the byte into every byte of every slice.
            pub fn fill(&mut self, byte: u8) {
                $(self.$slice.fill(<$element>::from_ne_bytes([byte; size_of::<$element>()]));)*
            }
        }
    };
}

check_slices! { memory! { CheckMemory for CheckWork } }

run_slices! { memory! { RunMemory for RunWork } }
