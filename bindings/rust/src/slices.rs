//! The work slices of each operation, in the order in which it takes them: name, element, least length. Each
//! list is a macro that puts it behind what stands in a call of another, `run_slices! { name! { .. } }`.
//! tests/machine reads this file too, and makes memory of other lengths of it.

/// The five of `load`, which each operation takes first, and then its own.
macro_rules! image_slices {
    ($name:ident! { $($before:tt)* } $($own:tt)*) => {
        $name! {
            $($before)* [
                bytes: u8 = least::BYTES,
                ends: usize = least::ENDS,
                kinds: u8 = least::KINDS,
                payloads: u64 = least::PAYLOADS,
                table: usize = least::TABLE,
                $($own)*
            ]
        }
    };
}

macro_rules! check_slices {
    ($name:ident! { $($before:tt)* }) => {
        image_slices! {
            $name! { $($before)* }
            heights: usize = least::HEIGHTS,
            depths: usize = least::DEPTHS,
            todo: usize = least::TODO,
        }
    };
}

macro_rules! run_slices {
    ($name:ident! { $($before:tt)* }) => {
        image_slices! {
            $name! { $($before)* }
            texts: u64 = least::TEXTS,
            classes: u64 = least::CLASSES,
            stack: u64 = least::STACK,
            locals: u64 = least::LOCALS,
            starts: usize = least::STARTS,
            globals: u64 = least::GLOBALS,
            cells: u64 = least::CELLS,
            memo: u16 = least::MEMO,
        }
    };
}
