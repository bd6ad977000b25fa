// The library's proved source with its contracts erased: made by hosts/portable/erase.rs, not to be edited.
// Nothing is proved of what a compiler makes of it.
#![no_std]
#![allow(dead_code, improper_ctypes_definitions, unused_imports, unused_variables)]
#![cfg_attr(casts, allow(non_snake_case, unused_parens))]

// The proved bounds keep every usize below 2^32.
const _: () = assert!(usize::BITS >= 32);

use core::slice::{from_raw_parts, from_raw_parts_mut};

// With `--cfg casts`, casts to usize are calls of `small`, which only the numbers have that any usize holds, or of `below`, for a
// number that is held to a limit just before. What is shifted or inverted, and what is added or multiplied in a closure,
// goes through `fixed`, which takes only what has the same width on every host; so does what `fixed_sum` adds. And what
// counts items in a usize is called behind `short`, which only the iterators have that come to an end where every usize can count.
#[cfg(casts)]
mod widths {
    use core::iter::{Enumerate, Filter, Map, Rev, TakeWhile, Zip};
    use core::ops::{Range, RangeInclusive};
    use core::slice::{ChunksExact, Iter, IterMut};

    pub trait Small: Into<u32> {
        fn small(self) -> usize {
            self.into() as usize
        }
    }

    impl Small for u8 {}
    impl Small for u16 {}
    impl Small for u32 {}

    pub trait Below: Into<u64> {
        fn below(self, limit: usize) -> usize {
            limit.min(self.into() as usize)
        }
    }

    impl Below for u64 {}

    pub trait Fixed: Sized {
        fn fixed(self) -> Self {
            self
        }
    }

    impl Fixed for bool {}
    impl Fixed for u8 {}
    impl Fixed for u16 {}
    impl Fixed for u32 {}
    impl Fixed for u64 {}

    pub const fn fixed<T: Fixed>(value: T) -> T {
        value
    }

    pub trait Sums: Iterator + Sized {
        fn fixed_sum<T: Fixed + core::iter::Sum<Self::Item>>(self) -> T {
            self.sum()
        }
    }

    impl<I: Iterator> Sums for I {}

    pub trait Short: Iterator + Sized {
        fn short(self) -> Self {
            self
        }
    }

    impl<T> Short for Iter<'_, T> {}
    impl<T> Short for IterMut<'_, T> {}
    impl<T> Short for ChunksExact<'_, T> {}
    impl Short for Range<u8> {}
    impl Short for Range<u16> {}
    impl Short for Range<u32> {}
    impl Short for Range<usize> {}
    impl Short for RangeInclusive<u8> {}
    impl Short for RangeInclusive<u16> {}
    impl<I: Short + DoubleEndedIterator> Short for Rev<I> {}
    impl<I: Short> Short for Enumerate<I> {}
    impl<I: Short, J: Iterator> Short for Zip<I, J> {}
    impl<I: Short, T, F: FnMut(I::Item) -> T> Short for Map<I, F> {}
    impl<I: Short, F: FnMut(&I::Item) -> bool> Short for Filter<I, F> {}
    impl<I: Short, F: FnMut(&I::Item) -> bool> Short for TakeWhile<I, F> {}
}
#[cfg(casts)]
use widths::fixed;

// What a failed check does: an instruction that no processor runs, or else a loop without an end.
#[cfg(not(unchecked))]
#[panic_handler]
fn stop(_: &core::panic::PanicInfo) -> ! {
    #[cfg(any(target_arch = "x86", target_arch = "x86_64"))]
    unsafe {
        core::arch::asm!("ud2", options(nomem, nostack, noreturn))
    }
    #[cfg(any(target_arch = "arm", target_arch = "aarch64"))]
    unsafe {
        core::arch::asm!("udf #0", options(nomem, nostack, noreturn))
    }
    #[cfg(any(target_arch = "riscv32", target_arch = "riscv64"))]
    unsafe {
        core::arch::asm!("unimp", options(nomem, nostack, noreturn))
    }
    #[cfg(target_arch = "wasm32")]
    core::arch::wasm32::unreachable();
    #[allow(unreachable_code)]
    loop {}
}

// With `--cfg unchecked` the compiler takes it that no check fails, as is proved, and leaves the checks out.
#[cfg(unchecked)]
#[panic_handler]
fn never(_: &core::panic::PanicInfo) -> ! {
    unsafe { core::hint::unreachable_unchecked() }
}

mod std {
    pub mod cmp {
        pub use core::cmp::{max, min};
    }

    pub mod num {
        pub fn wrapping_add_u32(a: u32, b: u32) -> u32 {
            a.wrapping_add(b)
        }

        pub fn wrapping_sub_u32(a: u32, b: u32) -> u32 {
            a.wrapping_sub(b)
        }
    }
}
