//! The bit reader's calls as they are.

#![deny(clippy::undocumented_unsafe_blocks)]

mod raw {
    extern "C" {
        pub fn bitcalls_take(
            bytes: *const u8,
            bytes_len: usize,
            at: usize,
            k: usize,
            next: *mut usize,
        ) -> u32;
        pub fn bitcalls_row(bytes: *const u8, bytes_len: usize, at: usize, k: usize) -> u32;
    }
}

/// The k bits from a place on, at most 32, the first worth most, and the place after them.
pub fn take(bytes: &[u8], at: usize, k: usize) -> (u32, usize) {
    let mut next = 0;
    // SAFETY: the bytes are a slice, valid for reads of its length, whatever the place and the number of bits; the place after is
    // a local.
    let value = unsafe { raw::bitcalls_take(bytes.as_ptr(), bytes.len(), at, k, &mut next) };
    (value, next)
}

/// The same bits, the first worth 1.
pub fn row(bytes: &[u8], at: usize, k: usize) -> u32 {
    // SAFETY: the bytes are a slice, valid for reads of its length, whatever the place and the number of bits. Nothing is written.
    unsafe { raw::bitcalls_row(bytes.as_ptr(), bytes.len(), at, k) }
}
