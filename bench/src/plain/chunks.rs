//! Bytes as arrays of so many, and back: the standard library's `as_chunks` and `as_flattened` are newer than the compiler that this
//! package asks for.
use std::slice::{from_raw_parts, from_raw_parts_mut};

/// The whole arrays at the start, and the bytes that are left.
pub fn chunks<const K: usize>(bytes: &[u8]) -> (&[[u8; K]], &[u8]) {
    let (whole, rest) = bytes.split_at(bytes.len() / K * K);
    // An array of bytes lies as its bytes do, and asks for no alignment.
    let arrays = unsafe { from_raw_parts(whole.as_ptr().cast(), whole.len() / K) };
    (arrays, rest)
}

/// The whole arrays at the start, to be written.
pub fn chunks_mut<const K: usize>(bytes: &mut [u8]) -> &mut [[u8; K]] {
    // As in `chunks`; the bytes are borrowed as long as the arrays are.
    unsafe { from_raw_parts_mut(bytes.as_mut_ptr().cast(), bytes.len() / K) }
}

/// The bytes of all arrays.
pub fn flattened<const K: usize>(arrays: &[[u8; K]]) -> &[u8] {
    // As in `chunks`.
    unsafe { from_raw_parts(arrays.as_ptr().cast(), arrays.len() * K) }
}
