//! What the calls are compared with in plain Rust, which the compiler turns into vector code by itself: an encoder, and a read and
//! a copy of the data, which say how fast memory gives them.

use outside::field::double;
use std::hint::black_box;

/// A straightforward encoder: device by device over whole blocks, P and Q summed in their places, Q by Horner's rule from the
/// highest disk down.
pub fn encode(n: usize, b: usize, stripe: &mut [u8]) {
    let (data, parities) = stripe.split_at_mut(n * b);
    let (p, q) = parities.split_at_mut(b);
    let mut blocks = data.chunks_exact(b).rev();
    if let Some(last) = blocks.next() {
        p.copy_from_slice(last);
        q.copy_from_slice(last);
    }
    for block in blocks {
        for ((p, q), d) in p.iter_mut().zip(q.iter_mut()).zip(block) {
            *p ^= d;
            *q = double(*q) ^ d;
        }
    }
}

/// Reads every byte once, as a sum of words of 64 bits.
pub fn read(data: &[u8]) {
    let word = |bytes: &[u8]| u64::from_ne_bytes(bytes.try_into().expect("a word has eight bytes"));
    black_box(data.chunks_exact(8).fold(0u64, |sum, bytes| sum.wrapping_add(word(bytes))));
}

/// Reads every byte once and writes it elsewhere.
pub fn copy(data: &[u8], room: &mut [u8]) {
    room.copy_from_slice(data);
    black_box(room);
}
