//! The shapes that tests go through: each number of data disks with each block size. The library works on a chunk of columns at a
//! time, encodes disks in pairs, above 64 disks and from 1,024 bytes on reads more of a disk before the next one, and encodes above 6
//! disks with blocks of whole pages, of 4,096 bytes, in passes of five disks. So these are among them, and the numbers beside them.

/// The columns of a chunk.
pub const CHUNK: u64 = 128;

pub const DISKS: [u64; 17] = [1, 2, 3, 4, 5, 6, 7, 8, 10, 11, 13, 16, 64, 65, 100, 254, 255];
pub const BLOCKS: [u64; 19] = [1, 2, 7, 8, 63, 64, 65, CHUNK - 1, CHUNK, CHUNK + 1, 2 * CHUNK + 1, 512, 1023, 1024, 1025, 4095, 4096, 4097, 8192];

/// Blocks that make a stripe of many disks long are tried with few numbers of them.
pub const FEW_DISKS: [u64; 4] = [1, 2, 7, 255];
pub const LARGE_BLOCKS: [u64; 2] = [65535, 65536];
