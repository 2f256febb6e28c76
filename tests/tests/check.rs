//! The check of libshelf.a against the independent implementation, on all sizes that it takes: the job has no room for the
//! largest blocks.

use outside::random::Random;
use outside::shapes::{BLOCKS, DISKS, FEW_DISKS, LARGE_BLOCKS};
use outside::stripe::{self, LARGEST_BLOCK, MIXED};

extern "C" {
    fn shelf_check(n: u64, b: u64, stripe: *const u8, stripe_len: usize, verdicts: *mut u16, count: usize, summary: *mut u16) -> u8;
}

/// What stands in the verdicts' buffer and in the summary before a call, and is neither.
const UNTOUCHED: u16 = 0xa5a5;

/// Checks with a buffer of so many verdicts, and returns the result, the summary and the buffer.
fn proved(n: u64, b: u64, stripe: &[u8], count: usize) -> (u8, u16, Vec<u16>) {
    let mut verdicts = vec![UNTOUCHED; count];
    let mut summary = UNTOUCHED;
    let result = unsafe { shelf_check(n, b, stripe.as_ptr(), stripe.len(), verdicts.as_mut_ptr(), count, &mut summary) };
    (result, summary, verdicts)
}

/// Holds a check that is accepted to the independent implementation; the stripe stays.
fn compare(n: u64, b: u64, stripe: &[u8]) {
    let before = stripe.to_vec();
    let expected = stripe::check(n, b, stripe).expect("a stripe has its length");
    let (result, summary, verdicts) = proved(n, b, stripe, b as usize);
    assert_eq!((result, summary), (0, stripe::summary(&expected)), "n {n}, b {b}");
    let difference = verdicts.iter().zip(&expected).position(|(got, want)| got != want);
    assert_eq!(difference, None, "first wrong column; n {n}, b {b}");
    assert!(stripe == before, "the stripe changed; n {n}, b {b}");
}

/// Checks any bytes, an encoded stripe, one with a wrong byte in the last column alone, and one with a wrong byte on each
/// device.
fn shape(random: &mut Random, n: u64, b: u64) {
    let mut stripe = random.bytes(((n + 2) * b) as usize);
    compare(n, b, &stripe);
    assert_eq!(stripe::encode(n, b, &mut stripe), 0);
    compare(n, b, &stripe);
    let last = stripe.len() - 1;
    stripe[last] ^= 0x40;
    compare(n, b, &stripe);
    stripe[last] ^= 0x40;
    for block in stripe.chunks_exact_mut(b as usize) {
        block[random.within(0, b as usize - 1)] ^= random.within(1, 255) as u8;
    }
    compare(n, b, &stripe);
}

/// The summary of an encoded stripe with some bytes changed, each given as its device's place and its column.
fn summary_with(random: &mut Random, n: u64, b: u64, changed: &[(u64, u64)]) -> u16 {
    let mut stripe = random.bytes(((n + 2) * b) as usize);
    assert_eq!(stripe::encode(n, b, &mut stripe), 0);
    for (device, column) in changed {
        stripe[(device * b + column) as usize] ^= random.within(1, 255) as u8;
    }
    compare(n, b, &stripe);
    proved(n, b, &stripe, b as usize).1
}

/// The verdict that names the device at a place.
fn naming(n: u64, device: u64) -> u16 {
    match device.checked_sub(n) {
        None => 16 + device as u16,
        Some(0) => 1,
        Some(_) => 2,
    }
}

/// Two columns, of one chunk, of different chunks, of different strips, and of the part behind the last whole chunk, each with one
/// wrong byte: on one device the summary names it, and on two different ones it is 4.
#[test]
fn two_unclean_columns_agree_or_are_mixed() {
    let mut random = Random::new(3);
    for (n, b, columns) in [
        (2, 2, &[0, 1][..]),
        (8, 10, &[5, 9]),
        (8, 63, &[0, 62]),
        (8, 127, &[0, 63, 64, 126]),
        (8, 300, &[0, 63, 64, 127, 128, 255, 256, 299]),
        (8, 4096, &[0, 1, 127, 128, 2048, 4095]),
        (65, 1024, &[0, 127, 128, 1023]),
        (65, 1500, &[0, 475, 476, 1023, 1024, 1499]),
        (255, 2100, &[0, 1023, 1024, 1075, 2047, 2048, 2099]),
    ] {
        for &one in columns {
            for &other in columns.iter().filter(|&&other| other != one) {
                let first = random.within(0, n as usize + 1) as u64;
                let second = (first + random.within(1, n as usize + 1) as u64) % (n + 2);
                for [d, e] in [[first, second], [n, n + 1], [n + 1, n], [first, n], [n + 1, second]] {
                    let expected = if d == e { naming(n, d) } else { MIXED };
                    assert_eq!(
                        summary_with(&mut random, n, b, &[(d, one), (e, other)]),
                        expected,
                        "n {n}, b {b}, {d} at {one}, {e} at {other}"
                    );
                    assert_eq!(
                        summary_with(&mut random, n, b, &[(d, one), (d, other)]),
                        naming(n, d),
                        "n {n}, b {b}, {d} at {one} and {other}"
                    );
                }
            }
        }
    }
}

/// One device with a wrong byte on any columns is named.
#[test]
fn one_changed_device_is_named() {
    let mut random = Random::new(4);
    for (n, b) in [(1, 1), (2, 65), (3, 129), (8, 300), (64, 1024), (65, 1025), (255, 1100)] {
        for device in [0, n - 1, n, n + 1, random.within(0, n as usize + 1) as u64] {
            let columns: Vec<(u64, u64)> =
                (0..b).filter(|column| column % 7 == 0 || random.within(0, 3) == 0).map(|column| (device, column)).collect();
            assert_eq!(summary_with(&mut random, n, b, &columns), naming(n, device), "n {n}, b {b}, device {device}");
        }
        assert_eq!(summary_with(&mut random, n, b, &[]), 0, "n {n}, b {b}");
    }
}

/// What differs in one column alone is found wherever that column stands among those of another device.
#[test]
fn one_column_of_another_device() {
    let mut random = Random::new(5);
    for (n, b) in [(3, 5), (8, 130), (65, 1100)] {
        for other in 0..b {
            let columns: Vec<(u64, u64)> = (0..b).map(|column| (if column == other { n } else { 1 }, column)).collect();
            assert_eq!(summary_with(&mut random, n, b, &columns), MIXED, "n {n}, b {b}, column {other}");
        }
    }
}

#[test]
fn every_shape() {
    let mut random = Random::new(1);
    for n in DISKS {
        for b in BLOCKS {
            shape(&mut random, n, b);
        }
    }
}

#[test]
fn every_shape_of_large_blocks() {
    let mut random = Random::new(2);
    for n in FEW_DISKS {
        for b in LARGE_BLOCKS {
            shape(&mut random, n, b);
        }
    }
}

/// A check that is refused leaves the verdicts and the summary.
#[test]
fn refusals() {
    let refused = |number: u8, n: u64, b: u64, length: u64, count: u64| {
        let (result, summary, verdicts) = proved(n, b, &vec![0x5a; length as usize], count as usize);
        assert_eq!((result, summary), (number, UNTOUCHED), "n {n}, b {b}, length {length}, {count} verdicts");
        assert!(verdicts.iter().all(|&verdict| verdict == UNTOUCHED), "n {n}, b {b}, length {length}, {count} verdicts");
    };
    refused(1, 0, 1, 2, 1);
    refused(1, 256, 0, 0, 0);
    let above = LARGEST_BLOCK + 1;
    for n in FEW_DISKS {
        refused(2, n, 0, 0, 0);
        refused(2, n, above, (n + 2) * above, above);
        for b in [1, 4097, 65535, 65536] {
            let length = (n + 2) * b;
            refused(3, n, b, length - 1, b - 1);
            refused(3, n, b, length + 1, b);
            refused(7, n, b, length, b - 1);
            refused(7, n, b, length, b + 1);
        }
    }
}
