//! The repair of libshelf.a against the independent implementation, in result and every byte: damage on one device comes back,
//! and what looks like damage on more is refused.

use outside::random::{trials, Random};
use outside::shapes::{BLOCKS, DISKS, FEW_DISKS, LARGE_BLOCKS};
use outside::stripe::{self, LARGEST_BLOCK, MIXED, UNKNOWN};
use std::cell::Cell;

extern "C" {
    fn shelf_repair(n: u64, b: u64, stripe: *mut u8, stripe_len: usize) -> u8;
}

/// Repairs the stripe, holds that to the independent implementation, and returns the result.
fn compare(n: u64, b: u64, stripe: &mut [u8]) -> u8 {
    let mut expected = stripe.to_vec();
    let wanted = stripe::repair(n, b, &mut expected);
    let result = unsafe { shelf_repair(n, b, stripe.as_mut_ptr(), stripe.len()) };
    assert_eq!(result, wanted, "n {n}, b {b}, length {}", stripe.len());
    let difference = stripe.iter().zip(&expected).position(|(got, want)| got != want);
    assert_eq!(difference, None, "first wrong place; n {n}, b {b}, result {result}");
    result
}

fn encoded(random: &mut Random, n: u64, b: u64) -> Vec<u8> {
    let mut stripe = random.bytes(((n + 2) * b) as usize);
    assert_eq!(stripe::encode(n, b, &mut stripe), 0);
    stripe
}

/// Puts another byte on a device in a column.
fn alter(random: &mut Random, b: u64, stripe: &mut [u8], device: u64, column: u64) {
    stripe[(device * b + column) as usize] ^= random.within(1, 255) as u8;
}

/// Repairs an encoded stripe whose device was altered in some columns: every byte comes back.
fn comes_back(random: &mut Random, n: u64, b: u64, encoded: &[u8], device: u64, columns: impl Iterator<Item = u64>) {
    let mut stripe = encoded.to_vec();
    for column in columns {
        alter(random, b, &mut stripe, device, column);
    }
    assert_eq!(compare(n, b, &mut stripe), 0, "n {n}, b {b}, device {device}");
    assert!(stripe == encoded, "not what was written; n {n}, b {b}, device {device}");
}

/// One device altered in one column, in some, in all, and spoiled with any bytes.
fn each_damage_of(random: &mut Random, n: u64, b: u64, encoded: &[u8], device: u64) {
    for column in [0, b - 1, random.within(0, b as usize - 1) as u64] {
        comes_back(random, n, b, encoded, device, [column].into_iter());
    }
    for share in [2, 40] {
        let columns: Vec<u64> = (0..b).filter(|_| random.once_in(share)).collect();
        comes_back(random, n, b, encoded, device, columns.into_iter());
    }
    comes_back(random, n, b, encoded, device, 0..b);
    let mut stripe = encoded.to_vec();
    let at = (device * b) as usize;
    stripe[at..at + b as usize].copy_from_slice(&random.bytes(b as usize));
    assert_eq!(compare(n, b, &mut stripe), 0, "n {n}, b {b}, device {device}");
    assert!(stripe == encoded, "not what was written; n {n}, b {b}, device {device}");
}

#[test]
fn one_altered_device_comes_back() {
    let mut random = Random::new(1);
    for n in [1, 2, 8] {
        for b in [1, 2, 7, 64, 127, 128, 129, 300, 1024] {
            let encoded = encoded(&mut random, n, b);
            for device in 0..n + 2 {
                each_damage_of(&mut random, n, b, &encoded, device);
            }
        }
    }
    for (n, b) in [(64, 1025), (65, 130), (65, 1024), (65, 1500), (255, 1), (255, 1100), (255, 2048)] {
        let encoded = encoded(&mut random, n, b);
        for device in [0, 1, n / 2, n - 1, n, n + 1] {
            each_damage_of(&mut random, n, b, &encoded, device);
        }
    }
}

/// Every device of the widest stripe is told apart.
#[test]
fn every_disk_of_the_widest_stripe() {
    let mut random = Random::new(2);
    for (n, b) in [(255, 3), (255, 1030)] {
        let encoded = encoded(&mut random, n, b);
        for device in 0..n + 2 {
            comes_back(&mut random, n, b, &encoded, device, [0, b - 1].into_iter());
        }
    }
}

/// An encoded stripe stays, one device's damage comes back, that of two is judged as the independent implementation judges it, and so
/// are any bytes.
fn shape(random: &mut Random, n: u64, b: u64) {
    let encoded = encoded(random, n, b);
    let mut stripe = encoded.clone();
    assert_eq!(compare(n, b, &mut stripe), 0, "n {n}, b {b}");
    assert!(stripe == encoded, "a clean stripe changed; n {n}, b {b}");

    let device = random.within(0, n as usize + 1) as u64;
    let columns: Vec<u64> = (0..b).filter(|&column| column == b - 1 || random.once_in(5)).collect();
    comes_back(random, n, b, &encoded, device, columns.into_iter());

    let other = (device + random.within(1, n as usize + 1) as u64) % (n + 2);
    for device in [device, other] {
        let column = random.within(0, b as usize - 1) as u64;
        alter(random, b, &mut stripe, device, column);
    }
    compare(n, b, &mut stripe);
    let mut stripe = random.bytes(stripe.len());
    compare(n, b, &mut stripe);
}

#[test]
fn every_shape() {
    let mut random = Random::new(3);
    for n in DISKS {
        for b in BLOCKS {
            shape(&mut random, n, b);
        }
    }
}

#[test]
fn every_shape_of_large_blocks() {
    let mut random = Random::new(4);
    for n in FEW_DISKS {
        for b in LARGE_BLOCKS {
            shape(&mut random, n, b);
        }
    }
}

/// Two devices altered in one column look like none that is clear, or like a third device: then the stripe is encoded after the
/// repair and isn't the one that was written. Both have to be met.
#[test]
fn two_altered_devices_in_one_column() {
    let (refused, mistaken) = (Cell::new(0), Cell::new(0));
    for n in [1, 2, 3, 8, 16, 64, 255] {
        trials(300, |random| {
            let b = random.pick(&[1, 3, 70, 128, 140]);
            let encoded = encoded(random, n, b);
            let column = random.within(0, b as usize - 1) as u64;
            let first = random.within(0, n as usize + 1) as u64;
            let second = (first + random.within(1, n as usize + 1) as u64) % (n + 2);
            let mut stripe = encoded.clone();
            alter(random, b, &mut stripe, first, column);
            alter(random, b, &mut stripe, second, column);
            let damaged = stripe.clone();
            match compare(n, b, &mut stripe) {
                0 => {
                    let after = stripe::check(n, b, &stripe).expect("a stripe has its length");
                    assert_eq!(stripe::summary(&after), 0, "n {n}, b {b}");
                    assert!(stripe != encoded, "n {n}, b {b}");
                    mistaken.set(mistaken.get() + 1);
                }
                result => {
                    assert_eq!(result, 9, "n {n}, b {b}");
                    assert!(stripe == damaged, "a refused repair changed the stripe; n {n}, b {b}");
                    refused.set(refused.get() + 1);
                }
            }
        });
    }
    assert!(refused.get() > 100 && mistaken.get() > 100, "refused {refused:?}, mistaken {mistaken:?}");
}

/// Two devices, each altered in a column of its own, are always refused; so is more than one device in one column, beside damage
/// that is clear.
#[test]
fn altered_devices_in_different_columns() {
    trials(400, |random| {
        let n = random.pick(&[1, 2, 3, 8, 65, 255]);
        let b = random.pick(&[2, 5, 64, 128, 129, 260, 1024, 1100]);
        let mut stripe = encoded(random, n, b);
        let first = random.within(0, n as usize + 1) as u64;
        let second = (first + random.within(1, n as usize + 1) as u64) % (n + 2);
        let column = random.within(0, b as usize - 1) as u64;
        let other = (column + random.within(1, b as usize - 1) as u64) % b;
        alter(random, b, &mut stripe, first, column);
        alter(random, b, &mut stripe, second, other);
        let damaged = stripe.clone();
        assert_eq!(compare(n, b, &mut stripe), 9, "n {n}, b {b}, {first} at {column}, {second} at {other}");
        assert!(stripe == damaged, "a refused repair changed the stripe; n {n}, b {b}");
        alter(random, b, &mut stripe, second, column);
        compare(n, b, &mut stripe);
    });
}

#[test]
fn any_bytes() {
    trials(300, |random| {
        let n = random.within(1, 255) as u64;
        let b = random.within(1, 70) as u64;
        let mut stripe = random.bytes(((n + 2) * b) as usize);
        compare(n, b, &mut stripe);
        // few bytes that aren't 00, so that columns are often clean
        let mut stripe = vec![0; stripe.len()];
        for _ in 0..random.within(0, 4) {
            let at = random.within(0, stripe.len() - 1);
            stripe[at] = random.number() as u8;
        }
        compare(n, b, &mut stripe);
    });
}

/// A stripe whose check has this summary, 3 or 4: P and Q altered in one column as no device would be, or in two columns.
fn unclear(random: &mut Random, n: u64, b: u64, summary: u16) -> Vec<u8> {
    let mut stripe = encoded(random, n, b);
    match summary {
        // P* = 01 and Q* = 02^n: a data disk n would explain it
        UNKNOWN => {
            stripe[(n * b) as usize] ^= 1;
            stripe[((n + 1) * b) as usize] ^= outside::field::power(2, n);
        }
        _ => {
            stripe[(n * b) as usize] ^= 1;
            stripe[((n + 2) * b) as usize - 1] ^= 1;
        }
    }
    let verdicts = stripe::check(n, b, &stripe).expect("a stripe has its length");
    assert_eq!(stripe::summary(&verdicts), summary, "n {n}, b {b}");
    stripe
}

/// Refusal 9 comes after 1, 2 and 3, and leaves the stripe as the others do.
#[test]
fn refusals() {
    let mut random = Random::new(5);
    let refused = |number: u8, n: u64, b: u64, bytes: &[u8]| {
        let mut stripe = bytes.to_vec();
        assert_eq!(compare(n, b, &mut stripe), number, "n {n}, b {b}, length {}", bytes.len());
        assert!(stripe == bytes, "a refused repair changed the stripe; n {n}, b {b}");
    };
    for summary in [UNKNOWN, MIXED] {
        // with 255 data disks every pair of checks that aren't 00 has its disk
        for (n, b) in [(1, 2), (2, 128), (8, 200), (64, 1024), (65, 1024), (65, 1100), (254, 1030), (2, LARGEST_BLOCK)] {
            let bytes = unclear(&mut random, n, b, summary);
            refused(9, n, b, &bytes);
            refused(1, 0, b, &bytes);
            refused(1, 256, b, &bytes);
            refused(1, 256, 0, &bytes);
            refused(2, n, 0, &bytes);
            refused(2, n, LARGEST_BLOCK + 1, &bytes);
            refused(3, n, b, &bytes[1..]);
            refused(3, n, b, &[]);
            refused(3, n + 1, b, &bytes);
        }
    }
    let bytes = unclear(&mut random, 255, 1030, MIXED);
    refused(9, 255, 1030, &bytes);
    let above = LARGEST_BLOCK + 1;
    refused(2, 1, above, &random.bytes(3 * above as usize));
    for wide in [65537, 65536 + 256, 131072 + 2, (1 << 32) + 1, (1 << 32) + 2, 1 << 63, u64::MAX] {
        refused(1, wide, 2, &random.bytes(8));
        refused(2, 2, wide, &random.bytes(8));
    }
}
