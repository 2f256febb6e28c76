//! libshelf.a against the independent implementation: the same result and the same bytes, for calls
//! that are accepted and calls that are refused.

use outside::random::{trials, Random};
use outside::shapes::{BLOCKS, CHUNK, DISKS, FEW_DISKS, LARGE_BLOCKS};
use outside::stripe::{self, LARGEST_BLOCK, NONE, P, Q};
use outside::table::Table;

extern "C" {
    fn shelf_encode(n: u64, b: u64, stripe: *mut u8, stripe_len: usize) -> u8;
    fn shelf_write(n: u64, b: u64, stripe: *mut u8, stripe_len: usize, disk: u64, offset: u64, bytes: *const u8, count: usize) -> u8;
    fn shelf_rebuild(n: u64, b: u64, stripe: *mut u8, stripe_len: usize, first: u64, second: u64) -> u8;
}

/// Numbers that no parameter takes, and that a narrower one would cut to a valid number.
const WIDE: [u64; 8] = [65537, 65536 + 256, 131072, 131072 + 2, (1 << 32) + 1, (1 << 32) + 2, 1 << 63, u64::MAX];

/// A call by its numbers and new bytes.
#[derive(Clone, Debug)]
enum Call {
    Encode,
    Write { disk: u64, offset: u64, bytes: Vec<u8> },
    Rebuild { first: u64, second: u64 },
}

impl Call {
    /// Calls the library. The lengths are those of the slices, so any numbers may be passed.
    fn proved(&self, n: u64, b: u64, stripe: &mut [u8]) -> u8 {
        let (start, length) = (stripe.as_mut_ptr(), stripe.len());
        match self {
            Call::Encode => unsafe { shelf_encode(n, b, start, length) },
            Call::Write { disk, offset, bytes } => unsafe { shelf_write(n, b, start, length, *disk, *offset, bytes.as_ptr(), bytes.len()) },
            Call::Rebuild { first, second } => unsafe { shelf_rebuild(n, b, start, length, *first, *second) },
        }
    }

    fn independent(&self, n: u64, b: u64, stripe: &mut [u8]) -> u8 {
        match self {
            Call::Encode => stripe::encode(n, b, stripe),
            Call::Write { disk, offset, bytes } => stripe::write(n, b, stripe, *disk, *offset, bytes),
            Call::Rebuild { first, second } => stripe::rebuild(n, b, stripe, *first, *second),
        }
    }

    /// Makes the call on the stripe, holds it to the independent implementation, and returns the
    /// result.
    fn compare(&self, n: u64, b: u64, stripe: &mut [u8]) -> u8 {
        let mut expected = stripe.to_vec();
        let result = self.independent(n, b, &mut expected);
        assert_eq!(self.proved(n, b, stripe), result, "n {n}, b {b}, length {}: {self:?}", stripe.len());
        let difference = stripe.iter().zip(&expected).position(|(got, want)| got != want);
        assert_eq!(difference, None, "first wrong place; n {n}, b {b}: {self:?}");
        result
    }
}

fn random_stripe(random: &mut Random, n: u64, b: u64) -> Vec<u8> {
    random.bytes(((n + 2) * b) as usize)
}

/// A write that is accepted.
fn random_write(random: &mut Random, n: u64, b: u64) -> Call {
    let offset = random.within(0, b as usize - 1);
    let count = random.within(1, b as usize - offset);
    Call::Write { disk: random.within(0, n as usize - 1) as u64, offset: offset as u64, bytes: random.bytes(count) }
}

/// The code of the device at a place: the data disks, then P, then Q.
fn code(n: u64, place: u64) -> u64 {
    if place < n {
        place
    } else {
        P + place - n
    }
}

fn random_device(random: &mut Random, n: u64) -> u64 {
    code(n, random.within(0, n as usize + 1) as u64)
}

/// A rebuild that is accepted.
fn random_rebuild(random: &mut Random, n: u64) -> Call {
    let first = random_device(random, n);
    let second = if random.once_in(4) { NONE } else { random_device(random, n) };
    Call::Rebuild { first, second: if first == second { NONE } else { second } }
}

/// Puts any bytes on the devices that a rebuild names.
fn lose(random: &mut Random, n: u64, b: u64, stripe: &mut [u8], call: &Call) {
    if let Call::Rebuild { first, second } = call {
        for device in [first, second] {
            let place = match *device {
                NONE => continue,
                P => n,
                Q => n + 1,
                disk => disk,
            };
            let at = (place * b) as usize;
            stripe[at..at + b as usize].copy_from_slice(&random.bytes(b as usize));
        }
    }
}

/// Loses what the rebuild names from an encoded stripe: every byte must come back.
fn recover(random: &mut Random, n: u64, b: u64, encoded: &[u8], call: &Call) {
    let mut stripe = encoded.to_vec();
    lose(random, n, b, &mut stripe, call);
    assert_eq!(call.proved(n, b, &mut stripe), 0, "n {n}, b {b}: {call:?}");
    assert!(stripe == encoded, "not what was lost; n {n}, b {b}: {call:?}");
}

/// Each row of the table of losses, with the first and the last data disk.
fn losses(n: u64) -> Vec<(u64, u64)> {
    let (first, last) = (0, n - 1);
    let of = |disk| [(disk, NONE), (disk, P), (disk, Q)];
    let mut losses = vec![(P, NONE), (Q, NONE), (P, Q)];
    losses.extend(of(first));
    if first != last {
        losses.extend(of(last));
        losses.push((first, last));
    }
    losses
}

/// Rebuilds any bytes under both orders of two names, with the same result.
fn rebuild_in_any_order(n: u64, b: u64, stripe: &[u8], first: u64, second: u64) {
    let (mut once, mut turned) = (stripe.to_vec(), stripe.to_vec());
    assert_eq!(Call::Rebuild { first, second }.compare(n, b, &mut once), 0);
    if second != NONE {
        assert_eq!(Call::Rebuild { first: second, second: first }.proved(n, b, &mut turned), 0);
        assert!(turned == once, "the order matters; n {n}, b {b}, {first} and {second}");
    }
}

/// Loses one or two devices of an encoded stripe, and rebuilds under both orders of two names.
fn recover_in_any_order(random: &mut Random, n: u64, b: u64, encoded: &[u8], first: u64, second: u64) {
    recover(random, n, b, encoded, &Call::Rebuild { first, second });
    if second != NONE {
        recover(random, n, b, encoded, &Call::Rebuild { first: second, second: first });
    }
}

/// Writes that end with the block, and writes that would end past it.
fn writes_about_the_end(random: &mut Random, n: u64, b: u64, stripe: &mut [u8]) {
    for (offset, count, result) in [(b - 1, 1, 0), (0, b, 0), (b - 1, 2, 6), (b, 1, 6), (b + 1, 1, 6), (0, b + 1, 6)] {
        let bytes = random.bytes(count as usize);
        assert_eq!(Call::Write { disk: n - 1, offset, bytes }.compare(n, b, stripe), result);
    }
}

/// Every call on one shape, first on a stripe of any bytes, then on an encoded one.
fn shape(random: &mut Random, n: u64, b: u64) {
    let mut stripe = random_stripe(random, n, b);
    for _ in 0..3 {
        assert_eq!(random_write(random, n, b).compare(n, b, &mut stripe), 0);
        assert_eq!(random_rebuild(random, n).compare(n, b, &mut stripe.clone()), 0);
    }
    writes_about_the_end(random, n, b, &mut stripe);
    for (first, second) in losses(n) {
        rebuild_in_any_order(n, b, &stripe, first, second);
    }
    assert_eq!(Call::Encode.compare(n, b, &mut stripe), 0);
    for _ in 0..3 {
        assert_eq!(random_write(random, n, b).compare(n, b, &mut stripe), 0);
        let call = random_rebuild(random, n);
        recover(random, n, b, &stripe, &call);
    }
    for (first, second) in losses(n) {
        recover_in_any_order(random, n, b, &stripe, first, second);
    }
}

#[test]
fn every_shape() {
    let mut random = Random::new(1);
    for n in DISKS {
        for b in BLOCKS {
            shape(&mut random, n, b);
        }
    }
}

#[test]
fn every_shape_of_large_blocks() {
    let mut random = Random::new(6);
    for n in FEW_DISKS {
        for b in LARGE_BLOCKS {
            shape(&mut random, n, b);
        }
    }
}

/// The sizes next to those that are taken, with the length that such a stripe would have.
#[test]
fn no_block_and_larger_blocks_than_the_largest() {
    let mut random = Random::new(7);
    for n in FEW_DISKS {
        for b in [0, LARGEST_BLOCK + 1] {
            let mut stripe = random_stripe(&mut random, n, b);
            let write = Call::Write { disk: 0, offset: 0, bytes: vec![] };
            let rebuilds = losses(n).into_iter().map(|(first, second)| Call::Rebuild { first, second });
            for call in rebuilds.chain([Call::Encode, write]) {
                assert_eq!(call.compare(n, b, &mut stripe), 2);
            }
        }
    }
}

/// Each of many data disks, alone and with a parity, with the disk above it and with one far from it.
#[test]
fn every_disk_of_many() {
    let mut random = Random::new(8);
    for (n, b) in [(65, 1024), (97, 2047), (255, 1025)] {
        let mut encoded = random_stripe(&mut random, n, b);
        assert_eq!(Call::Encode.compare(n, b, &mut encoded), 0);
        for disk in 0..n {
            for second in [NONE, P, Q, (disk + 1) % n, (disk + n / 2) % n] {
                recover(&mut random, n, b, &encoded, &Call::Rebuild { first: disk, second });
            }
        }
    }
}

#[test]
fn every_pair_of_losses_up_to_eight_disks() {
    let mut random = Random::new(2);
    for n in 1..=8 {
        for b in [1, 7, 65, CHUNK + 2] {
            let odd = random_stripe(&mut random, n, b);
            let mut encoded = odd.clone();
            assert_eq!(Call::Encode.compare(n, b, &mut encoded), 0);
            for first in 0..n + 2 {
                for second in (0..n + 2).map(|place| code(n, place)).chain([NONE]) {
                    let call = Call::Rebuild { first: code(n, first), second };
                    if code(n, first) == second {
                        assert_eq!(call.compare(n, b, &mut odd.clone()), 5);
                    } else {
                        assert_eq!(call.compare(n, b, &mut odd.clone()), 0);
                        recover(&mut random, n, b, &encoded, &call);
                    }
                }
            }
        }
    }
}

#[test]
fn every_data_pair_of_the_widest_stripe() {
    let mut random = Random::new(3);
    for b in [1, CHUNK] {
        let mut encoded = random_stripe(&mut random, 255, b);
        assert_eq!(Call::Encode.compare(255, b, &mut encoded), 0);
        for first in 0..255 {
            for second in 0..first {
                recover(&mut random, 255, b, &encoded, &Call::Rebuild { first, second });
            }
        }
    }
}

/// Blocks of no chunk, of one, of some, and of some and a part of one.
#[test]
fn every_block_size_up_to_three_chunks() {
    let mut random = Random::new(8);
    let n = 3;
    for b in 1..=3 * CHUNK + 1 {
        let mut stripe = random_stripe(&mut random, n, b);
        for (first, second) in [(1, NONE), (P, NONE), (Q, NONE), (1, P), (1, Q), (P, Q), (0, 2)] {
            assert_eq!(Call::Rebuild { first, second }.compare(n, b, &mut stripe), 0);
        }
        assert_eq!(random_write(&mut random, n, b).compare(n, b, &mut stripe), 0);
        assert_eq!(Call::Encode.compare(n, b, &mut stripe), 0);
    }
}

#[test]
fn stretches_that_begin_and_end_about_a_chunk() {
    let mut random = Random::new(9);
    let (n, b) = (3, 2 * CHUNK + 2);
    let mut stripe = random_stripe(&mut random, n, b);
    for offset in [0, 1, 2, 63, 64, 65, CHUNK - 1, CHUNK, CHUNK + 1, CHUNK + 2, CHUNK + 3, b - 1] {
        for count in 1..=b - offset {
            let (disk, bytes) = (count % n, random.bytes(count as usize));
            assert_eq!(Call::Write { disk, offset, bytes }.compare(n, b, &mut stripe), 0);
        }
    }
}

#[test]
fn any_stretch_of_a_block() {
    let mut random = Random::new(4);
    for b in [1, 2, 7, 8, 9, 20] {
        let n = 3;
        let mut stripe = random_stripe(&mut random, n, b);
        for disk in 0..n {
            for offset in 0..=b {
                for count in 0..=b + 1 {
                    let bytes = random.bytes(count as usize);
                    let result = Call::Write { disk, offset, bytes }.compare(n, b, &mut stripe);
                    assert_eq!(result, if count == 0 || offset + count > b { 6 } else { 0 });
                }
            }
        }
    }
}

/// Writes of no bytes, with a pointer and without: 4 where the disk isn't there, else 6, whatever the offset.
#[test]
fn empty_writes() {
    let mut random = Random::new(12);
    for n in FEW_DISKS {
        for b in [1, 2, 64, LARGEST_BLOCK] {
            let before = random_stripe(&mut random, n, b);
            let mut stripe = before.clone();
            for (disk, result) in [(0, 6), (n - 1, 6), (n, 4), (P, 4), (u64::MAX, 4)] {
                for offset in [0, b - 1, b, b + 1, u64::MAX] {
                    assert_eq!(Call::Write { disk, offset, bytes: vec![] }.compare(n, b, &mut stripe), result);
                    for bytes in [std::ptr::null(), before.as_ptr()] {
                        assert_eq!(unsafe { shelf_write(n, b, stripe.as_mut_ptr(), stripe.len(), disk, offset, bytes, 0) }, result);
                    }
                }
            }
            assert!(stripe == before, "n {n}, b {b}");
        }
    }
}

/// Each number in turn is too wide, the others as in an accepted call.
#[test]
fn numbers_that_are_too_wide() {
    let mut random = Random::new(5);
    let (n, b) = (2, 2);
    let bytes = vec![0x55, 0xaa];
    let write = |disk, offset| Call::Write { disk, offset, bytes: bytes.clone() };
    let rebuild = |first, second| Call::Rebuild { first, second };
    let mut stripe = random_stripe(&mut random, n, b);
    for wide in WIDE {
        for call in [Call::Encode, write(0, 0), rebuild(0, NONE), rebuild(0, 1)] {
            assert_eq!(call.compare(wide, b, &mut stripe), 1);
            assert_eq!(call.compare(n, wide, &mut stripe), 2);
            assert_eq!(call.compare(wide, wide, &mut stripe), 1);
        }
        assert_eq!(write(wide, 0).compare(n, b, &mut stripe), 4);
        assert_eq!(write(0, wide).compare(n, b, &mut stripe), 6);
        assert_eq!(write(wide, wide).compare(n, b, &mut stripe), 4);
        for (first, second) in [(wide, NONE), (wide, 0), (0, wide), (wide, wide), (P, wide), (NONE, wide)] {
            assert_eq!(rebuild(first, second).compare(n, b, &mut stripe), 4);
        }
    }
}

/// Numbers near every border, in all combinations that a trial happens on.
fn any_number(random: &mut Random, near: &[u64]) -> u64 {
    match random.within(0, 9) {
        0 => random.pick(&WIDE),
        1 => random.number(),
        2 => random.pick(&[0, 254, 255, 256, 257, 258, 4095, 4096, 4097, 65534, 65535, 65536, 65537]),
        _ => random.pick(near),
    }
}

/// A call whose numbers may be wrong in any way.
fn any_call(random: &mut Random, n: u64, b: u64) -> Call {
    match random.within(0, 4) {
        0 => Call::Encode,
        1 | 2 => {
            let count = if random.once_in(8) { 0 } else { random.within(1, b as usize + 1) };
            Call::Write {
                disk: any_number(random, &[0, n - 1, n]),
                offset: any_number(random, &[0, 1, b / 2, b - 1, b, b + 1]),
                bytes: random.bytes(count),
            }
        }
        _ => {
            Call::Rebuild { first: any_number(random, &[0, n - 1, n, P, Q, NONE]), second: any_number(random, &[0, n - 1, n, P, Q, NONE]) }
        }
    }
}

#[test]
fn any_numbers_and_lengths() {
    trials(20_000, |random| {
        let (n, b) = (random.within(1, 6) as u64, random.within(1, 20) as u64);
        let mut stripe = random_stripe(random, n, b);
        match random.within(0, 9) {
            0 => stripe.truncate(random.within(0, stripe.len())),
            1 => stripe.push(0),
            _ => {}
        }
        let call = any_call(random, n, b);
        let (called_n, called_b) = (any_number(random, &[n, n, n, n, n + 1]), any_number(random, &[b, b, b, b, b + 1]));
        call.compare(called_n, called_b, &mut stripe);
    });
}

/// The series of demand 3: writes, accepted or refused, refused rebuilds, and, where the start is
/// encoded, losses with their rebuild. The table sees numbers and new bytes alone.
fn series(random: &mut Random, n: u64, b: u64, encoded: bool) {
    let mut stripe = random_stripe(random, n, b);
    if encoded {
        assert_eq!(Call::Encode.proved(n, b, &mut stripe), 0);
    }
    let mut table = Table::new(n, b, &stripe);
    for _ in 0..random.within(0, 60) {
        let loss = random_rebuild(random, n);
        if encoded && random.once_in(3) {
            lose(random, n, b, &mut stripe, &loss);
            assert_eq!(loss.proved(n, b, &mut stripe), 0);
            continue;
        }
        let call = if random.once_in(2) { random_write(random, n, b) } else { any_call(random, n, b) };
        let (called_n, called_b) = (any_number(random, &[n]), any_number(random, &[b]));
        let refused = call.independent(called_n, called_b, &mut stripe.clone()) != 0;
        match &call {
            _ if refused => {}
            Call::Write { disk, offset, bytes } if (called_n, called_b) == (n, b) => table.accepted_write(*disk, *offset, bytes),
            _ => continue, // no member of the series
        }
        assert_eq!(call.proved(called_n, called_b, &mut stripe) != 0, refused, "n {n}, b {b}: {call:?}");
    }
    assert!(stripe == table.stripe(), "n {n}, b {b}");
}

#[test]
fn series_against_a_plain_table() {
    trials(400, |random| {
        let (n, b) = if random.once_in(20) {
            (random.pick(&DISKS), random.pick(&BLOCKS))
        } else {
            (random.within(1, 20) as u64, random.within(1, 100) as u64)
        };
        let encoded = random.once_in(2);
        series(random, n, b, encoded);
    });
}

#[test]
fn series_on_large_blocks() {
    let mut random = Random::new(10);
    for n in FEW_DISKS {
        for encoded in [false, true] {
            series(&mut random, n, LARGEST_BLOCK, encoded);
        }
    }
}
