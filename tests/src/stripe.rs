//! Encode, write, rebuild, check and repair of a stripe, column by column, with the refusals in their order.
//! Numbers are as wide as the C interface has them.

use crate::column;

pub const P: u64 = 256;
pub const Q: u64 = 257;
pub const NONE: u64 = 65535;

pub const LARGEST_BLOCK: u64 = 65536;

/// The first refusal whose test holds, or 0.
pub fn first(tests: &[(u8, bool)]) -> u8 {
    tests.iter().find(|test| test.1).map_or(0, |test| test.0)
}

/// (n + 2) * B, for any numbers.
pub fn size(n: u64, b: u64) -> u128 {
    (u128::from(n) + 2) * u128::from(b)
}

pub fn bad_n(n: u64) -> (u8, bool) {
    (1, n == 0 || n > 255)
}

pub fn bad_b(b: u64) -> (u8, bool) {
    (2, b == 0 || b > LARGEST_BLOCK)
}

pub fn bad_length(n: u64, b: u64, length: usize) -> (u8, bool) {
    (3, length as u128 != size(n, b))
}

/// Refusals 4 and 5 of a rebuild.
pub fn bad_devices(n: u64, first: u64, second: u64) -> [(u8, bool); 2] {
    let is_device = |code: u64| code < n.min(255) || code == P || code == Q;
    [(4, !is_device(first) || !(is_device(second) || second == NONE)), (5, first == second)]
}

/// The place of a device that a code names.
fn place(n: u64, code: u64) -> usize {
    match code {
        P => n as usize,
        Q => n as usize + 1,
        disk => disk as usize,
    }
}

pub fn column(b: u64, stripe: &[u8], i: usize) -> Vec<u8> {
    stripe[i..].iter().step_by(b as usize).copied().collect()
}

/// Changes some columns of a stripe, each by itself.
fn change(b: u64, stripe: &mut [u8], columns: std::ops::Range<usize>, rule: impl Fn(usize, &mut [u8])) {
    for i in columns {
        let mut changed = column(b, stripe, i);
        rule(i, &mut changed);
        for (place, symbol) in stripe[i..].iter_mut().step_by(b as usize).zip(changed) {
            *place = symbol;
        }
    }
}

pub fn encode(n: u64, b: u64, stripe: &mut [u8]) -> u8 {
    let refusal = first(&[bad_n(n), bad_b(b), bad_length(n, b, stripe.len())]);
    if refusal == 0 {
        change(b, stripe, 0..b as usize, |_, column| column::encode(column));
    }
    refusal
}

pub fn write(n: u64, b: u64, stripe: &mut [u8], disk: u64, offset: u64, bytes: &[u8]) -> u8 {
    let too_far = u128::from(offset) + bytes.len() as u128 > u128::from(b);
    let refusal =
        first(&[bad_n(n), bad_b(b), bad_length(n, b, stripe.len()), (4, disk >= n), (6, bytes.is_empty() || offset > b || too_far)]);
    if refusal == 0 {
        let start = offset as usize;
        change(b, stripe, start..start + bytes.len(), |i, column| column::write(column, disk as usize, bytes[i - start]));
    }
    refusal
}

/// Blocks up to this size are rebuilt by trial, larger ones by linear algebra.
const TRIAL: u64 = 8;

pub fn rebuild(n: u64, b: u64, stripe: &mut [u8], one: u64, two: u64) -> u8 {
    let [missing, twice] = bad_devices(n, one, two);
    let refusal = first(&[bad_n(n), bad_b(b), bad_length(n, b, stripe.len()), missing, twice]);
    if refusal == 0 {
        change(b, stripe, 0..b as usize, |_, column| match two {
            NONE => column::rebuild_one(column, place(n, one)),
            _ if b <= TRIAL => column::rebuild_two_by_trial(column, place(n, one), place(n, two)),
            _ => column::rebuild_two(column, place(n, one), place(n, two)),
        });
    }
    refusal
}

/// The verdict of each column.
pub fn check(n: u64, b: u64, stripe: &[u8]) -> Result<Vec<u16>, u8> {
    match first(&[bad_n(n), bad_b(b), bad_length(n, b, stripe.len())]) {
        0 => Ok((0..b as usize).map(|i| column::verdict(&column(b, stripe, i))).collect()),
        refusal => Err(refusal),
    }
}

/// The verdict on a column that no one device explains, and the summary of a check where the unclean columns do not agree.
pub const UNKNOWN: u16 = 3;
pub const MIXED: u16 = 4;

/// 0 if all columns are clean, the common verdict if all unclean ones agree, and else 4: by the set of the verdicts that
/// aren't 0.
pub fn summary(verdicts: &[u16]) -> u16 {
    let mut unclean: Vec<u16> = verdicts.iter().copied().filter(|&verdict| verdict != 0).collect();
    unclean.sort_unstable();
    unclean.dedup();
    match unclean[..] {
        [] => 0,
        [common] => common,
        _ => MIXED,
    }
}

/// Mends the device that the summary of the check names, in each column that isn't clean.
pub fn repair(n: u64, b: u64, stripe: &mut [u8]) -> u8 {
    let verdicts = match check(n, b, stripe) {
        Ok(verdicts) => verdicts,
        Err(refusal) => return refusal,
    };
    let device = match summary(&verdicts) {
        0 => return 0,
        1 => n as usize,
        2 => n as usize + 1,
        UNKNOWN | MIXED => return 9,
        named => usize::from(named - 16),
    };
    change(b, stripe, 0..b as usize, |i, column| {
        if verdicts[i] != 0 {
            column::mend(column, device);
        }
    });
    0
}

#[cfg(test)]
mod tests {
    use super::*;

    #[test]
    fn encode_refuses_in_order() {
        assert_eq!(encode(256, 0, &mut []), 1);
        assert_eq!(encode(0, 1, &mut [0; 2]), 1);
        assert_eq!(encode(1, 0, &mut []), 2);
        assert_eq!(encode(1, 65537, &mut []), 2);
        assert_eq!(encode(1, 65536, &mut []), 3);
        assert_eq!(encode(1, 65536, &mut [0; 3 * 65536]), 0);
        assert_eq!(encode(1, 1, &mut [0; 4]), 3);
        assert_eq!(encode(1, 1, &mut [0; 3]), 0);
    }

    #[test]
    fn write_refuses_in_order() {
        let mut stripe = [0; 6];
        for offset in [0, 1, 2, 3, u64::MAX] {
            assert_eq!(write(1, 2, &mut stripe, 1, offset, &[]), 4);
            assert_eq!(write(1, 2, &mut stripe, 0, offset, &[]), 6);
        }
        assert_eq!(write(1, 2, &mut stripe, 0, 2, &[7]), 6);
        assert_eq!(write(1, 2, &mut stripe, 0, 1, &[7, 7]), 6);
        assert_eq!(write(1, 2, &mut stripe, 0, u64::MAX, &[7]), 6);
        assert_eq!(stripe, [0; 6]);
        assert_eq!(write(1, 2, &mut stripe, 0, 1, &[7]), 0);
        assert_eq!(stripe, [0, 7, 0, 7, 0, 7]);
    }

    #[test]
    fn rebuild_refuses_in_order() {
        let mut stripe = [1, 2, 3, 1];
        for code in [2, 254, 255, 258, 65534, 65536, 65537, u64::MAX] {
            assert_eq!(rebuild(2, 1, &mut stripe, code, code), 4);
            assert_eq!(rebuild(2, 1, &mut stripe, P, code), 4);
        }
        assert_eq!(rebuild(2, 1, &mut stripe, NONE, 0), 4);
        assert_eq!(rebuild(2, 1, &mut stripe, NONE, NONE), 4);
        assert_eq!(rebuild(2, 1, &mut stripe, Q, Q), 5);
        assert_eq!(stripe, [1, 2, 3, 1]);
        assert_eq!(rebuild(255, 1, &mut [0; 257], 254, NONE), 0);
    }

    #[test]
    fn one_lost_data_disk_ignores_q() {
        let mut stripe = [0xee, 2, 3, 0x77];
        assert_eq!(rebuild(2, 1, &mut stripe, 0, NONE), 0);
        assert_eq!(stripe, [1, 2, 3, 0x77]);
    }

    #[test]
    fn the_check_judges_each_column() {
        // n = 2 and B = 3, column by column: fine, P wrong, data disk 0 wrong
        let mut stripe = [1, 0, 5, 0x80, 9, 6, 0, 0, 0, 0, 0, 0];
        assert_eq!(encode(2, 3, &mut stripe), 0);
        stripe[6 + 1] ^= 1;
        stripe[2] ^= 8;
        assert_eq!(check(2, 3, &stripe), Ok(vec![0, 1, 16]));
        assert_eq!(check(2, 3, &stripe[1..]), Err(3));
    }

    #[test]
    fn the_repair_mends_one_device_alone() {
        let mut encoded = [1, 0, 5, 0x80, 9, 6, 0, 0, 0, 0, 0, 0];
        assert_eq!(encode(2, 3, &mut encoded), 0);
        for device in 0..4 {
            let mut stripe = encoded;
            stripe[3 * device] ^= 0x11;
            stripe[3 * device + 2] ^= 0x80;
            assert_eq!(repair(2, 3, &mut stripe), 0);
            assert_eq!(stripe, encoded);
        }
        // two devices in two columns, and in one column
        for (at, other) in [(0, 4), (0, 3)] {
            let mut stripe = encoded;
            stripe[at] ^= 1;
            stripe[other] ^= 3;
            let before = stripe;
            assert_eq!(repair(2, 3, &mut stripe), 9);
            assert_eq!(stripe, before);
        }
        assert_eq!(repair(2, 3, &mut encoded[1..]), 3);
    }

    #[test]
    fn the_summary_names_what_all_unclean_columns_name() {
        for (verdicts, expected) in [
            (&[][..], 0),
            (&[0, 0, 0], 0),
            (&[0, 18, 0, 18], 18),
            (&[1, 1], 1),
            (&[2, 0], 2),
            (&[3, 3, 0], 3),
            (&[0, 0, 0, 0, 0, 18, 0, 0, 0, 23], MIXED),
            (&[1, 2], MIXED),
            (&[2, 0, 1, 2], MIXED),
            (&[17, 3], MIXED),
            (&[17, 18, 17], MIXED),
        ] {
            assert_eq!(summary(verdicts), expected, "{verdicts:?}");
        }
    }
}
