//! One column of a stripe: the data symbols, then P, then Q. It is encoded when both of its parity
//! checks are 00. Each check is a sum over all devices: a data disk k counts once in the first and
//! 02^k times in the second, P counts in the first alone, Q in the second alone.

use crate::field::{double, inverse, logarithm, power, product};

/// How often a device counts in the two checks.
fn coefficients(device: usize, n: usize) -> [u8; 2] {
    if device < n {
        [1, power(2, device as u64)]
    } else if device == n {
        [1, 0]
    } else {
        [0, 1]
    }
}

/// The two checks, which are stored plus recomputed: P* and Q*.
pub fn checks(column: &[u8]) -> [u8; 2] {
    let (data, parities) = column.split_at(column.len() - 2);
    let mut sums = [parities[0], parities[1]];
    let mut weight = 1;
    for &symbol in data {
        sums[0] ^= symbol;
        sums[1] ^= product(weight, symbol);
        weight = double(weight);
    }
    sums
}

pub fn encode(column: &mut [u8]) {
    let n = column.len() - 2;
    column[n..].fill(0);
    let parities = checks(column);
    column[n..].copy_from_slice(&parities);
}

pub fn write(column: &mut [u8], disk: usize, new: u8) {
    let n = column.len() - 2;
    let change = column[disk] ^ new;
    column[disk] = new;
    column[n] ^= change;
    column[n + 1] ^= product(power(2, disk as u64), change);
}

/// Replaces one symbol, by the first check where the device counts in it: Q alone does not.
pub fn rebuild_one(column: &mut [u8], device: usize) {
    column[device] = 0;
    let known = checks(column);
    let [in_first, in_second] = coefficients(device, column.len() - 2);
    column[device] = if in_first != 0 { known[0] } else { product(known[1], inverse(in_second).expect("every device counts in a check")) };
}

/// Replaces two symbols, by Cramer's rule on both checks.
pub fn rebuild_two(column: &mut [u8], first: usize, second: usize) {
    let n = column.len() - 2;
    column[first] = 0;
    column[second] = 0;
    let [p, q] = checks(column);
    let ([a, c], [b, d]) = (coefficients(first, n), coefficients(second, n));
    let scale = inverse(product(a, d) ^ product(b, c)).expect("two devices never count alike");
    column[first] = product(scale, product(p, d) ^ product(b, q));
    column[second] = product(scale, product(a, q) ^ product(p, c));
}

/// Replaces two symbols, by trying all pairs of values. Exactly one pair meets both checks.
pub fn rebuild_two_by_trial(column: &mut [u8], first: usize, second: usize) {
    let n = column.len() - 2;
    column[first] = 0;
    column[second] = 0;
    let known = checks(column);
    let multiples = |device| {
        let [p, q] = coefficients(device, n);
        (0..=255).map(move |x| (x, product(p, x), product(q, x)))
    };
    let of_second: Vec<_> = multiples(second).collect();
    let mut found = Vec::new();
    for (x, xp, xq) in multiples(first) {
        for &(y, yp, yq) in &of_second {
            if [xp ^ yp, xq ^ yq] == known {
                found.push([x, y]);
            }
        }
    }
    assert_eq!(found.len(), 1, "devices {first} and {second} of {n} data disks");
    [column[first], column[second]] = found[0];
}

/// Replaces one symbol by the only one with which both checks are 00, found by trial. There has to be one.
pub fn mend(column: &mut [u8], device: usize) {
    let n = column.len() - 2;
    column[device] = 0;
    let known = checks(column);
    let [p, q] = coefficients(device, n);
    let found: Vec<u8> = (0..=255).filter(|&x| [product(p, x), product(q, x)] == known).collect();
    assert_eq!(found.len(), 1, "device {device} of {n} data disks");
    column[device] = found[0];
}

/// 0 fine, 1 P, 2 Q, 3 beyond, 16 + z data disk z.
pub fn verdict(column: &[u8]) -> u16 {
    match checks(column) {
        [0, 0] => 0,
        [_, 0] => 1,
        [0, _] => 2,
        [p, q] => {
            let ratio = product(q, inverse(p).expect("P* is not 00 here"));
            let z = logarithm(ratio).expect("neither P* nor Q* is 00 here");
            if usize::from(z) < column.len() - 2 {
                16 + u16::from(z)
            } else {
                3
            }
        }
    }
}

#[cfg(test)]
mod tests {
    use super::*;
    use crate::random::trials;

    fn encoded(data: &[u8]) -> Vec<u8> {
        let mut column = data.to_vec();
        column.extend([0xee, 0xee]);
        encode(&mut column);
        column
    }

    #[test]
    fn bench_figures_of_the_parities() {
        assert_eq!(encoded(&[0x5a]), [0x5a, 0x5a, 0x5a]);
        assert_eq!(encoded(&[1, 2, 4]), [1, 2, 4, 0x07, 0x15]);
        assert_eq!(encoded(&[0x01, 0x80]), [0x01, 0x80, 0x81, 0x1c]);
        assert_eq!(encoded(&[1; 255])[255..], [0x01, 0x00]);
        let mut last = [0; 255];
        last[254] = 1;
        assert_eq!(encoded(&last)[255..], [0x01, 0x8e]);
    }

    #[test]
    fn bench_figures_of_write_and_rebuild() {
        let mut column = encoded(&[1, 2, 4]);
        write(&mut column, 1, 0x80);
        assert_eq!(column, [0x01, 0x80, 0x04, 0x85, 0x0c]);
        let mut column = [0xaa, 2, 0xbb, 0x07, 0x15];
        rebuild_two(&mut column, 0, 2);
        assert_eq!(column, [1, 2, 4, 0x07, 0x15]);
    }

    #[test]
    fn bench_figures_of_the_check() {
        assert_eq!(verdict(&[1, 2, 4, 0x07, 0x15]), 0);
        assert_eq!(verdict(&[1, 3, 4, 0x07, 0x15]), 17);
        assert_eq!(verdict(&[1, 2, 4, 0x06, 0x1d]), 3);
        assert_eq!(verdict(&[1, 2, 4, 0x06, 0x17]), 17);
        assert_eq!(verdict(&[1, 2, 4, 0x06, 0x15]), 1);
        assert_eq!(verdict(&[1, 2, 4, 0x07, 0x14]), 2);
    }

    #[test]
    fn the_papers_equations_for_two_lost_data_disks() {
        trials(500, |random| {
            let n = random.within(2, 255);
            let column = encoded(&random.bytes(n));
            let x = random.within(0, n - 2);
            let y = random.within(x + 1, n - 1);
            let mut zeroed = column.clone();
            (zeroed[x], zeroed[y]) = (0, 0);
            let [p, q] = checks(&zeroed);
            // equations 17 to 20, with p = P + Pxy and q = Q + Qxy
            let ratio = power(2, (y - x) as u64);
            let scale = inverse(ratio ^ 1).expect("02^(y - x) is not 01");
            let (a, b) = (product(ratio, scale), product(power(2, 255 - x as u64), scale));
            let dx = product(a, p) ^ product(b, q);
            assert_eq!([dx, p ^ dx], [column[x], column[y]]);
        });
    }

    #[test]
    fn cramers_rule_agrees_with_trial() {
        trials(300, |random| {
            let n = random.within(1, 255);
            let column = random.bytes(n + 2);
            let first = random.within(0, n + 1);
            let second = (first + random.within(1, n + 1)) % (n + 2);
            let (mut solved, mut tried) = (column.clone(), column);
            rebuild_two(&mut solved, first, second);
            rebuild_two_by_trial(&mut tried, first, second);
            assert_eq!(solved, tried);
            assert_eq!(checks(&solved), [0, 0]);
        });
    }

    #[test]
    fn one_changed_device_is_named_and_mended() {
        trials(2000, |random| {
            let n = random.within(1, 255);
            let before = encoded(&random.bytes(n));
            let mut column = before.clone();
            let device = random.within(0, n + 1);
            column[device] ^= random.within(1, 255) as u8;
            let expected = if device < n { 16 + device } else { device - n + 1 };
            assert_eq!(usize::from(verdict(&column)), expected);
            mend(&mut column, device);
            assert_eq!(column, before);
        });
    }
}
