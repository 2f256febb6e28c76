//! GF(2^8) by shift and add, with no table: bytes as polynomials over two elements, modulo
//! x^8 + x^4 + x^3 + x^2 + 1.

/// Times 02.
pub fn double(x: u8) -> u8 {
    (x << 1) ^ if x & 0x80 == 0 { 0 } else { 0x1d }
}

/// The sum of a times x^i over the bits i of b.
pub fn product(a: u8, b: u8) -> u8 {
    let mut sum = 0;
    let mut shifted = a;
    for i in 0..8 {
        if b >> i & 1 == 1 {
            sum ^= shifted;
        }
        shifted = double(shifted);
    }
    sum
}

/// By squares; exponent 0 gives 01, also for 00.
pub fn power(x: u8, exponent: u64) -> u8 {
    let mut answer = 1;
    let mut square = x;
    let mut rest = exponent;
    while rest > 0 {
        if rest % 2 == 1 {
            answer = product(answer, square);
        }
        square = product(square, square);
        rest /= 2;
    }
    answer
}

/// The only y with x * y = 01, by trial; 00 has none.
pub fn inverse(x: u8) -> Option<u8> {
    (0..=255).find(|&y| product(x, y) == 1)
}

/// The exponent of 02 below 255 that gives x, by trial; 00 has none.
pub fn logarithm(x: u8) -> Option<u8> {
    let mut candidate = 1;
    for exponent in 0..255 {
        if candidate == x {
            return Some(exponent);
        }
        candidate = double(candidate);
    }
    None
}

#[cfg(test)]
mod tests {
    use super::*;

    #[test]
    fn figures_of_the_papers() {
        assert_eq!(double(0x80), 0x1d);
        assert_eq!(product(0x8d, 0x02), 0x07);
        assert_eq!(power(0x02, 8), 0x1d);
        assert_eq!(power(0x02, 12), 0xcd);
        assert_eq!(inverse(0x02), Some(0x8e));
        assert_eq!(logarithm(0x10), Some(4));
    }

    #[test]
    fn house_rules() {
        assert_eq!(inverse(0), None);
        assert_eq!(logarithm(0), None);
        for x in 1..=255 {
            assert!(inverse(x).is_some() && logarithm(x).is_some(), "{x:02x}");
        }
        assert_eq!(power(0, 0), 1);
    }

    #[test]
    fn the_generator_visits_every_nonzero_element() {
        let mut seen: Vec<u8> = (0..255).map(|e| power(2, e)).collect();
        seen.sort_unstable();
        assert_eq!(seen, (1..=255).collect::<Vec<u8>>());
        assert_eq!(power(2, 255), 1);
    }

    #[test]
    fn a_power_is_a_repeated_product() {
        for x in 0..=255 {
            let mut repeated = 1;
            for exponent in 0..600 {
                assert_eq!(power(x, exponent), repeated, "{x:02x}^{exponent}");
                repeated = product(repeated, x);
            }
        }
    }
}
