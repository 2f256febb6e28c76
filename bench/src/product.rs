//! Products of two bytes, one at a time.

use crate::isal;
use crate::measure::{middle, TURNS};
use outside::field;
use outside::random::Random;
use std::hint::black_box;

/// Each contestant is called as C calls, through a pointer, so that one loop serves them all.
pub type Product = unsafe extern "C" fn(u8, u8) -> u8;

#[link(name = "bench_product", kind = "static")]
extern "C" {
    fn bench_product(a: u8, b: u8) -> u8;
}

/// The powers of 02 from exponent 0 to 254.
static POWERS: [u8; 255] = powers();
/// The exponents of the bytes from 01 on.
static LOGARITHMS: [u8; 255] = logarithms();

const fn powers() -> [u8; 255] {
    let mut powers = [1; 255];
    let mut exponent = 1;
    while exponent < 255 {
        let before: u8 = powers[exponent - 1];
        powers[exponent] = (before << 1) ^ ((before >> 7) * 0x1d);
        exponent += 1;
    }
    powers
}

const fn logarithms() -> [u8; 255] {
    let powers = powers();
    let mut logarithms = [0; 255];
    let mut exponent = 0;
    while exponent < 255 {
        logarithms[powers[exponent] as usize - 1] = exponent as u8;
        exponent += 1;
    }
    logarithms
}

/// The way that the library went before: the power of 02 at the sum of the exponents; 00 is no power and is handled apart.
#[inline(never)]
extern "C" fn by_powers(a: u8, b: u8) -> u8 {
    if a == 0 || b == 0 {
        return 0;
    }
    let exponent = |x: u8| LOGARITHMS[x as usize - 1] as usize;
    POWERS[(exponent(a) + exponent(b)) % 255]
}

/// Every pair of bytes once, in no order, so that no factor can be guessed from those before it.
fn pairs() -> Vec<(u8, u8)> {
    let mut random = Random::new(5);
    let mut pairs: Vec<(u8, u8)> = (0..=255).flat_map(|a| (0..=255).map(move |b| (a, b))).collect();
    for last in (1..pairs.len()).rev() {
        pairs.swap(last, random.within(0, last));
    }
    pairs
}

/// Holds a contestant to the independent implementation, on every pair.
fn verify(name: &str, product: Product, pairs: &[(u8, u8)]) {
    for &(a, b) in pairs {
        assert_eq!(unsafe { product(a, b) }, field::product(a, b), "{name} is wrong; {a:02x} times {b:02x}");
    }
}

/// The products of all pairs, summed so that none can be left out.
fn apart(product: Product, pairs: &[(u8, u8)]) {
    let product = black_box(product);
    black_box(pairs.iter().fold(0, |sum, &(a, b)| sum ^ unsafe { product(a, b) }));
}

/// As many products, each with the one before it in its second factor, so that none can begin before that has ended.
fn in_turn(product: Product, pairs: &[(u8, u8)]) {
    let product = black_box(product);
    black_box(pairs.iter().fold(0, |last, &(a, b)| unsafe { product(a, b ^ last) }));
}

pub fn print() {
    let isal = isal::product();
    let mut contestants: Vec<(&str, Product)> = vec![("the library's", bench_product), ("by powers and logarithms, plain Rust", by_powers)];
    contestants.extend(isal.map(|product| ("ISA-L's gf_mul", product)));
    let pairs = &pairs()[..];
    for &(name, product) in &contestants {
        verify(name, product, pairs);
    }
    let [apart, in_turn] = [apart, in_turn].map(|way: fn(Product, &[(u8, u8)])| {
        let runs: Vec<_> = contestants.iter().map(|&(_, product)| move || way(product, pairs)).collect();
        middle(TURNS, &runs.iter().map(|run| run as &dyn Fn()).collect::<Vec<_>>())
    });

    println!("Products of two bytes. Each is a call of a function, through a pointer, and the call is timed with it. The 65,536");
    println!("pairs of bytes come in no order, the same for all; the middle one of {TURNS} turns, the functions taking turns as above. In turn: the");
    println!("product before is added to the second factor, so that no call begins before the last has ended. Each product was first");
    println!("found equal to that of the independent implementation. The way by powers and logarithms adds two exponents modulo 255,");
    println!("with two tables of 255 bytes. Reached is the library's rate as a part of the row's.");
    println!("ISA-L, with gf_mul: {}.", if isal.is_some() { "found" } else { "not found, so its row is missing" });
    println!();
    println!("| product of two bytes | nanoseconds | million a second | reached | in turn, nanoseconds | million a second | reached |");
    println!("|---|---|---|---|---|---|---|");
    for ((name, _), taken) in contestants.iter().zip(apart.iter().zip(&in_turn)) {
        let [apart, in_turn] = [(taken.0, apart[0]), (taken.1, in_turn[0])].map(|(taken, library)| {
            let each = taken / pairs.len() as f64;
            format!("{:.3} | {:.0} | {:.3}", each * 1e9, 1e-6 / each, taken / library)
        });
        println!("| {name} | {apart} | {in_turn} |");
    }
}
