//! Measures the library at each level of x86-64 beside a plain encoder in Rust and, where they are there, ISA-L and
//! Linux's rebuild of two data disks; and the library's product of two bytes, beside the way by powers and logarithms in plain
//! Rust and, where it is there, ISA-L's; and the reading of a roster.
//!
//!     bench                 the tables of levels, of ratios and of peers, the one of products of two bytes, and the one of rosters
//!     bench --stack         the bytes of stack that each call uses
//!     bench --plot FILE     the rate of an encode over n and B, each level's and ISA-L's, as SVG

mod isal;
mod library;
mod linux;
mod measure;
mod plain;
mod plot;
mod product;
mod roster;
mod shelf;
mod stack;
mod table;

use isal::Isal;
use linux::Linux;
use outside::random::Random;
use outside::stripe::{self, NONE, P, Q};
use shelf::{levels, Level, Stripe};

fn main() {
    let words: Vec<String> = std::env::args().skip(1).collect();
    match words.iter().map(String::as_str).collect::<Vec<_>>()[..] {
        [] => {
            table::print(&levels(), Isal::find(), Linux::find());
            println!();
            product::print();
            println!();
            roster::print();
        }
        ["--stack"] => stack::print(&levels()),
        ["--plot", file] => std::fs::write(file, plot::svg(&levels(), Isal::find())).unwrap_or_else(|e| panic!("{file}: {e}")),
        _ => {
            eprintln!("usage: bench [--stack | --plot FILE]");
            std::process::exit(2);
        }
    }
}

/// The name that the processor gives itself.
fn processor() -> String {
    let text = std::fs::read_to_string("/proc/cpuinfo").unwrap_or_default();
    let name = text.lines().find_map(|line| line.strip_prefix("model name")?.split_once(": "));
    name.map_or("an unknown processor", |(_, name)| name).to_string()
}

/// Two data disks of a stripe of two or more, neither of them an end where there are others.
fn two_disks(n: usize) -> (u64, u64) {
    let first = n / 3;
    (first as u64, (2 * n / 3).max(first + 1) as u64)
}

/// Holds the check to the independent implementation, on what the stripe holds.
fn verify_check(level: &Level, mut stripe: Stripe) {
    let (n, b) = (stripe.n as u64, stripe.b as u64);
    let wanted = stripe::check(n, b, stripe.bytes()).expect("a stripe has its length");
    let right = level.check(stripe) == stripe::summary(&wanted) && stripe.verdicts() == wanted;
    assert!(right, "check is wrong; {}, n {n}, B {b}", level.name);
}

/// Holds the repair to the independent implementation, on what the stripe holds, which is damaged on one device at most.
fn verify_repair(level: &Level, mut stripe: Stripe) {
    let (n, b) = (stripe.n as u64, stripe.b as u64);
    let mut wanted = stripe.bytes().to_vec();
    assert_eq!(stripe::repair(n, b, &mut wanted), 0);
    level.repair(stripe);
    assert!(stripe.bytes() == wanted, "repair is wrong; {}, n {n}, B {b}", level.name);
}

/// Holds every call of a level to the independent implementation. The stripe is encoded before and after.
fn verify_level(random: &mut Random, level: &Level, mut stripe: Stripe) {
    let (n, b, name) = (stripe.n as u64, stripe.b as u64, level.name);
    let mut expected = stripe.bytes().to_vec();
    let parities = stripe.data();
    let noise = random.bytes(2 * stripe.b);
    stripe.bytes()[parities..].copy_from_slice(&noise);
    verify_check(level, stripe);
    level.encode(stripe);
    assert!(stripe.bytes() == expected, "encode is wrong; {name}, n {n}, B {b}");
    verify_check(level, stripe);
    stripe.bytes()[parities..].copy_from_slice(&noise);
    let (first, second) = two_disks(stripe.n);
    for (first, second) in [(first, second), (first, NONE), (P, NONE), (Q, NONE), (first, P), (first, Q)] {
        let mut wanted = stripe.bytes().to_vec();
        // a stripe of one data disk can't lose two
        if stripe::rebuild(n, b, &mut wanted, first, second) == 0 {
            level.rebuild(stripe, first, second);
            assert!(stripe.bytes() == wanted, "rebuild of {first} and {second} is wrong; {name}, n {n}, B {b}");
        }
        stripe.bytes().copy_from_slice(&expected);
    }
    // a wrong byte on each device
    for (device, block) in stripe.bytes().chunks_exact_mut(b as usize).enumerate() {
        block[device % b as usize] ^= 0x40;
    }
    verify_check(level, stripe);
    stripe.bytes().copy_from_slice(&expected);
    verify_repair(level, stripe);
    for place in [first as usize, stripe.n, stripe.n + 1] {
        stripe.block(place).copy_from_slice(&random.bytes(b as usize));
        verify_repair(level, stripe);
        assert!(stripe.bytes() == expected, "a repair gives another stripe; {name}, n {n}, B {b}");
    }
    let bytes = random.bytes(stripe.b);
    assert_eq!(stripe::write(n, b, &mut expected, n - 1, 0, &bytes), 0);
    level.write(stripe, n - 1, &bytes);
    assert!(stripe.bytes() == expected, "write is wrong; {name}, n {n}, B {b}");
}

/// Holds every contestant to the independent implementation, and leaves the stripe encoded.
fn verify(random: &mut Random, mut stripe: Stripe, levels: &[&Level], isal: Option<&isal::Calls>, linux: &[linux::Call]) {
    let (n, b) = (stripe.n as u64, stripe.b as u64);
    let mut expected = stripe.bytes().to_vec();
    assert_eq!(stripe::encode(n, b, &mut expected), 0);
    let mut same = |stripe: &mut Stripe, what: &str| {
        assert!(stripe.bytes() == expected, "{what} is wrong; n {n}, B {b}");
        let at = stripe.data();
        let noise = random.bytes(2 * stripe.b);
        stripe.bytes()[at..].copy_from_slice(&noise);
    };
    plain::encode(stripe.n, stripe.b, stripe.bytes());
    same(&mut stripe, "the plain encoder");
    if let Some(calls) = isal {
        for generator in calls.generators() {
            assert!(calls.passes(generator), "{} refuses; n {n}, B {b}", generator.name);
            assert!(calls.checks().iter().all(|&check| calls.passes(check)), "ISA-L's check refuses its own encoding; n {n}, B {b}");
            same(&mut stripe, generator.name);
            assert!(!calls.checks().iter().any(|&check| calls.passes(check)), "ISA-L's check takes any parities; n {n}, B {b}");
        }
    }
    stripe.bytes().copy_from_slice(&expected);
    let (first, second) = two_disks(stripe.n);
    for call in linux {
        stripe.block(first as usize).fill(0);
        stripe.block(second as usize).fill(0);
        call.rebuild(first, second);
        assert!(stripe.bytes() == expected, "{} of {first} and {second} is wrong; n {n}, B {b}", call.name);
    }
    for level in levels {
        verify_level(random, level, stripe);
    }
}
