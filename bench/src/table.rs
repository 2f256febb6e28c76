//! The tables of levels, of ratios and of peers.

use crate::isal::{self, Isal};
use crate::linux::{self, Linux};
use crate::measure::{middle, CALLS, TURN, TURNS, WARM};
use crate::shelf::{Level, Stripe, AVX2, AVX512, BLOCK, LARGEST, OLDEST};
use crate::{plain, processor, two_disks, verify, verify_check};
use outside::random::Random;
use outside::stripe::{NONE, P, Q};
use std::cell::Cell;

const ENCODE: &str = "encode";
const CLEAN: &str = "check of a clean stripe";
const SPOILED: &str = "check, a wrong byte in every chunk";
const CLEAN_REPAIR: &str = "repair of a clean stripe";
const SPOILED_REPAIR: &str = "repair of a stripe with one spoiled disk";
const P_REPAIR: &str = "repair of a stripe with a spoiled P";
const Q_REPAIR: &str = "repair of a stripe with a spoiled Q";
const TWO: &str = "rebuild of two data disks";
const ONE: &str = "rebuild of one data disk";
const LOST_P: &str = "rebuild of P";
const LOST_Q: &str = "rebuild of Q";
const DATA_P: &str = "rebuild of data and P";
const DATA_Q: &str = "rebuild of data and Q";
const WRITE: &str = "write of 4,096 bytes, last data disk";
const WRITE_512: &str = "write of 512 bytes";
const WRITE_50: &str = "write of 50 bytes";

/// With the largest blocks this many data disks make a stripe of 1 MiB.
const MEBIBYTE: usize = 14;

/// A block that ends in a part of a chunk.
const ODD: usize = BLOCK - 1;

const SHAPES: [(usize, usize); 10] =
    [(8, BLOCK), (8, ODD), (8, 100), (8, 32), (16, BLOCK), (16, 32), (255, BLOCK), (8, LARGEST), (MEBIBYTE, LARGEST), (255, LARGEST)];

/// A call of the library at one level, or of a peer, which has none.
struct Row {
    call: &'static str,
    level: &'static str,
    n: usize,
    b: usize,
    /// The bytes of data that the rate counts.
    data: usize,
    run: Box<dyn Fn()>,
    /// How long a call takes, once it is measured.
    seconds: f64,
}

const PEER: &str = "";

impl Row {
    fn rate(&self) -> f64 {
        self.data as f64 / self.seconds
    }
}

/// What a call's rate is to be: at least so much of another's, or of a peer's, at the same n and B unless they are told. Where no
/// least is given, the ratio is only said.
struct Wanted {
    call: &'static str,
    level: &'static str,
    shape: (usize, usize),
    least: Option<f64>,
    of: &'static str,
    /// The level of the other call.
    other: &'static str,
    at: (usize, usize),
}

/// In the order in which they are printed.
fn wanted() -> Vec<Wanted> {
    let mut list = vec![];
    let mut add = |call, level, shape, least, of, other, at| list.push(Wanted { call, level, shape, least, of, other, at });
    let usual = [(8, BLOCK), (16, BLOCK), (255, BLOCK)];
    for (level, generator) in [(AVX512, isal::GENERATE), (AVX2, isal::GENERATE_AVX2)] {
        for shape in usual.into_iter().chain([(8, LARGEST)]) {
            add(ENCODE, level, shape, Some(0.95), generator, PEER, shape);
        }
    }
    for shape in [(8, BLOCK), (255, BLOCK)] {
        add(CLEAN, AVX512, shape, Some(1.5), isal::CHECK, PEER, shape);
    }
    for shape in usual {
        add(TWO, AVX512, shape, Some(1.0), linux::BEST, PEER, shape);
    }
    for shape in usual.into_iter().chain([(8, LARGEST), (MEBIBYTE, LARGEST), (255, LARGEST)]) {
        let [encode, clean, two] = match shape {
            (_, BLOCK) => [Some(1.0), Some(0.6), Some(1.0)],
            (8, _) => [Some(0.95), Some(0.95), Some(1.0)],
            (255, _) => [Some(0.95), None, None],
            _ => [None; 3],
        };
        for (call, least, peer) in [(ENCODE, encode, isal::GENERATE_SSE), (CLEAN, clean, isal::CHECK_SSE), (TWO, two, linux::SSSE3)] {
            add(call, OLDEST, shape, least, peer, PEER, shape);
        }
    }
    let own = (8, BLOCK);
    add(ENCODE, OLDEST, (8, ODD), Some(0.9), ENCODE, OLDEST, own);
    for (call, least, of) in [
        (ONE, Some(1.3), ENCODE),
        (LOST_P, Some(1.3), ENCODE),
        (LOST_Q, Some(0.8), ENCODE),
        (DATA_P, Some(1.0), TWO),
        (DATA_Q, Some(1.0), TWO),
        (WRITE, Some(1.0), ENCODE),
        (WRITE_512, Some(0.7), WRITE),
        (WRITE_50, None, WRITE),
        (SPOILED, None, CLEAN),
        (P_REPAIR, None, ENCODE),
        (Q_REPAIR, None, ENCODE),
    ] {
        add(call, OLDEST, own, least, of, OLDEST, own);
    }
    for shape in usual.into_iter().chain([(8, LARGEST)]) {
        add(SPOILED_REPAIR, OLDEST, shape, Some(0.3), ENCODE, OLDEST, shape);
    }
    let shape = (MEBIBYTE, LARGEST);
    add(CLEAN_REPAIR, OLDEST, shape, Some(1.0 / 1.1), CLEAN, OLDEST, shape);
    list
}

/// A write of the last data disk from its start. A write of what stands there already would change nothing, so two
/// contents take turns.
fn write(random: &mut Random, level: &'static Level, stripe: Stripe, count: usize) -> Box<dyn Fn()> {
    let contents = [random.bytes(count), random.bytes(count)];
    let turn = Cell::new(0);
    Box::new(move || {
        turn.set(1 - turn.get());
        level.write(stripe, stripe.n as u64 - 1, &contents[turn.get()]);
    })
}

/// An encoded stripe but for one byte in every 64 columns.
fn spoiled(random: &mut Random, level: &Level, n: usize, b: usize) -> Stripe {
    let mut stripe = Stripe::random(random, n, b);
    level.encode(stripe);
    for at in (0..b).step_by(64) {
        stripe.bytes()[at] ^= 0x40;
    }
    verify_check(level, stripe);
    stripe
}

/// A repair of an encoded stripe with any bytes on one device. It heals the stripe, so the bytes are put back before each call.
fn repair(random: &mut Random, level: &'static Level, stripe: Stripe, place: usize) -> Box<dyn Fn()> {
    let noise = random.bytes(stripe.b);
    level.encode(stripe);
    Box::new(move || {
        plain::copy(&noise, { stripe }.block(place));
        level.repair(stripe);
    })
}

/// The library's rows of one shape and one level, over one stripe.
fn own_rows(random: &mut Random, level: &'static Level, stripe: Stripe) -> Vec<Row> {
    let Stripe { n, b, .. } = stripe;
    let (first, second) = two_disks(n);
    let mut rows = vec![];
    let data = n * b;
    let mut add = |call, data, run| rows.push(Row { call, level: level.name, n, b, data, run, seconds: f64::NAN });
    add(ENCODE, data, Box::new(move || level.encode(stripe)));
    add(CLEAN, data, Box::new(move || assert_eq!(level.check(stripe), 0)));
    add(TWO, data, Box::new(move || level.rebuild(stripe, first, second)));
    if (n, b) == (8, BLOCK) {
        for (call, one, other) in [(ONE, first, NONE), (LOST_P, P, NONE), (LOST_Q, Q, NONE), (DATA_P, first, P), (DATA_Q, first, Q)] {
            add(call, data, Box::new(move || level.rebuild(stripe, one, other)));
        }
        for (call, count) in [(WRITE, b), (WRITE_512, 512), (WRITE_50, 50)] {
            add(call, data * count / b, write(random, level, stripe, count));
        }
        let stripe = spoiled(random, level, n, b);
        add(SPOILED, data, Box::new(move || assert_ne!(level.check(stripe), 0)));
        for (call, place) in [(P_REPAIR, n), (Q_REPAIR, n + 1)] {
            let stripe = Stripe::random(random, n, b);
            add(call, data, repair(random, level, stripe, place));
        }
    }
    if (n, b) == (MEBIBYTE, LARGEST) {
        add(CLEAN_REPAIR, data, Box::new(move || level.repair(stripe)));
    }
    if b == BLOCK || (n, b) == (8, LARGEST) {
        let stripe = Stripe::random(random, n, b);
        add(SPOILED_REPAIR, data, repair(random, level, stripe, first as usize));
    }
    rows
}

/// The rows of one shape, over one stripe, each found right.
fn rows(random: &mut Random, levels: &[&'static Level], isal: Option<&Isal>, linux: Option<Linux>, n: usize, b: usize) -> Vec<Row> {
    let stripe = Stripe::random(random, n, b);
    let isal = isal.and_then(|isal| isal.on(stripe));
    let linux = linux.map_or(vec![], |linux| linux.on(stripe));
    verify(random, stripe, levels, isal.as_ref(), &linux);
    let (first, second) = two_disks(n);

    let mut rows: Vec<Row> = levels.iter().flat_map(|level| own_rows(random, level, stripe)).collect();
    let data = n * b;
    let mut add = |call, data, run| rows.push(Row { call, level: PEER, n, b, data, run, seconds: f64::NAN });
    if b >= BLOCK {
        let room = Stripe::random(random, n, b);
        add("plain read of the data", data, Box::new(move || plain::read(&{ stripe }.bytes()[..data])) as Box<dyn Fn()>);
        let copy = move || plain::copy(&{ stripe }.bytes()[..data], &mut { room }.bytes()[..data]);
        add("plain copy of the data", data, Box::new(copy));
    }
    if b == BLOCK || (n, b) == (8, LARGEST) {
        let noise = random.bytes(b);
        let room = Stripe::random(random, n, b);
        add("copy of one block", b, Box::new(move || plain::copy(&noise, { room }.block(first as usize))));
    }
    add("plain Rust encode", data, Box::new(move || plain::encode(n, b, { stripe }.bytes())));
    if let Some(calls) = isal {
        for named in calls.generators().into_iter().chain(calls.checks()) {
            let calls = calls.clone();
            add(named.name, data, Box::new(move || assert!(calls.passes(named))));
        }
    }
    for call in linux {
        add(call.name, data, Box::new(move || call.rebuild(first, second)));
    }
    rows
}

/// Microseconds of a row.
fn time(row: Option<&Row>) -> String {
    row.map_or("-".to_string(), |row| format!("{:.3}", row.seconds * 1e6))
}

fn introduce(levels: &[&Level], isal: Option<&Isal>, linux: Option<Linux>) {
    println!(
        "Processor: {}. One thread; the middle one of {TURNS} turns, the calls taking turns. A turn begins with {WARM} calls that",
        processor()
    );
    println!("are not timed, so that the caches are as the call itself leaves them, and goes on for {} ms, at least", TURN * 1000.0);
    println!("{CALLS} calls. Each result was first found equal to that of the independent implementation.");
    println!("Each stripe holds random bytes, begins on a page and is the same for all calls of its n and B. Buffers were not");
    println!("cleared first, and a stripe stays in the caches between calls as far as it fits.");
    let names: Vec<&str> = levels.iter().map(|level| level.name).collect();
    println!("Levels that this machine has: {}. The code for {OLDEST} is the archive's.", names.join(", "));
    println!("ISA-L: {}.", if isal.is_some() { "found" } else { "not found, so its ratios are missing" });
    match linux {
        Some(linux) => println!(
            "Linux's lib/raid6 from the package linux-source, data2 of raid6_recov_ssse3 over raid6_sse2x4, and its best here, {}.",
            linux.chosen
        ),
        None => println!("Linux's lib/raid6 from the package linux-source: not found, so its ratios are missing."),
    }
    println!("It takes a block of at most a page, so it is built for pages of 64 KiB, as some kernels have.");
    println!();
}

pub fn print(levels: &[&'static Level], isal: Option<Isal>, linux: Option<Linux>) {
    let mut random = Random::new(1);
    let mut all: Vec<Row> = SHAPES.into_iter().flat_map(|(n, b)| rows(&mut random, levels, isal.as_ref(), linux, n, b)).collect();
    let seconds = middle(TURNS, &all.iter().map(|row| &*row.run).collect::<Vec<_>>());
    for (row, seconds) in all.iter_mut().zip(seconds) {
        row.seconds = seconds;
    }
    // the calls in the order in which they were measured first, each over B and n, large blocks first
    let order: Vec<&str> = all.iter().map(|row| row.call).collect();
    all.sort_by_key(|row| (order.iter().position(|&call| call == row.call), std::cmp::Reverse(row.b), row.n));
    let find =
        |call: &str, level: &str, (n, b): (usize, usize)| all.iter().find(|row| (row.call, row.level, row.n, row.b) == (call, level, n, b));

    introduce(levels, isal.as_ref(), linux);
    println!("Microseconds of a call at each level, and the time at {OLDEST} over that at the newer ones:");
    println!();
    println!("| call | n | B | {OLDEST} | -v3 | -v4 | over -v3 | over -v4 |");
    println!("|---|---|---|---|---|---|---|---|");
    for row in all.iter().filter(|row| row.level == OLDEST) {
        let newer = [AVX2, AVX512].map(|level| find(row.call, level, (row.n, row.b)));
        let gain = newer.map(|newer| newer.map_or("-".to_string(), |newer| format!("{:.2}", row.seconds / newer.seconds)));
        print!("| {} | {} | {} | {} ", row.call, row.n, row.b, time(Some(row)));
        println!("| {} | {} | {} | {} |", time(newer[0]), time(newer[1]), gain[0], gain[1]);
    }
    println!();
    println!("What a call's rate is to be of another's or of a peer's, at the same n and B unless they are told:");
    println!();
    println!("| call | level | n | B | wanted | reached | enough |");
    println!("|---|---|---|---|---|---|---|");
    let (mut enough, mut compared) = (0, 0);
    for w in wanted() {
        let reached = find(w.call, w.level, w.shape).zip(find(w.of, w.other, w.at)).map(|(row, other)| row.rate() / other.rate());
        let answer = match (reached, w.least) {
            (Some(reached), Some(least)) if reached >= least => "yes",
            (Some(_), Some(_)) => "no",
            _ => "-",
        };
        enough += usize::from(answer == "yes");
        compared += usize::from(answer != "-");
        let least = w.least.map_or("said,".to_string(), |least| format!("{least:.2}"));
        let at = if w.at == w.shape { String::new() } else { format!(" at n = {}, B = {}", w.at.0, w.at.1) };
        let reached = reached.map_or("-".to_string(), |reached| format!("{reached:.3}"));
        println!("| {} | {} | {} | {} | {least} of {}{at} | {reached} | {answer} |", w.call, w.level, w.shape.0, w.shape.1, w.of);
    }
    println!();
    println!("| peer | n | B | microseconds | MB/s of data |");
    println!("|---|---|---|---|---|");
    for row in all.iter().filter(|row| row.level == PEER) {
        println!("| {} | {} | {} | {} | {:.0} |", row.call, row.n, row.b, time(Some(row)), row.rate() / 1e6);
    }
    println!();
    println!("A call's data are n * B bytes, for a write of a block too, so that its ratio is that of the times; a write of less has");
    println!("its share of them. 1 MB is 1,000,000 bytes. The plain read sums up the data as words of 64 bits, and the plain copy");
    println!("puts them elsewhere: an encode reads them once, too, and writes 2 * B bytes.");
    println!("A repair of a spoiled stripe heals it, so the spoiled block is put back before each call, and that is counted: it is the");
    println!("copy of one block. 14 disks of 65,536 bytes make a stripe of 1 MiB.");
    println!("Of the {compared} rows that could be compared, {enough} reach what is wanted.");
}
