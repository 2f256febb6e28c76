//! How much stack a call uses: it runs on a painted stack of its own, and what it wrote to is counted.

use crate::shelf::{Level, Stripe, BLOCK, LARGEST};
use outside::random::Random;
use outside::stripe::{NONE, P, Q};
use std::arch::asm;

const ROOM: usize = 1 << 16;

/// What no call may exceed.
const LIMIT: usize = 8192;

#[repr(align(16))]
struct Room([u8; ROOM]);

/// Calls a function of C with eight numbers: six in registers and two at the top of the stack. Returns
/// its result, and the bytes of stack that it wrote to below them, its return address among them.
fn used(function: usize, arguments: [u64; 8], paint: u8) -> (u64, usize) {
    let mut room = Box::new(Room([paint; ROOM]));
    let top = ROOM - 16;
    room.0[top..top + 8].copy_from_slice(&arguments[6].to_ne_bytes());
    room.0[top + 8..].copy_from_slice(&arguments[7].to_ne_bytes());
    let result: u64;
    unsafe {
        asm!(
            "xchg rsp, r12",
            "call rax",
            "mov rsp, r12",
            inout("r12") room.0.as_mut_ptr().add(top) => _,
            inout("rax") function as u64 => result,
            in("rdi") arguments[0], in("rsi") arguments[1], in("rdx") arguments[2],
            in("rcx") arguments[3], in("r8") arguments[4], in("r9") arguments[5],
            clobber_abi("C"),
        );
    }
    (result, top - room.0.iter().position(|&byte| byte != paint).expect("a call writes its return address"))
}

/// The most over two paints and some shapes, of calls that are done. Before each the stripe is made ready, by the call's number.
fn most(ready: impl Fn(Stripe, usize), calls: impl Fn(Stripe) -> Vec<(usize, [u64; 8])>) -> usize {
    let mut random = Random::new(2);
    let mut most = 0;
    for (n, b) in [(1, 1), (2, 7), (8, BLOCK), (255, BLOCK), (1, LARGEST), (8, LARGEST), (255, LARGEST)] {
        let stripe = Stripe::random(&mut random, n, b);
        for (number, (function, arguments)) in calls(stripe).into_iter().enumerate() {
            for paint in [0x5a, 0xc3] {
                ready(stripe, number);
                let (result, bytes) = used(function, arguments, paint);
                assert_eq!(result as u8, 0, "refused; n {n}, B {b}");
                most = most.max(bytes);
            }
        }
    }
    most
}

/// The most of each call at one level.
fn calls(level: &Level) -> [(&'static str, usize); 5] {
    let call = |stripe: Stripe, rest: [u64; 4]| {
        [stripe.n as u64, stripe.b as u64, stripe.start as u64, stripe.length() as u64, rest[0], rest[1], rest[2], rest[3]]
    };
    let bytes = Random::new(3).bytes(LARGEST);
    let any = |_: Stripe, _: usize| {};
    let encode = most(any, |stripe| vec![(level.encode as usize, call(stripe, [0; 4]))]);
    let write = most(any, |stripe| {
        let last = stripe.n as u64 - 1;
        vec![(level.write as usize, call(stripe, [last, 0, bytes.as_ptr() as u64, stripe.b as u64]))]
    });
    let rebuild = most(any, |stripe| {
        let devices = [0, stripe.n as u64 - 1, P, Q];
        let pairs = devices.into_iter().flat_map(|first| devices.into_iter().chain([NONE]).map(move |second| (first, second)));
        let pairs = pairs.filter(|(first, second)| first != second);
        pairs.map(|(first, second)| (level.rebuild as usize, call(stripe, [first, second, 0, 0]))).collect()
    });
    // random bytes, so that the check finds differences
    let mut summary = 0u16;
    let summary = &raw mut summary as u64;
    let check = most(any, |stripe| {
        let rest = [stripe.room as u64, stripe.b as u64, summary, 0];
        vec![(level.check as usize, call(stripe, rest))]
    });
    // each of some devices wrong in all columns
    let devices = |stripe: Stripe| [0, stripe.n - 1, stripe.n, stripe.n + 1];
    let spoiled = |mut stripe: Stripe, number: usize| {
        level.encode(stripe);
        stripe.block(devices(stripe)[number]).iter_mut().for_each(|byte| *byte ^= 0x40);
    };
    let repair = most(spoiled, |stripe| devices(stripe).map(|_| (level.repair as usize, call(stripe, [0; 4]))).to_vec());
    [("shelf_encode", encode), ("shelf_write", write), ("shelf_rebuild", rebuild), ("shelf_check", check), ("shelf_repair", repair)]
}

pub fn print(levels: &[&Level]) {
    println!("Bytes of stack:");
    println!();
    println!("| call |{}", levels.iter().map(|level| format!(" {} |", level.name)).collect::<String>());
    println!("|---|{}", "---|".repeat(levels.len()));
    let levels: Vec<_> = levels.iter().map(|level| calls(level)).collect();
    for (call, (name, _)) in levels[0].iter().enumerate() {
        println!("| `{name}` |{}", levels.iter().map(|calls| format!(" {} |", calls[call].1)).collect::<String>());
        assert!(levels.iter().all(|calls| calls[call].1 <= LIMIT), "{name} uses more than {LIMIT} bytes");
    }
    println!();
    println!("The limit is {LIMIT} bytes.");
}
