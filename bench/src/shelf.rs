//! The library at each level of x86-64 that the machine has, and stripes that stay in one place, so that each contestant works on
//! the same bytes. The code for x86-64 is that of libshelf.a.

use crate::library::Library;
use outside::random::Random;
use outside::stripe::LARGEST_BLOCK;
use std::alloc::{alloc_zeroed, Layout};
use std::ffi::{c_void, CString};
use std::path::Path;

/// A usual block, and the largest.
pub const BLOCK: usize = 4096;
pub const LARGEST: usize = LARGEST_BLOCK as usize;
const PAGE: usize = 4096;

pub const OLDEST: &str = "x86-64";
pub const AVX2: &str = "x86-64-v3";
pub const AVX512: &str = "x86-64-v4";

/// The calls of C's header at one level.
pub struct Level {
    pub name: &'static str,
    pub encode: unsafe extern "C" fn(u64, u64, *mut u8, usize) -> u8,
    pub write: unsafe extern "C" fn(u64, u64, *mut u8, usize, u64, u64, *const u8, usize) -> u8,
    pub rebuild: unsafe extern "C" fn(u64, u64, *mut u8, usize, u64, u64) -> u8,
    pub check: unsafe extern "C" fn(u64, u64, *const u8, usize, *mut u16, usize, *mut u16) -> u8,
    pub repair: unsafe extern "C" fn(u64, u64, *mut u8, usize) -> u8,
}

/// Whether the machine has a level.
fn has(name: &str) -> bool {
    let avx2 = is_x86_feature_detected!("avx2")
        && is_x86_feature_detected!("bmi1")
        && is_x86_feature_detected!("bmi2")
        && is_x86_feature_detected!("f16c")
        && is_x86_feature_detected!("fma")
        && is_x86_feature_detected!("lzcnt")
        && is_x86_feature_detected!("movbe");
    let avx512 = is_x86_feature_detected!("avx512f")
        && is_x86_feature_detected!("avx512bw")
        && is_x86_feature_detected!("avx512cd")
        && is_x86_feature_detected!("avx512dq")
        && is_x86_feature_detected!("avx512vl");
    match name {
        AVX512 => avx2 && avx512,
        AVX2 => avx2,
        _ => true,
    }
}

/// The levels that the machine has, from the oldest up. Each is loaded by its path, so that the loader chooses none by itself.
pub fn levels() -> Vec<&'static Level> {
    let folder = Path::new(concat!(env!("CARGO_MANIFEST_DIR"), "/../target/staticlib"));
    let soname = |folder: &Path| {
        let names = folder.read_dir().unwrap_or_else(|e| panic!("{}: {e}", folder.display())).map(|entry| entry.expect("a folder").path());
        let mut found = names.filter(|path| path.to_string_lossy().contains("/libshelf.so."));
        found.next().unwrap_or_else(|| panic!("{} has no shared library", folder.display()))
    };
    let find = |name| {
        let path = if name == OLDEST { soname(folder) } else { soname(&folder.join("glibc-hwcaps").join(name)) };
        let path = CString::new(path.to_str().expect("a path is a text")).expect("a path has no zero byte");
        let library = Library::find(&[&path]).unwrap_or_else(|| panic!("{path:?} can't be loaded"));
        let level: Option<&'static Level> = unsafe {
            (|| {
                Some(&*Box::leak(Box::new(Level {
                    name,
                    encode: library.function(c"shelf_encode")?,
                    write: library.function(c"shelf_write")?,
                    rebuild: library.function(c"shelf_rebuild")?,
                    check: library.function(c"shelf_check")?,
                    repair: library.function(c"shelf_repair")?,
                })))
            })()
        };
        level.unwrap_or_else(|| panic!("{path:?} lacks a call"))
    };
    let levels: Vec<&'static Level> = [OLDEST, AVX2, AVX512].into_iter().filter(|name| has(name)).map(find).collect();
    for pair in levels.windows(2) {
        assert!(pair[0].encode as usize != pair[1].encode as usize, "two levels are one library");
    }
    levels
}

/// The calls on a stripe, each of them done.
impl Level {
    pub fn encode(&self, stripe: Stripe) {
        stripe.done(unsafe { (self.encode)(stripe.n as u64, stripe.b as u64, stripe.start, stripe.length()) });
    }

    pub fn rebuild(&self, stripe: Stripe, first: u64, second: u64) {
        stripe.done(unsafe { (self.rebuild)(stripe.n as u64, stripe.b as u64, stripe.start, stripe.length(), first, second) });
    }

    pub fn write(&self, stripe: Stripe, disk: u64, bytes: &[u8]) {
        let (n, b) = (stripe.n as u64, stripe.b as u64);
        stripe.done(unsafe { (self.write)(n, b, stripe.start, stripe.length(), disk, 0, bytes.as_ptr(), bytes.len()) });
    }

    pub fn repair(&self, stripe: Stripe) {
        stripe.done(unsafe { (self.repair)(stripe.n as u64, stripe.b as u64, stripe.start, stripe.length()) });
    }

    /// The summary of the verdicts.
    pub fn check(&self, stripe: Stripe) -> u16 {
        let (n, b) = (stripe.n as u64, stripe.b as u64);
        let mut summary = 0;
        stripe.done(unsafe { (self.check)(n, b, stripe.start, stripe.length(), stripe.room, stripe.b, &mut summary) });
        summary
    }
}

/// A stripe by its pointer: calls through it may follow one another in any order.
#[derive(Clone, Copy)]
pub struct Stripe {
    pub n: usize,
    pub b: usize,
    pub start: *mut u8,
    /// Where its check puts a verdict for each column.
    pub room: *mut u16,
}

impl Stripe {
    /// Random bytes that begin on a page, in memory that is never given back.
    pub fn random(random: &mut Random, n: usize, b: usize) -> Stripe {
        let layout = Layout::from_size_align((n + 2) * b, PAGE).expect("a stripe is small");
        let mut stripe = Stripe { n, b, start: unsafe { alloc_zeroed(layout) }, room: vec![0; b].leak().as_mut_ptr() };
        assert!(!stripe.start.is_null(), "no memory for a stripe");
        let bytes = random.bytes(stripe.length());
        stripe.bytes().copy_from_slice(&bytes);
        stripe
    }

    pub fn length(&self) -> usize {
        (self.n + 2) * self.b
    }

    pub fn data(&self) -> usize {
        self.n * self.b
    }

    pub fn bytes(&mut self) -> &mut [u8] {
        unsafe { std::slice::from_raw_parts_mut(self.start, self.length()) }
    }

    /// The block at a place: the data disks, then P, then Q.
    pub fn block(&mut self, place: usize) -> &mut [u8] {
        let b = self.b;
        &mut self.bytes()[place * b..][..b]
    }

    pub fn verdicts(&self) -> &[u16] {
        unsafe { std::slice::from_raw_parts(self.room, self.b) }
    }

    /// The places of its blocks, for functions that take these; never given back.
    pub fn places(&self) -> *mut *mut c_void {
        let place = |k: usize| unsafe { self.start.add(k * self.b) }.cast();
        (0..self.n + 2).map(place).collect::<Vec<_>>().leak().as_mut_ptr()
    }

    fn done(&self, result: u8) {
        assert_eq!(result, 0, "refused; n {}, B {}", self.n, self.b);
    }
}
