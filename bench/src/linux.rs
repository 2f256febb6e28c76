//! Linux's rebuild of two data disks, where bench/linux built it: the one for SSSE3, and the best for this processor.

use crate::library::Library;
use crate::shelf::Stripe;
use std::ffi::{c_int, c_void, CStr};

const FILE: &str = concat!(env!("CARGO_MANIFEST_DIR"), "/../target/bench/libraid6.so\0");

/// Takes the number of blocks with the parities, their length, the lower and the higher disk, and the blocks' places.
type Function = unsafe extern "C" fn(c_int, usize, c_int, c_int, *mut *mut c_void);

pub const SSSE3: &str = "Linux data2, ssse3";
pub const BEST: &str = "Linux data2, its best";

/// `raid6_recov_ssse3.data2` over `raid6_sse2x4`, and that of the newest instructions that the processor has, over as new a syndrome.
#[derive(Clone, Copy)]
pub struct Linux {
    ssse3: Function,
    best: Function,
    /// Which one the best is.
    pub chosen: &'static str,
}

impl Linux {
    pub fn find() -> Option<Linux> {
        if !is_x86_feature_detected!("ssse3") {
            return None;
        }
        let file = CStr::from_bytes_with_nul(FILE.as_bytes()).expect("a path has no zero byte");
        let library = Library::find(&[file])?;
        let (chosen, name) = if is_x86_feature_detected!("avx512bw") && is_x86_feature_detected!("avx512vl") {
            ("raid6_recov_avx512 over raid6_avx512x4", c"data2_avx512")
        } else if is_x86_feature_detected!("avx2") {
            ("raid6_recov_avx2 over raid6_avx2x4", c"data2_avx2")
        } else {
            ("raid6_recov_ssse3 over raid6_sse2x4", c"data2_ssse3")
        };
        unsafe { Some(Linux { ssse3: library.function(c"data2_ssse3")?, best: library.function(name)?, chosen }) }
    }

    /// The functions on one stripe, or none where its blocks are no multiple of 512 bytes. They are no larger than the pages that they
    /// are built for.
    pub fn on(self, stripe: Stripe) -> Vec<Call> {
        let functions = if stripe.b.is_multiple_of(512) { vec![(SSSE3, self.ssse3), (BEST, self.best)] } else { vec![] };
        functions.into_iter().map(|(name, function)| Call { name, function, stripe, places: stripe.places() }).collect()
    }
}

/// The places are worked out once, before the clock starts.
#[derive(Clone, Copy)]
pub struct Call {
    pub name: &'static str,
    function: Function,
    stripe: Stripe,
    places: *mut *mut c_void,
}

impl Call {
    pub fn rebuild(&self, first: u64, second: u64) {
        let Stripe { n, b, .. } = self.stripe;
        unsafe { (self.function)(n as c_int + 2, b, first as c_int, second as c_int, self.places) }
    }
}
