//! ISA-L's encoders, checks and product of two bytes, where it is installed.

use crate::library::Library;
use crate::product::Product;
use crate::shelf::Stripe;
use std::ffi::{c_int, c_void};

fn library() -> Option<Library> {
    Library::find(&[c"libisal.so.2", c"libisal.so"])
}

/// Takes the number of blocks with the parities, their length and their places; 0 is a pass.
type Function = unsafe extern "C" fn(c_int, c_int, *mut *mut c_void) -> c_int;

/// A function under its name in ISA-L.
#[derive(Clone, Copy)]
pub struct Named {
    pub name: &'static str,
    function: Function,
}

/// The functions written for SSE and for AVX2, and ISA-L's own choice for this processor. It has one check, for SSE.
pub const GENERATE_SSE: &str = "pq_gen_sse";
pub const GENERATE_AVX2: &str = "pq_gen_avx2";
pub const GENERATE: &str = "pq_gen";
pub const CHECK_SSE: &str = "pq_check_sse";
pub const CHECK: &str = "pq_check";

#[derive(Clone)]
pub struct Isal {
    generators: Vec<Named>,
    checks: Vec<Named>,
}

impl Isal {
    pub fn find() -> Option<Isal> {
        if !is_x86_feature_detected!("sse4.1") {
            return None;
        }
        let library = library()?;
        let find = |name| Some(Named { name, function: unsafe { library.function(&std::ffi::CString::new(name).ok()?)? } });
        let generators = [GENERATE_SSE, GENERATE_AVX2, GENERATE].into_iter();
        let generators = generators.filter(|&name| name != GENERATE_AVX2 || is_x86_feature_detected!("avx2"));
        Some(Isal {
            generators: generators.map(find).collect::<Option<_>>()?,
            checks: [CHECK_SSE, CHECK].map(find).into_iter().collect::<Option<_>>()?,
        })
    }

    /// The library on one stripe, or none where its blocks are no multiple of 32 bytes.
    pub fn on(&self, stripe: Stripe) -> Option<Calls> {
        stripe.b.is_multiple_of(32).then(|| Calls { isal: self.clone(), stripe, places: stripe.places() })
    }
}

/// The places are worked out once, before the clock starts.
#[derive(Clone)]
pub struct Calls {
    isal: Isal,
    stripe: Stripe,
    places: *mut *mut c_void,
}

impl Calls {
    pub fn generators(&self) -> Vec<Named> {
        self.isal.generators.clone()
    }

    pub fn checks(&self) -> Vec<Named> {
        self.isal.checks.clone()
    }

    /// Whether a function passes: each generator does, and each check where the stripe is encoded.
    pub fn passes(&self, named: Named) -> bool {
        unsafe { (named.function)(self.stripe.n as c_int + 2, self.stripe.b as c_int, self.places) == 0 }
    }
}

/// The product of two bytes, gf_mul. It wants no vector instructions, so it is found apart from the others.
pub fn product() -> Option<Product> {
    unsafe { library()?.function(c"gf_mul") }
}
