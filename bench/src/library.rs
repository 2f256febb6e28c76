//! Libraries found at run time: where one is not there, its columns stay empty and nothing else changes.

use std::ffi::{c_char, c_int, c_void, CStr};

extern "C" {
    fn dlopen(file: *const c_char, flags: c_int) -> *mut c_void;
    fn dlsym(library: *mut c_void, name: *const c_char) -> *mut c_void;
}

const NOW: c_int = 2;

pub struct Library(*mut c_void);

impl Library {
    /// The first of some files that is there.
    pub fn find(files: &[&CStr]) -> Option<Library> {
        let open = |file: &&CStr| unsafe { dlopen(file.as_ptr(), NOW) };
        files.iter().map(open).find(|found| !found.is_null()).map(Library)
    }

    /// A function of the library, whose type has to be `F`.
    pub unsafe fn function<F>(&self, name: &CStr) -> Option<F> {
        let found = dlsym(self.0, name.as_ptr());
        (!found.is_null()).then(|| std::mem::transmute_copy(&found))
    }
}
