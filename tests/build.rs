//! Says where the proved libraries are, for the tests that link them. SHELF_LIBRARY names a file of the library for C: the archive
//! where nothing is said, or a shared library, whose name the loader then looks for in LD_LIBRARY_PATH.

fn main() {
    let folder = concat!(env!("CARGO_MANIFEST_DIR"), "/../target/staticlib");
    let shelf = std::env::var("SHELF_LIBRARY").unwrap_or(format!("{folder}/libshelf.a"));
    println!("cargo:rerun-if-env-changed=SHELF_LIBRARY");
    println!("cargo:rustc-link-arg-tests={shelf}");
    println!("cargo:rustc-link-search=native={folder}");
    for library in [&shelf, &format!("{folder}/libroster_calls.a")] {
        println!("cargo:rerun-if-changed={library}");
    }
}
