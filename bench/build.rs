//! Links anew where the libraries for the bench changed.

fn main() {
    for library in ["bench_product", "roster_calls"] {
        println!("cargo:rerun-if-changed=../target/staticlib/lib{library}.a");
    }
}
