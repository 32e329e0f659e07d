// How many bytes stand before the code that is measured: where a loop happens to lie in memory can matter, so bench/run measures
// the same code at several places.
use std::env;

fn main() {
    println!("cargo:rerun-if-env-changed=PLACE");
    println!("cargo:rustc-env=PLACE={}", env::var("PLACE").unwrap_or_else(|_| "0".into()));
}
