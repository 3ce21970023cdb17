//! Has the linker place the compared functions as `placing.ld` says.

fn main() {
    let package = std::env::var("CARGO_MANIFEST_DIR").expect("cargo names the package's folder");
    println!("cargo:rerun-if-changed=placing.ld");
    println!("cargo:rustc-link-arg-bins=-Wl,-T,{package}/placing.ld");
}
