// Where the linker finds the static library that `rt lib` writes in the folder crates/planner.
fn main() {
    let here = std::env::var("CARGO_MANIFEST_DIR").expect("cargo names the package's folder");
    println!("cargo:rustc-link-search=native={here}/../../crates/planner/out");
    println!("cargo:rerun-if-changed={here}/../../crates/planner/out/libplanner.a");
    println!("cargo:rerun-if-changed=build.rs");
}
