// Where the linker finds the labels in C that bench/run compiles, nauty under them, and the copies of the library and of the other build that it is
// measured beside.
fn main() {
    let here = std::env::var("CARGO_MANIFEST_DIR").expect("cargo names the package's folder");
    println!("cargo:rustc-link-search=native={here}/target/c");
    println!("cargo:rustc-link-lib=static=plan_labels");
    if std::env::var_os("CARGO_FEATURE_BESIDE").is_some() {
        for build in ["ours", "ours_again", "other", "other_again"] {
            println!("cargo:rustc-link-lib=static={build}");
            println!("cargo:rerun-if-changed={here}/target/c/lib{build}.a");
        }
    }
    println!("cargo:rustc-link-arg=-l:libnauty.a");
    println!("cargo:rerun-if-changed={here}/target/c/libplan_labels.a");
    println!("cargo:rerun-if-changed=build.rs");
}
