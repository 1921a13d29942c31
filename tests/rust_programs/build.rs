//! The program `refused` stands between the library and malloc and realloc.

fn main() {
    println!("cargo::rerun-if-changed=build.rs");
    println!("cargo::rustc-link-arg-bin=refused=-Wl,--wrap=malloc,--wrap=realloc");
}
