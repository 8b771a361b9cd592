//! Links the proved archives, which `make` beside this file has `rt lib` make of `brinepost`, `brinepost_tiles` and `brinepost_reader`.

fn main() {
    let crates = concat!(env!("CARGO_MANIFEST_DIR"), "/../../crates");
    for name in ["brinepost", "brinepost_tiles", "brinepost_reader"] {
        println!("cargo:rustc-link-search=native={crates}/{name}/out");
        println!("cargo:rustc-link-lib=static={name}");
        println!("cargo:rerun-if-changed={crates}/{name}/out/lib{name}.a");
    }
}
