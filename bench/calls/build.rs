//! Says where the static library with the hub's calls is: `rt lib` in crates/rounds
//! writes it. `ROUNDS` names another folder.

use std::env;
use std::path::PathBuf;

fn main() {
    let folder = env::var("ROUNDS").map_or("../../crates/rounds/out".into(), PathBuf::from);
    let folder = folder.canonicalize().unwrap_or(folder);
    let library = folder.join("librounds.a");
    println!("cargo:rerun-if-env-changed=ROUNDS");
    println!("cargo:rerun-if-changed={}", library.display());
    if !library.is_file() {
        panic!("{}: missing, run `rt lib` in crates/rounds", library.display());
    }
    println!("cargo:rustc-link-search=native={}", folder.display());
    println!("cargo:rustc-link-lib=static=rounds");
}
