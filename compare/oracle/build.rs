//! space.rs keeps `Accounting::reserve` to itself: only a module inside it can call it. So it is built
//! from a copy with two lines more behind its text, which declare one (src/within_space.rs).

use std::{env, fs};

fn main() {
    let var = |name| env::var(name).expect("cargo sets it");
    let (here, out) = (var("CARGO_MANIFEST_DIR"), var("OUT_DIR"));
    let space = format!("{here}/../../../shared/docs/src/crates/store-io-engine/src/space.rs");
    println!("cargo:rerun-if-changed={space}");
    let text = fs::read_to_string(space).expect("space.rs is read");
    let within = format!("#[path = \"{here}/src/within_space.rs\"]\npub(crate) mod within;\n");
    let module = format!("#[allow(dead_code)]\n#[path = \"{out}/space.rs\"]\nmod space;\n");
    for (name, text) in [("space.rs", text + &within), ("modules.rs", module)] {
        fs::write(format!("{out}/{name}"), text).expect("it is written");
    }
}
