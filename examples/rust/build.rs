//! Links libfundravai.a; FUNDRAVAI names the folder that it stands in.

fn main() {
    println!("cargo:rerun-if-env-changed=FUNDRAVAI");
    let here = env!("CARGO_MANIFEST_DIR");
    let folder =
        std::env::var("FUNDRAVAI").unwrap_or_else(|_| format!("{here}/../../crates/fundravai/out"));
    println!("cargo:rustc-link-search=native={folder}");
    println!("cargo:rustc-link-lib=static=fundravai");
    println!("cargo:rerun-if-changed={folder}/libfundravai.a");
}
