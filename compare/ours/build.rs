//! Links the libraries that `rt lib` writes; the scripts say where they are.

fn main() {
    println!("cargo:rerun-if-env-changed=EXPORTS");
    let folder = std::env::var("EXPORTS").expect("EXPORTS names the folder of the libraries");
    println!("cargo:rustc-link-search=native={folder}");
    for name in ["exports", "plan_exports"] {
        println!("cargo:rustc-link-lib=static={name}");
        println!("cargo:rerun-if-changed={folder}/lib{name}.a");
    }
}
