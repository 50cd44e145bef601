//! Where the static library of the proved calls stands (`crates/exports/out`), for the binary `bench`.

fn main() {
    println!("cargo:rerun-if-changed=build.rs");
    println!("cargo:rerun-if-env-changed=EXPORTS");
    if let Ok(folder) = std::env::var("EXPORTS") {
        println!("cargo:rerun-if-changed={folder}/libexports.a");
        println!("cargo:rustc-link-search=native={folder}");
    }
}
