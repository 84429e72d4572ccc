// Links the engine's archive, which tools/archive writes.
fn main() {
    let package = std::env::var("CARGO_MANIFEST_DIR").expect("cargo tells a package its folder");
    let root = std::path::Path::new(&package).join("..");
    let folder = root.join("target/staticlib");
    println!("cargo:rustc-link-search=native={}", folder.display());
    println!("cargo:rustc-link-lib=static=mbyasoka");
    println!("cargo:rerun-if-changed={}", folder.join("libmbyasoka.a").display());
}
