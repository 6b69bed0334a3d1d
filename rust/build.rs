// Links libfinder_c.a from the folder that FINDER_LIB names.
fn main() {
    println!("cargo:rerun-if-env-changed=FINDER_LIB");
    let folder = std::env::var("FINDER_LIB").expect("FINDER_LIB names the folder of libfinder_c.a");
    println!("cargo:rustc-link-search=native={folder}");
    println!("cargo:rustc-link-lib=static=finder_c");
    println!("cargo:rerun-if-changed={folder}/libfinder_c.a");
}
