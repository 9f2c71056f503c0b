//! Links the archive that `rt lib` made of the crate cenc.

fn main() {
    println!("cargo:rerun-if-env-changed=RATTLE_ARCHIVES");
    let folder = std::env::var("RATTLE_ARCHIVES").expect("the folder of the archives");
    println!("cargo:rustc-link-search=native={folder}");
    println!("cargo:rerun-if-changed={folder}/libcenc.a");
    println!("cargo:rustc-link-lib=static=cenc");
}
