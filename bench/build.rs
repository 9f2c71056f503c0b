//! Links the archives that `rt lib` made.

fn main() {
    println!("cargo:rerun-if-env-changed=RATTLE_ARCHIVES");
    let folder = std::env::var("RATTLE_ARCHIVES").expect("the folder of the archives");
    println!("cargo:rustc-link-search=native={folder}");
    for archive in ["ecb", "pieces"] {
        println!("cargo:rerun-if-changed={folder}/lib{archive}.a");
        println!("cargo:rustc-link-lib=static={archive}");
    }
}
