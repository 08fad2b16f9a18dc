//! Links libaodv.a of the folder that AODV_LIB names, or where `make` puts it in the repository, or of the unpacked tar
//! ball in which this crate lies.
fn main() {
    let here = std::env::var("CARGO_MANIFEST_DIR").unwrap();
    let places = [format!("{here}/../../out"), format!("{here}/../../lib")];
    let has_one = |it: &&String| std::path::Path::new(it.as_str()).join("libaodv.a").exists();
    let folder = std::env::var("AODV_LIB")
        .unwrap_or_else(|_| places.iter().find(has_one).unwrap_or(&places[0]).clone());
    println!("cargo:rerun-if-env-changed=AODV_LIB");
    println!("cargo:rerun-if-changed={folder}/libaodv.a");
    println!("cargo:rustc-link-search=native={folder}");
    println!("cargo:rustc-link-lib=static=aodv");
}
