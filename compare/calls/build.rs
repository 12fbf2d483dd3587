// The port's static library stands in the folder that PUIGNEHT_LIB names.
fn main() {
    let folder = std::env::var("PUIGNEHT_LIB").expect("PUIGNEHT_LIB: the folder of libpuigneht.a");
    println!("cargo:rustc-link-search=native={folder}");
    println!("cargo:rustc-link-lib=static=puigneht");
    println!("cargo:rerun-if-env-changed=PUIGNEHT_LIB");
}
