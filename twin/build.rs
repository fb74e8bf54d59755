//! With the feature `proved`, links libflarecomb.a from the folder that FLARECOMB_LIB names.

fn main() {
    println!("cargo:rerun-if-changed=build.rs");
    println!("cargo:rerun-if-env-changed=FLARECOMB_LIB");
    if std::env::var_os("CARGO_FEATURE_PROVED").is_none() {
        return;
    }
    let folder =
        std::env::var("FLARECOMB_LIB").expect("the feature `proved` needs FLARECOMB_LIB, the folder of libflarecomb.a");
    println!("cargo:rerun-if-changed={folder}/libflarecomb.a");
    println!("cargo:rustc-link-search=native={folder}");
    println!("cargo:rustc-link-lib=static=flarecomb");
}
