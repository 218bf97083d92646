//! With the feature `linked`, links the library under test.
//! BISS_LIB_DIR  where it lies (required)
//! BISS_LIB_NAME its name without `lib` and ending (default: biss)
//! BISS_LIB_KIND `static` (default) or `dylib`

use std::env;

fn main() {
    for name in ["BISS_LIB_DIR", "BISS_LIB_NAME", "BISS_LIB_KIND"] {
        println!("cargo:rerun-if-env-changed={name}");
    }
    if env::var_os("CARGO_FEATURE_LINKED").is_none() {
        return;
    }
    let dir = env::var("BISS_LIB_DIR").expect("BISS_LIB_DIR names the directory of the library");
    let name = env::var("BISS_LIB_NAME").unwrap_or_else(|_| "biss".to_string());
    let kind = env::var("BISS_LIB_KIND").unwrap_or_else(|_| "static".to_string());
    println!("cargo:rustc-link-search=native={dir}");
    println!("cargo:rustc-link-lib={kind}={name}");
    if kind == "dylib" {
        println!("cargo:rustc-link-arg=-Wl,-rpath,{dir}");
    } else {
        println!("cargo:rerun-if-changed={dir}/lib{name}.a");
    }
}
