//! Says where libgkr.a is: in the folder that GKR_LIB names, as `embed/build-library` made it.

use std::env;

fn main() {
    println!("cargo:rerun-if-env-changed=GKR_LIB");
    let folder =
        env::var("GKR_LIB").expect("GKR_LIB names the folder that embed/build-library made");
    println!("cargo:rustc-link-search=native={folder}");
    println!("cargo:rustc-link-lib=static=gkr");
}
