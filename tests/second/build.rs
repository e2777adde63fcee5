//! Links the programs that compare tokens with the verified archive of them,
//! only when asked for.  The archive of the readings and values comes with the package muon.

use std::env;

fn main() {
    println!("cargo:rerun-if-changed=build.rs");
    println!("cargo:rerun-if-env-changed=MUON_LIB_DIR");
    if env::var_os("CARGO_FEATURE_STATICLIB").is_none() {
        return;
    }
    let dir = env::var("MUON_LIB_DIR")
        .expect("feature `staticlib` needs MUON_LIB_DIR, the directory of the archive");
    let archive = format!("{dir}/libtoken_c.a");
    println!("cargo:rerun-if-changed={archive}");
    for user in ["compare_tokens", "check_docs"] {
        println!("cargo:rustc-link-arg-bin={user}={archive}");
    }
}
