//! Links the static libraries of the proved code, from C2C_LIBRARIES or target/staticlib.

use std::env;
use std::path::Path;

fn main() {
    let root = Path::new(env!("CARGO_MANIFEST_DIR")).join("../../..");
    let libraries = env::var_os("C2C_LIBRARIES").map_or(root.join("target/staticlib"), Into::into);
    println!("cargo:rerun-if-env-changed=C2C_LIBRARIES");
    println!("cargo:rustc-link-search=native={}", libraries.display());
    for name in ["host", "probe", "audit_probe"] {
        println!("cargo:rerun-if-changed={}", libraries.join(format!("lib{name}.a")).display());
        println!("cargo:rustc-link-lib=static={name}");
    }
}
