//! Links the engine's static library: the archive that GRISTWALTZ_LIB names (bulk/run sets it). Where it names none, the engine can be
//! called through the program `caller` alone.

fn main() {
    println!("cargo:rerun-if-env-changed=GRISTWALTZ_LIB");
    println!("cargo:rustc-check-cfg=cfg(linked)");
    if let Ok(archive) = std::env::var("GRISTWALTZ_LIB") {
        println!("cargo:rerun-if-changed={archive}");
        println!("cargo:rustc-link-arg-bins={archive}");
        println!("cargo:rustc-cfg=linked");
    }
}
