//! Links the client in C, tb_embed's library and OpenSSL. TB_CLIENT_A and TB_EMBED_A name other
//! archives than those of this clone.
use std::env;
use std::path::PathBuf;

/// Links the archive that a variable names, or the one at a path of the clone.
fn link(variable: &str, path: &str, name: &str) {
    let clone = PathBuf::from(env::var_os("CARGO_MANIFEST_DIR").expect("cargo sets it"));
    let archive = env::var_os(variable).map_or_else(|| clone.join(path), PathBuf::from);
    println!("cargo:rerun-if-env-changed={variable}");
    println!("cargo:rerun-if-changed={}", archive.display());
    if let Some(folder) = archive.parent() {
        println!("cargo:rustc-link-search=native={}", folder.display());
    }
    println!("cargo:rustc-link-lib=static={name}");
}

fn main() {
    link("TB_CLIENT_A", "../c/out/libtb_client.a", "tb_client");
    link(
        "TB_EMBED_A",
        "../../crates/tb_embed/out/libtb_embed.a",
        "tb_embed",
    );
    println!("cargo:rustc-link-lib=ssl");
    println!("cargo:rustc-link-lib=crypto");
}
