//! Finds libnfstream.a: in the folder NFSTREAM_DIR, in its folder lib, or where pkg-config knows it.
use std::env;
use std::path::{Path, PathBuf};
use std::process::Command;

fn main() {
    println!("cargo:rerun-if-env-changed=NFSTREAM_DIR");
    println!("cargo:rerun-if-env-changed=PKG_CONFIG_PATH");
    let folder = match env::var_os("NFSTREAM_DIR") {
        Some(named) => named_folder(Path::new(&named)),
        None => folder_by_pkg_config(),
    };
    let archive = folder.join("libnfstream.a");
    println!("cargo:rerun-if-changed={}", archive.display());
    println!("cargo:rustc-link-search=native={}", folder.display());
    println!("cargo:rustc-link-lib=static=nfstream");
}

fn named_folder(named: &Path) -> PathBuf {
    let found = [named.to_path_buf(), named.join("lib")]
        .into_iter()
        .find(|folder| folder.join("libnfstream.a").is_file());
    found.unwrap_or_else(|| panic!("NFSTREAM_DIR is {}: no libnfstream.a is there, nor in its lib", named.display()))
}

fn folder_by_pkg_config() -> PathBuf {
    let told = Command::new("pkg-config").args(["--variable=libdir", "nfstream"]).output();
    let text = match told {
        Ok(told) if told.status.success() => String::from_utf8(told.stdout).unwrap_or_default(),
        _ => String::new(),
    };
    if text.trim().is_empty() {
        panic!("libnfstream.a was not found: install nfstream so that pkg-config knows it, or name its folder by NFSTREAM_DIR");
    }
    PathBuf::from(text.trim_end_matches('\n'))
}
