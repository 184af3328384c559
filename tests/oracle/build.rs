//! Links the static library of the proved code and, to `speed` alone, the other libraries that it is
//! measured beside.
use std::{env, path::PathBuf, process::Command};

fn main() {
    println!("cargo::rerun-if-changed=build.rs");
    archive();
    peers();
}

fn archive() {
    let here = PathBuf::from(env::var("CARGO_MANIFEST_DIR").unwrap());
    let folder = match env::var("DETHROWG_LIB") {
        Ok(path) => PathBuf::from(path),
        Err(_) => here.join("../../crates/dethrowg/out"),
    };
    let archive = folder.join("libdethrowg.a");
    println!("cargo::rerun-if-env-changed=DETHROWG_LIB");
    println!("cargo::rerun-if-changed={}", archive.display());
    if !archive.exists() {
        println!("cargo::error=no {}", archive.display());
        println!("cargo::error=run `rt lib` in crates/dethrowg; DETHROWG_LIB may name another folder");
        return;
    }
    println!("cargo::rustc-link-search=native={}", folder.canonicalize().unwrap().display());
    println!("cargo::rustc-link-lib=static=dethrowg");
}

/// Those that are installed; none with DETHROWG_PEERS=none.
fn peers() {
    println!("cargo::rerun-if-env-changed=DETHROWG_PEERS");
    println!("cargo::rustc-check-cfg=cfg(peer_libyuv, peer_swscale)");
    if env::var("DETHROWG_PEERS").is_ok_and(|peers| peers == "none") {
        return;
    }
    if let (true, Some(version)) = (installed("yuv"), libyuv_version()) {
        println!("cargo::rustc-cfg=peer_libyuv");
        println!("cargo::rustc-env=LIBYUV_VERSION={version}");
        println!("cargo::rustc-link-arg-bin=speed=-lyuv");
    }
    if installed("swscale") && installed("avutil") {
        println!("cargo::rustc-cfg=peer_swscale");
        println!("cargo::rustc-link-arg-bin=speed=-lswscale");
        println!("cargo::rustc-link-arg-bin=speed=-lavutil");
    }
}

/// What the C compiler prints; empty where there is none.
fn cc(arguments: &[&str]) -> String {
    let output = Command::new("cc").args(arguments).output();
    output.map(|output| String::from_utf8_lossy(&output.stdout).into()).unwrap_or_default()
}

/// Whether the C compiler knows where a shared library is.
fn installed(library: &str) -> bool {
    cc(&[&format!("-print-file-name=lib{library}.so")]).contains('/')
}

/// The library does not tell its version; its header does.
fn libyuv_version() -> Option<String> {
    let macros = cc(&["-E", "-dM", "-include", "libyuv/version.h", "-x", "c", "/dev/null"]);
    let version = macros.lines().find_map(|line| line.strip_prefix("#define LIBYUV_VERSION "));
    version.map(String::from)
}
