//! Finds the seven source files and writes the module lines that build them unchanged.
use std::{env, fs, path::PathBuf};

const PLAIN: [&str; 5] = ["numerics", "yuv_support", "built_coefficients", "yuv_error", "images"];

/// These two are included, so that the function beside each of them reaches its private driver.
const WITH_DRIVER: [(&str, &str); 2] = [
    ("yuv_to_rgba_bilinear", "driver8.rs"),
    ("yuv_p16_to_rgba16_bilinear", "driver16.rs"),
];

fn main() {
    let here = PathBuf::from(env::var("CARGO_MANIFEST_DIR").unwrap());
    let folder = match env::var("DETHROWG_SOURCE") {
        Ok(path) => PathBuf::from(path),
        Err(_) => here.join("../../../../shared/docs/src/src"),
    };
    let folder = folder.canonicalize().unwrap_or_else(|e| {
        panic!("no source files at {}: {e}; DETHROWG_SOURCE names their folder", folder.display())
    });
    let file = |name: &str| folder.join(format!("{name}.rs"));
    let mut text = String::new();
    for name in PLAIN {
        text += &format!("#[path = {:?}]\nmod {name};\n", file(name));
    }
    for (name, driver) in WITH_DRIVER {
        let (source, driver) = (file(name), here.join("src").join(driver));
        text += &format!("pub mod {name} {{\n    include!({source:?});\n    include!({driver:?});\n}}\n");
    }
    fs::write(PathBuf::from(env::var("OUT_DIR").unwrap()).join("source.rs"), text).unwrap();
    println!("cargo::rerun-if-env-changed=DETHROWG_SOURCE");
    println!("cargo::rerun-if-changed=build.rs");
    println!("cargo::rerun-if-changed={}", folder.display());
}
