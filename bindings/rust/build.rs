//! Links the library for C: that of the folder `URIPARSE_LIB_DIR`, which has `liburiparse.a`, or the one that is packaged with the crate,
//! or the one that `make` builds from what `rt lib` made in this source tree, or for aarch64 `tools/gate/archive`.

use std::env;
use std::fs;
use std::path::{Path, PathBuf};
use std::process::{exit, Command};

fn main() {
    println!("cargo:rerun-if-env-changed=URIPARSE_LIB_DIR");
    let target = |name: &str| env::var(format!("CARGO_CFG_TARGET_{name}")).unwrap_or_default();
    let (os, arch) = (target("OS"), target("ARCH"));
    if os != "linux" || !["x86_64", "aarch64"].contains(&arch.as_str()) {
        stop(&format!(
            "the library for C is for Linux on x86_64 or aarch64, not for {os} on {arch}"
        ));
    }
    let folder = match env::var_os("URIPARSE_LIB_DIR") {
        Some(folder) => PathBuf::from(folder),
        None => packaged(&arch).unwrap_or_else(built),
    };
    let archive = folder.join("liburiparse.a");
    println!("cargo:rerun-if-changed={}", archive.display());
    check_version(&archive);
    println!("cargo:rustc-link-search=native={}", folder.display());
    println!("cargo:rustc-link-lib=static=uriparse");
}

/// The folder of the library that a packaged crate has for the processor.
fn packaged(arch: &str) -> Option<PathBuf> {
    let crate_folder = PathBuf::from(env::var_os("CARGO_MANIFEST_DIR")?);
    let folder = crate_folder.join("lib").join(format!("{arch}-linux-gnu"));
    folder.is_dir().then_some(folder)
}

/// The folder of the library that `make` builds for the target.
fn built() -> PathBuf {
    let is_arm = env::var("CARGO_CFG_TARGET_ARCH").map_or(false, |arch| arch == "aarch64");
    let target = if is_arm { "aarch64-linux-gnu" } else { "" };
    let proved = Path::new("../../crates/uriparse_c/out")
        .join(target)
        .join("liburiparse_c.a");
    println!("cargo:rerun-if-changed={}", proved.display());
    for source in ["../calls.tsv", "../c/Makefile", "../c/calls.c", "build.rs"] {
        println!("cargo:rerun-if-changed={source}");
    }
    println!("cargo:rerun-if-env-changed=KIT");
    let out = PathBuf::from(env::var_os("OUT_DIR").unwrap_or_default()).join("c");
    let made = Command::new("make")
        .args(["-s", "-C", "../c"])
        .arg(format!("TARGET={target}"))
        .arg(format!("OUT={}", out.display()))
        .arg(out.join("liburiparse.a"))
        .status();
    if Path::new("../c/Makefile").exists() && made.map_or(false, |status| status.success()) {
        return out;
    }
    let is_split = out.to_string_lossy().contains(' ');
    let hint = if is_split {
        "; `make` takes no folder with a space, set CARGO_TARGET_DIR"
    } else {
        ""
    };
    stop(&format!("the library for C isn't built: run `rt lib` in crates/uriparse_c, or set URIPARSE_LIB_DIR to the folder of liburiparse.a{hint}"))
}

/// Stops unless the archive has the symbol that names the crate's version, up to which calls are the same.
fn check_version(archive: &Path) {
    let symbol = concat!(
        "uriparse_version_",
        env!("CARGO_PKG_VERSION_MAJOR"),
        "_",
        env!("CARGO_PKG_VERSION_MINOR"),
        "\0"
    );
    let bytes = match fs::read(archive) {
        Ok(bytes) => bytes,
        Err(error) => stop(&format!("{}: {error}", archive.display())),
    };
    if !bytes
        .windows(symbol.len())
        .any(|found| found == symbol.as_bytes())
    {
        stop(&format!(
            "{} is not of version {}",
            archive.display(),
            env!("CARGO_PKG_VERSION")
        ));
    }
}

fn stop(why: &str) -> ! {
    eprintln!("uriparse-rattle: {why}");
    exit(1)
}
