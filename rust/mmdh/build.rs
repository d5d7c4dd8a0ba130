//! Finds the proved library's archive, or has it built, and says what is missing where neither can be done.

use std::env;
use std::path::{Path, PathBuf};
use std::process::{exit, Command};

/// A variable that names the archive.
const NAMED: &str = "MMDH_ARCHIVE";
/// Where `bash rust/build.sh archive` writes it, from the repository's root.
const BUILT: &str = "target/staticlib/libscreen.a";
/// The crate that exports the C calls, and where `rt lib` leaves its archive in that folder.
const EXPORTS: &str = "crates/screen_c";
const LEFT: &str = "out/libscreen_c.a";
const TARGET: &str = "x86_64-unknown-linux-gnu";

fn fail(why: &str) -> ! {
    eprintln!("mmdh: {}", why);
    exit(1)
}

/// The repository's root, two folders up from this package.
fn root() -> PathBuf {
    let here = env::var_os("CARGO_MANIFEST_DIR").map(PathBuf::from).unwrap_or_default();
    here.ancestors().nth(2).map(Path::to_path_buf).unwrap_or(here)
}

/// The archive that `rt` writes is x86-64 code for Linux. One that is named may be of another kind.
fn check_target() {
    if env::var_os(NAMED).is_some() {
        return;
    }
    let of = |name: &str| env::var(name).unwrap_or_default();
    let (arch, system) = (of("CARGO_CFG_TARGET_ARCH"), of("CARGO_CFG_TARGET_OS"));
    if arch != "x86_64" || system != "linux" {
        fail(&format!(
            "the library's archive is x86-64 code for Linux, and this build is for {} {}: build with --target {} \
             (on Arm with the settings that 'bash rust/build.sh env' prints; rust/README.md has the steps)",
            arch, system, TARGET
        ));
    }
}

/// The archive that the variable names, or the one in target/, or one that is built now.
fn archive() -> PathBuf {
    if let Some(named) = env::var_os(NAMED).filter(|name| !name.is_empty()) {
        let named = PathBuf::from(named);
        if !named.is_file() {
            fail(&format!("{} names {}, and there is no such file", NAMED, named.display()));
        }
        return named;
    }
    let built = root().join(BUILT);
    if !built.is_file() {
        build(&built);
    }
    built
}

/// Has the archive proved and built, which takes some minutes, and puts it in its place.
fn build(archive: &Path) {
    let folder = root().join(EXPORTS);
    let command = format!("rt lib' in '{}", folder.display());
    let wanted = format!("no archive: {} is not set and there is no {}", NAMED, archive.display());
    match Command::new("rt").arg("lib").current_dir(&folder).output() {
        Err(fault) => fail(&format!(
            "{}, and '{}', which would build it, cannot be run: the Rattle kit's command rt: {}",
            wanted, command, fault
        )),
        Ok(ended) if !ended.status.success() || !folder.join(LEFT).is_file() => fail(&format!(
            "{}, and '{}' did not build it ({}):\n{}{}",
            wanted,
            command,
            ended.status,
            String::from_utf8_lossy(&ended.stdout),
            String::from_utf8_lossy(&ended.stderr)
        )),
        Ok(_) => {}
    }
    let kept = archive.parent().map_or(Ok(()), std::fs::create_dir_all);
    if let Err(fault) = kept.and_then(|()| std::fs::copy(folder.join(LEFT), archive)) {
        fail(&format!("the archive cannot be written to {}: {}", archive.display(), fault));
    }
}

fn main() {
    println!("cargo:rerun-if-env-changed={}", NAMED);
    println!("cargo:rerun-if-changed=build.rs");
    check_target();
    let archive = archive();
    println!("cargo:rerun-if-changed={}", archive.display());
    let out = env::var_os("OUT_DIR").map(PathBuf::from).unwrap_or_default();
    if let Err(fault) = std::fs::copy(&archive, out.join("libscreen.a")) {
        fail(&format!("{} cannot be copied to {}: {}", archive.display(), out.display(), fault));
    }
    println!("cargo:rustc-link-search=native={}", out.display());
    println!("cargo:rustc-link-lib=static=screen");
}
