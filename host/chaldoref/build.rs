//! Links the proved static library, `libchaldoref.a`. It is looked for in the folder that `CHALDOREF_LIB_DIR` names;
//! without that, where `host/build-library` puts it; then in `dist/x86_64-linux`, which the repository has; then where
//! pkg-config says that it is installed. A warning says so where it is not the one in `dist`.
use std::env::var_os;
use std::ffi::OsStr;
use std::path::{Path, PathBuf};
use std::process::{exit, Command, Stdio};

const ARCHIVE: &str = "libchaldoref.a";
const DIST: &str = "dist/x86_64-linux";
const VARIABLES: [&str; 4] = ["CHALDOREF_LIB_DIR", "PKG_CONFIG", "PKG_CONFIG_PATH", "PKG_CONFIG_LIBDIR"];

fn main() {
    for name in VARIABLES {
        println!("cargo:rerun-if-env-changed={name}");
    }
    let folder = folder().unwrap_or_else(|message| {
        eprintln!("error: {message}");
        exit(1)
    });
    // rustc runs in another folder than this program, so that a relative name would not do.
    let folder = folder.canonicalize().unwrap_or(folder);
    println!("cargo:rerun-if-changed={}", folder.join(ARCHIVE).display());
    println!("cargo:rustc-link-search=native={}", folder.display());
    println!("cargo:rustc-link-lib=static=chaldoref");
    // For the tests in C, which link the same library.
    println!("cargo:rustc-env=CHALDOREF_LINKED_DIR={}", folder.display());
    if has_library(&in_repository(DIST)) && contents(&folder) != contents(&in_repository(DIST)) {
        println!("cargo:warning=linking {}, which is not the library of dist/", folder.join(ARCHIVE).display());
    }
}

/// The folder of the library, or what to do about it.
fn folder() -> Result<PathBuf, String> {
    if let Some(named) = var_os("CHALDOREF_LIB_DIR").map(PathBuf::from) {
        let message = format!("CHALDOREF_LIB_DIR is {}, where there is no {ARCHIVE}", named.display());
        return has_library(&named).then_some(named).ok_or(message);
    }
    let (built, dist) = (in_repository("host/target/library"), in_repository(DIST));
    // The folder is watched, so that a library is taken as soon as one is built: cargo takes a path that is not there for changed at every build.
    let _ = std::fs::create_dir_all(&built);
    for place in [built.clone(), built.join(ARCHIVE), dist.join(ARCHIVE)] {
        if place.exists() {
            println!("cargo:rerun-if-changed={}", place.display());
        }
    }
    if has_library(&built) {
        return Ok(built);
    }
    if has_library(&dist) && for_this_machine() {
        return Ok(dist);
    }
    installed().filter(|folder| has_library(folder)).ok_or_else(|| {
        format!(
            "{ARCHIVE} is neither in {} nor known to pkg-config, or this machine is not Linux on x86-64. Do one of these:\n  \
             run host/build-library;\n  \
             set CHALDOREF_LIB_DIR to the folder that has it;\n  \
             set PKG_CONFIG_PATH to the folder lib/pkgconfig of where host/install has put it",
            dist.display()
        )
    })
}

/// A folder of the repository that this crate stands in.
fn in_repository(folder: &str) -> PathBuf {
    PathBuf::from(var_os("CARGO_MANIFEST_DIR").unwrap_or_default()).join("../..").join(folder)
}

/// Whether the library of `dist` is for the machine that is compiled for.
fn for_this_machine() -> bool {
    let is = |name, value| var_os(name).map_or(true, |set| set == *OsStr::new(value));
    is("CARGO_CFG_TARGET_ARCH", "x86_64") && is("CARGO_CFG_TARGET_OS", "linux")
}

fn contents(folder: &Path) -> Option<Vec<u8>> {
    std::fs::read(folder.join(ARCHIVE)).ok()
}

fn has_library(folder: &Path) -> bool {
    folder.join(ARCHIVE).is_file()
}

/// Where pkg-config says that the library is, if there is a pkg-config and it knows.
fn installed() -> Option<PathBuf> {
    let program = var_os("PKG_CONFIG");
    let output = Command::new(program.as_deref().unwrap_or(OsStr::new("pkg-config")))
        .args(["--variable=libdir", "chaldoref"])
        .stderr(Stdio::null())
        .output()
        .ok()?;
    let folder = String::from_utf8(output.stdout).ok()?;
    (output.status.success() && !folder.trim().is_empty()).then(|| PathBuf::from(folder.trim()))
}
