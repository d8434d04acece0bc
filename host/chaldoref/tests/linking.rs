//! Where the build script looks for the library. It is compiled anew and run with other surroundings.
use std::fs;
use std::path::{Path, PathBuf};
use std::process::{Command, Output};

/// A folder of one test, with the crate's own folder, `host/chaldoref`, in it and nothing else.
struct Place(PathBuf);

impl Place {
    fn new(test: &str) -> Place {
        let folder = Path::new(env!("CARGO_TARGET_TMPDIR")).join("linking").join(test);
        let _ = fs::remove_dir_all(&folder);
        fs::create_dir_all(folder.join("host/chaldoref")).unwrap();
        Place(folder.canonicalize().unwrap())
    }

    /// Puts a library, which nothing links, in a folder.
    fn library(&self, folder: &str) -> PathBuf {
        let folder = self.0.join(folder);
        fs::create_dir_all(&folder).unwrap();
        fs::write(folder.join("libchaldoref.a"), "").unwrap();
        folder
    }

    /// Tells pkg-config of an installed library.
    fn config(&self, folder: &Path) {
        let text = format!("libdir={}\nName: chaldoref\nDescription: -\nVersion: 0\n", folder.display());
        fs::write(self.0.join("chaldoref.pc"), text).unwrap();
    }

    /// Runs the build script, with no variable of the build's own.
    fn run(&self, variables: &[(&str, &str)]) -> Output {
        let script = self.0.join("script");
        let rustc = std::env::var_os("RUSTC").unwrap_or("rustc".into());
        let compiled = Command::new(rustc).args(["--edition=2021", "build.rs", "-o"]).arg(&script).status().unwrap();
        assert!(compiled.success());
        Command::new(script)
            .current_dir(self.0.join("host/chaldoref"))
            .env_remove("CHALDOREF_LIB_DIR")
            .env_remove("PKG_CONFIG")
            .env_remove("CARGO_CFG_TARGET_ARCH")
            .env_remove("CARGO_CFG_TARGET_OS")
            .env("CARGO_MANIFEST_DIR", self.0.join("host/chaldoref"))
            .env("PKG_CONFIG_LIBDIR", &self.0)
            .env_remove("PKG_CONFIG_PATH")
            .envs(variables.iter().copied())
            .output()
            .unwrap()
    }
}

#[track_caller]
fn links(output: &Output, folder: &Path) {
    let text = String::from_utf8_lossy(&output.stdout);
    assert!(output.status.success(), "{}", String::from_utf8_lossy(&output.stderr));
    assert!(text.contains(&format!("cargo:rustc-link-search=native={}\n", folder.display())), "{text}");
}

fn warns(output: &Output) -> bool {
    String::from_utf8_lossy(&output.stdout).contains("cargo:warning=linking")
}

#[track_caller]
fn fails(output: &Output, words: &[&str]) {
    let text = String::from_utf8_lossy(&output.stderr);
    assert!(!output.status.success());
    assert!(words.iter().all(|part| text.contains(part)), "{text}");
}

#[test]
fn the_named_folder_comes_first() {
    let place = Place::new("named");
    let [named, _, installed] = ["named", "host/target/library", "lib"].map(|folder| place.library(folder));
    place.config(&installed);
    links(&place.run(&[("CHALDOREF_LIB_DIR", named.to_str().unwrap())]), &named);
    // Also by a name that holds only in the crate's own folder.
    links(&place.run(&[("CHALDOREF_LIB_DIR", "../../named")]), &named);
}

#[test]
fn a_named_folder_without_the_library_is_an_error() {
    let place = Place::new("named-in-error");
    place.library("host/target/library");
    fails(&place.run(&[("CHALDOREF_LIB_DIR", "/nowhere")]), &["CHALDOREF_LIB_DIR is /nowhere"]);
}

#[test]
fn then_the_one_that_is_built_here() {
    let place = Place::new("built");
    let [built, _, installed] = ["host/target/library", "dist/x86_64-linux", "lib"].map(|folder| place.library(folder));
    place.config(&installed);
    links(&place.run(&[]), &built);
}

#[test]
fn then_the_one_of_the_repository() {
    let place = Place::new("dist");
    let [dist, installed] = ["dist/x86_64-linux", "lib"].map(|folder| place.library(folder));
    place.config(&installed);
    let output = place.run(&[]);
    links(&output, &dist);
    assert!(!warns(&output));
    // Not for another machine.
    links(&place.run(&[("CARGO_CFG_TARGET_ARCH", "aarch64")]), &installed);
}

#[test]
fn a_library_that_is_not_the_repositorys_is_named_in_a_warning() {
    let place = Place::new("warned");
    let [built, _] = ["host/target/library", "dist/x86_64-linux"].map(|folder| place.library(folder));
    assert!(!warns(&place.run(&[])), "it is the same library");
    fs::write(built.join("libchaldoref.a"), "another").unwrap();
    assert!(warns(&place.run(&[])));
}

#[test]
fn then_an_installed_one() {
    if Command::new("pkg-config").arg("--version").output().is_err() {
        eprintln!("pkg-config is not installed: no installed library is looked for");
        return;
    }
    let place = Place::new("installed");
    let installed = place.library("lib of mine");
    place.config(&installed);
    links(&place.run(&[]), &installed);
    // One that pkg-config knows and that is gone.
    fs::remove_file(installed.join("libchaldoref.a")).unwrap();
    fails(&place.run(&[]), &["libchaldoref.a"]);
}

#[test]
fn without_any_the_build_says_what_to_do() {
    let place = Place::new("none");
    for variables in [&[][..], &[("PKG_CONFIG", "/nowhere/pkg-config")]] {
        fails(&place.run(variables), &["host/build-library", "CHALDOREF_LIB_DIR", "PKG_CONFIG_PATH"]);
    }
}
