//! Links the library: the one that `VILGOUED_LIB` names, a file or the folder that has it; else the one that `./library` left in
//! `lib/` of the checkout; else that of the release in its `dist/`, if that is of the checkout's sources; else that of an installed
//! release of this version, by pkg-config.
use std::env;
use std::path::{Path, PathBuf};
use std::process::{exit, Command};

const STATIC: &str = "libvilgoued.a";
const VERSION: &str = env!("CARGO_PKG_VERSION");

fn main() {
    println!("cargo:rerun-if-changed=build.rs");
    for name in ["VILGOUED_LIB", "PKG_CONFIG_PATH"] {
        println!("cargo:rerun-if-env-changed={name}");
    }
    let named = env::var_os("VILGOUED_LIB").filter(|it| !it.is_empty());
    match named.map_or_else(found, |it| there(whole(it.into()))) {
        Ok(file) => link(&file),
        Err(why) => {
            eprintln!("vilgoued: {why}");
            exit(1);
        }
    }
}

/// The library's own path, where a folder is named that has it.
fn whole(named: PathBuf) -> PathBuf {
    if named.is_dir() {
        named.join(STATIC)
    } else {
        named
    }
}

/// A library that `VILGOUED_LIB` names.
fn there(file: PathBuf) -> Result<PathBuf, String> {
    if file.is_file() {
        Ok(watched(file))
    } else {
        Err(format!("there is no {}: VILGOUED_LIB has to name a library, or the folder that has it", file.display()))
    }
}

/// The library that is to be had without a name, or why there is none.
fn found() -> Result<PathBuf, String> {
    // As it is now: another checkout may have compiled this script.
    let checkout = PathBuf::from(env::var_os("CARGO_MANIFEST_DIR").unwrap_or_default()).join("..");
    let built = checkout.join("lib").join(STATIC);
    if built.is_file() {
        return Ok(watched(built));
    }
    released(&checkout).or_else(|why| {
        installed()
            .ok_or_else(|| format!("there is no lib/{STATIC} in the checkout, pkg-config knows no vilgoued {VERSION}, and {why}"))
    })
}

/// The library of the release in `dist/`, unpacked.
fn released(checkout: &Path) -> Result<PathBuf, String> {
    let find = checkout.join("scripts").join("find.py");
    if !find.is_file() {
        return Err(format!("{} is no checkout: run ./install in one, or name a library by VILGOUED_LIB", checkout.display()));
    }
    let to = env::var("OUT_DIR").map_err(|it| it.to_string())?;
    let done = Command::new("python3").arg("-I").arg(find).args([STATIC, &to]).output();
    let done = done.map_err(|it| format!("python3, which unpacks a release, does not run ({it}): install it"))?;
    if done.status.success() {
        println!("cargo:rerun-if-changed={}", checkout.join("dist").display());
        Ok(PathBuf::from(String::from_utf8_lossy(&done.stdout).trim_end()))
    } else {
        Err(String::from_utf8_lossy(&done.stderr).trim_end().to_owned())
    }
}

/// The library of an installed release of this version.
fn installed() -> Option<PathBuf> {
    let asked = format!("vilgoued = {VERSION}");
    let done = Command::new("pkg-config").args(["--variable=libdir", &asked]).output().ok()?;
    // It writes a backslash before a space.
    let folder = String::from_utf8(done.stdout).ok()?.trim_end().replace('\\', "");
    let file = Path::new(&folder).join(STATIC);
    Some(file).filter(|it| done.status.success() && it.is_file()).map(watched)
}

/// A library that is linked anew when it changes.
fn watched(file: PathBuf) -> PathBuf {
    println!("cargo:rerun-if-changed={}", file.display());
    file
}

fn link(file: &Path) {
    let is_shared = file.extension().map_or(false, |it| it != "a");
    let folder = file.parent().unwrap_or_else(|| Path::new("."));
    println!("cargo:rustc-link-search=native={}", folder.display());
    if is_shared {
        println!("cargo:rustc-link-lib=dylib=vilgoued");
        println!("cargo:rustc-link-arg=-Wl,-rpath,{}", folder.display());
    } else {
        println!("cargo:rustc-link-lib=static=vilgoued");
    }
}
