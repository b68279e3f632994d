//! Links libplacer: the archive where its folder has one, else the shared library. The folder is the one that the environment variable
//! PLACER_LIB_DIR names, seen from this crate's folder if it is relative. Without it, it is the first that has the library: the
//! repository's `build`, the `lib` of the release that this crate stands in, the one that pkg-config tells.
use std::env;
use std::ffi::OsString;
use std::path::{Path, PathBuf};
use std::process::{exit, Command};

/// What the search depends on.
const VARIABLES: [&str; 5] = ["PLACER_LIB_DIR", "PKG_CONFIG", "PKG_CONFIG_PATH", "PKG_CONFIG_LIBDIR", "PKG_CONFIG_SYSROOT_DIR"];

fn main() {
    let root = PathBuf::from(env::var_os("CARGO_MANIFEST_DIR").unwrap_or_default());
    let named = env::var_os("PLACER_LIB_DIR").filter(|name| !name.is_empty());
    let (folder, file) = found(&root, named, told_by_pkg_config).and_then(|file| in_text(&file)).unwrap_or_else(|message| {
        eprintln!("{message}");
        exit(1)
    });
    let kind = if file.ends_with(".a") { "static" } else { "dylib" };
    println!("cargo:rustc-link-search=native={folder}");
    println!("cargo:rustc-link-lib={kind}=placer");
    println!("cargo:rerun-if-changed={file}");
    VARIABLES.iter().for_each(|name| println!("cargo:rerun-if-env-changed={name}"));
}

/// The library's file, for a crate at `root`; else what to say.
pub fn found(root: &Path, named: Option<OsString>, told: impl FnOnce() -> Option<PathBuf>) -> Result<PathBuf, String> {
    if let Some(folder) = named.map(|name| root.join(name)) {
        let message = || format!("PLACER_LIB_DIR names the folder {}, which holds neither libplacer.a nor libplacer.so", folder.display());
        return library(&folder).ok_or_else(message);
    }
    let near = ["../../build", "../../../lib"].map(|folder| root.join(folder).join("libplacer.a"));
    if let Some(file) = near.iter().find(|file| file.is_file()) {
        return Ok(file.clone());
    }
    let told = told();
    told.as_deref().and_then(library).ok_or_else(|| not_found(&near, told.as_deref()))
}

/// The folder and the path of the library's file, as cargo is told them: in a line of UTF-8.
pub fn in_text(file: &Path) -> Result<(String, String), String> {
    match (file.parent().and_then(Path::to_str), file.to_str()) {
        (Some(folder), Some(file)) if !file.contains('\n') => Ok((folder.to_string(), file.to_string())),
        _ => Err(format!("The placer's library is at {file:?}, and cargo takes no path that is not UTF-8 or has a line break.")),
    }
}

/// The library's file in a folder.
fn library(folder: &Path) -> Option<PathBuf> {
    ["libplacer.a", "libplacer.so"].iter().map(|name| folder.join(name)).find(|file| file.is_file())
}

fn told_by_pkg_config() -> Option<PathBuf> {
    let program = env::var_os("PKG_CONFIG").unwrap_or_else(|| "pkg-config".into());
    let output = Command::new(program).args(["--variable=libdir", "placer"]).output().ok()?;
    let folder = String::from_utf8(output.stdout).ok()?;
    (output.status.success() && !folder.trim().is_empty()).then(|| folder.trim().into())
}

fn not_found([build, lib]: &[PathBuf; 2], told: Option<&Path>) -> String {
    let told = told.map_or("no folder".to_string(), |folder| format!("{}, which does not hold it", folder.display()));
    format!(
        "The placer's library was not found.
  In the repository it would be {}.
  In a release it would be {}.
  `pkg-config --variable=libdir placer` tells {told}.
Run `make` in the repository, or unpack a release and name its lib folder in the environment variable PLACER_LIB_DIR, or let pkg-config find
placer.pc by PKG_CONFIG_PATH.",
        build.display(),
        lib.display()
    )
}
