//! Where the build script looks for the library, tried on folders made for it.
#[allow(dead_code)] // its `main` is for cargo
#[path = "../build.rs"]
mod build;

use std::fs::{create_dir_all, remove_dir_all, write};
use std::path::{Path, PathBuf};

/// A crate of an own folder, three below it, as in a release; the files, named from that folder, stand about it.
fn standing(name: &str, files: &[&str]) -> PathBuf {
    let folder = Path::new(env!("CARGO_TARGET_TMPDIR")).join(name);
    let _ = remove_dir_all(&folder);
    for file in files {
        let file = folder.join(file);
        create_dir_all(file.parent().unwrap()).unwrap();
        write(file, "").unwrap();
    }
    let root = folder.join("share/placer/rust");
    create_dir_all(&root).unwrap();
    root
}

const BUILD: &str = "share/build/libplacer.a"; // as the repository's build folder, two above the crate
const LIB: &str = "lib/libplacer.a";

/// The file found, from the crate's own folder on; else the message.
fn found(root: &Path, named: Option<&str>, told: Option<&str>) -> Result<String, String> {
    let file = build::found(root, named.map(Into::into), || told.map(|folder| root.join(folder)))?;
    Ok(file.strip_prefix(root).unwrap().display().to_string())
}

#[test]
fn in_sequence() {
    let root = standing("sequence", &[BUILD, LIB, "share/placer/rust/named/libplacer.a", "share/placer/rust/told/libplacer.a"]);
    assert_eq!(found(&root, Some("named"), Some("told")).unwrap(), "named/libplacer.a");
    assert_eq!(found(&root, None, Some("told")).unwrap(), "../../build/libplacer.a");
    let root = standing("sequence", &[LIB, "share/placer/rust/told/libplacer.a"]);
    assert_eq!(found(&root, None, Some("told")).unwrap(), "../../../lib/libplacer.a");
    let root = standing("sequence", &["share/placer/rust/told/libplacer.a"]);
    assert_eq!(found(&root, None, Some("told")).unwrap(), "told/libplacer.a");
}

#[test]
fn archive_before_shared_library() {
    let both = ["share/placer/rust/a/libplacer.a", "share/placer/rust/a/libplacer.so", "share/placer/rust/b/libplacer.so"];
    let root = standing("shared", &both);
    for (folder, file) in [("a", "a/libplacer.a"), ("b", "b/libplacer.so")] {
        assert_eq!(found(&root, Some(folder), None).unwrap(), file);
        assert_eq!(found(&root, None, Some(folder)).unwrap(), file);
    }
    // the repository's build folder and a release have the archive, or are passed over
    let root = standing("shared", &["share/build/libplacer.so", "lib/libplacer.so", "share/placer/rust/a/libplacer.a"]);
    assert_eq!(found(&root, None, Some("a")).unwrap(), "a/libplacer.a");
    assert!(found(&root, None, None).is_err());
}

#[test]
fn named_folder_without_the_library() {
    // nothing else is then tried
    let root = standing("named", &[BUILD, LIB, "share/placer/rust/other/libfoo.a"]);
    for name in ["other", "absent"] {
        let message = found(&root, Some(name), None).unwrap_err();
        let folder = root.join(name);
        assert_eq!(
            message,
            format!("PLACER_LIB_DIR names the folder {}, which holds neither libplacer.a nor libplacer.so", folder.display())
        );
    }
}

#[test]
fn paths_in_text() {
    use std::{ffi::OsStr, os::unix::ffi::OsStrExt};
    assert_eq!(build::in_text(Path::new("a b/libplacer.a")), Ok(("a b".to_string(), "a b/libplacer.a".to_string())));
    for name in [&b"\xff/libplacer.a"[..], b"a\nb/libplacer.a"] {
        assert!(build::in_text(Path::new(OsStr::from_bytes(name))).unwrap_err().contains("cargo takes no path"));
    }
}

#[test]
fn nowhere() {
    let root = standing("nowhere", &["share/placer/rust/told/libfoo.a"]);
    for (told, says) in [(None, "no folder".to_string()), (Some("told"), root.join("told").display().to_string())] {
        let message = found(&root, None, told).unwrap_err();
        assert!(message.contains(&format!("`pkg-config --variable=libdir placer` tells {says}")));
        for part in ["../../build/libplacer.a", "../../../lib/libplacer.a", "make", "PLACER_LIB_DIR", "PKG_CONFIG_PATH"] {
            assert!(message.contains(part), "{message}");
        }
    }
}
