//! The build asks the library that it is to link for its version, and ends with words where that is not this crate's.
//!
//! Builds this crate once more, in a folder of its own, with libraries of C that can do nothing but tell a version.
use std::fs;
use std::path::{Path, PathBuf};
use std::process::{Command, Output};

// a folder of its own for each test, which run at the same time
fn folder(name: &str) -> PathBuf {
    let folder = Path::new(env!("CARGO_TARGET_TMPDIR")).join(name);
    fs::create_dir_all(&folder).unwrap();
    folder
}

// an object of these lines of C
fn object(folder: &Path, name: &str, code: &str) -> PathBuf {
    let (source, object) = (folder.join(format!("{name}.c")), folder.join(format!("{name}.o")));
    fs::write(&source, code).unwrap();
    let done = Command::new("cc").args(["-fPIC", "-c"]).arg(&source).arg("-o").arg(&object).status();
    assert!(done.expect("cc, which links this very test, is there").success());
    object
}

// `cargo check` of this crate with the library that is named
fn check(folder: &Path, library: &Path) -> Output {
    let manifest = Path::new(env!("CARGO_MANIFEST_DIR")).join("Cargo.toml");
    let mut cargo = Command::new(env!("CARGO"));
    cargo.args(["check", "--lib", "--offline", "--quiet", "--manifest-path"]).arg(manifest);
    cargo.arg("--target-dir").arg(folder.join("built")).env("PROHUNSEV", library);
    cargo.output().unwrap()
}

fn said(output: &Output) -> String {
    String::from_utf8_lossy(&output.stderr).into_owned()
}

#[test]
fn a_library_of_another_version_is_not_linked() {
    let folder = folder("version of the library");
    let part = |text: &str| text.parse::<u32>().unwrap();
    let (major, minor) = (part(env!("CARGO_PKG_VERSION_MAJOR")), part(env!("CARGO_PKG_VERSION_MINOR")));
    let ours = major * 1_000_000 + minor * 1_000 + part(env!("CARGO_PKG_VERSION_PATCH"));
    let tells = |version: u32| {
        object(&folder, &format!("is {version}"), &format!("unsigned ph_version(void) {{ return {version}u; }}\n"))
    };

    let done = check(&folder, &tells(ours));
    assert!(done.status.success(), "the version of this crate: {}", said(&done));
    for other in [ours - 1, ours + 1, ours + 1_000, ours + 1_000_000, 0, u32::MAX] {
        let library = tells(other);
        let done = check(&folder, &library);
        assert!(!done.status.success(), "{other} is taken for {ours}");
        let words = format!(
            "prohunsev: {} is version {}.{}.{}, and this crate is written for {}: run tools/library",
            library.display(),
            other / 1_000_000,
            other / 1_000 % 1_000,
            other % 1_000,
            env!("CARGO_PKG_VERSION")
        );
        assert!(said(&done).contains(&words), "{other}: {}", said(&done));
    }
    // and that was no lasting state of the folder
    let done = check(&folder, &tells(ours));
    assert!(done.status.success(), "the version of this crate, again: {}", said(&done));
}

#[test]
fn a_library_without_a_version_is_not_linked() {
    let folder = folder("no version");
    let library = object(&folder, "older", "int ph_median_of;\n");
    let done = check(&folder, &library);
    assert!(!done.status.success());
    let words =
        format!("prohunsev: {} has no ph_version, so it was made of older source than this crate", library.display());
    assert!(said(&done).contains(&words), "{}", said(&done));

    let text = folder.join("text.a");
    fs::write(&text, "no library").unwrap();
    let done = check(&folder, &text);
    assert!(!done.status.success());
    assert!(said(&done).contains(&format!("prohunsev: {} ", text.display())), "{}", said(&done));

    let done = check(&folder, &folder.join("nothing.a"));
    assert!(!done.status.success());
    assert!(
        said(&done).contains("nothing.a, which is no file: name the object or archive by its full path"),
        "{}",
        said(&done)
    );
}
