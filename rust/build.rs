//! Links the proved functions. PROHUNSEV names the object or the archive that holds them; without it they are looked for where
//! `tools/library` leaves them, and then where `rt lib` in crates/capi does.
//!
//! What is found is asked for its version, by a program of three lines that links it, and must be of this crate's: a library of another
//! version may have other parameters under the same names, and would link all the same. Where nothing is found the crate can be checked
//! and documented, and what would be linked is a library whose name says what to run.
use std::env::VarError;
use std::path::{Path, PathBuf};
use std::process::{exit, Command};
use std::{env, fs};

fn fail(what: &str) -> ! {
    eprintln!("prohunsev: {what}");
    exit(1)
}

fn variable(name: &str) -> String {
    match env::var(name) {
        Ok(value) => value,
        Err(VarError::NotPresent) => fail(&format!("cargo sets no {name}")),
        Err(VarError::NotUnicode(_)) => fail(&format!("{name} is not in UTF-8: build in a folder whose path is")),
    }
}

// where the proved functions lie
fn library() -> Option<PathBuf> {
    if let Some(given) = env::var_os("PROHUNSEV").filter(|given| !given.is_empty()) {
        let given = PathBuf::from(given);
        if !given.is_file() {
            fail(&format!(
                "PROHUNSEV names {}, which is no file: name the object or archive by its full path",
                given.display()
            ));
        }
        return Some(given);
    }
    let root = Path::new(env!("CARGO_MANIFEST_DIR")).join("..");
    let mut places = vec![root.join("lib/libprohunsev.a"), root.join("target/native/capi.o")];
    // `rt lib` compiles for x86-64
    if variable("CARGO_CFG_TARGET_ARCH") == "x86_64" {
        places.push(root.join("crates/capi/out/libcapi.a"));
    }
    // one that is missing makes cargo look again at every build, until it is there
    let found = places.iter().position(|place| place.is_file());
    for place in &places[..found.map_or(places.len(), |k| k + 1)] {
        println!("cargo:rerun-if-changed={}", place.display());
    }
    found.map(|k| places.swap_remove(k))
}

// the version that the archive in `out` tells, or what kept it from telling
fn told(out: &Path) -> Result<u32, String> {
    let (source, program) = (out.join("version.rs"), out.join("version"));
    let text = "extern \"C\" { fn ph_version() -> u32; }\nfn main() { println!(\"{}\", unsafe { ph_version() }) }\n";
    fs::write(&source, text).map_err(|e| e.to_string())?;
    let mut rustc = Command::new(variable("RUSTC"));
    rustc
        .args(["--edition", "2021", "-l", "static=prohunsev_proved", "-L"])
        .arg(out)
        .arg("-o")
        .arg(&program)
        .arg(&source);
    if let Some(linker) = env::var_os("RUSTC_LINKER") {
        rustc.arg("-C").arg(format!("linker={}", linker.to_string_lossy()));
    }
    let built = rustc.output().map_err(|e| e.to_string())?;
    if !built.status.success() {
        return Err(String::from_utf8_lossy(&built.stderr).into_owned());
    }
    let ran = Command::new(&program).output().map_err(|e| e.to_string())?;
    String::from_utf8_lossy(&ran.stdout).trim().parse().map_err(|_| "it tells no version".into())
}

fn as_text(version: u32) -> String {
    format!("{}.{}.{}", version / 1_000_000, version / 1_000 % 1_000, version % 1_000)
}

// ends the build where the library is of another version
fn hold_to_version(library: &Path, out: &Path) {
    let part =
        |name: &str| variable(name).parse::<u32>().unwrap_or_else(|_| fail(&format!("{name} is no whole number")));
    let (major, minor) = (part("CARGO_PKG_VERSION_MAJOR"), part("CARGO_PKG_VERSION_MINOR"));
    let ours = major * 1_000_000 + minor * 1_000 + part("CARGO_PKG_VERSION_PATCH");
    let remedy = "run tools/library, which compiles the library of this source, or name another one in PROHUNSEV";
    if variable("HOST") != variable("TARGET") {
        println!("cargo:warning=the version of {} is not checked: it is for another machine", library.display());
        return;
    }
    match told(out) {
        Ok(version) if version == ours => (),
        Ok(version) => fail(&format!(
            "{} is version {}, and this crate is written for {}: {remedy}",
            library.display(),
            as_text(version),
            as_text(ours)
        )),
        Err(why) if why.contains("ph_version") => fail(&format!(
            "{} has no ph_version, so it was made of older source than this crate, or for another processor: {remedy}",
            library.display()
        )),
        Err(why) => {
            fail(&format!("{} cannot be asked for its version: {remedy}. What was said:\n{why}", library.display()))
        }
    }
}

fn main() {
    println!("cargo:rerun-if-changed=build.rs");
    println!("cargo:rerun-if-env-changed=PROHUNSEV");
    println!("cargo:rerun-if-env-changed=AR");
    let Some(library) = library() else {
        println!("cargo:warning=the proved functions are not compiled yet: run tools/library, or name their object or archive in PROHUNSEV.");
        println!("cargo:warning=Until then this crate can be checked and documented, and not linked.");
        println!("cargo:rustc-link-lib=static=prohunsev, which tools/library makes");
        return;
    };
    println!("cargo:rerun-if-changed={}", library.display());
    let out = PathBuf::from(variable("OUT_DIR"));
    let archive = out.join("libprohunsev_proved.a");
    let _ = fs::remove_file(&archive);
    if library.extension().is_some_and(|e| e == "a") {
        fs::copy(&library, &archive).unwrap_or_else(|e| fail(&format!("{} cannot be copied: {e}", library.display())));
    } else {
        let ar = env::var_os("AR").unwrap_or_else(|| "ar".into());
        let done = Command::new(&ar).arg("crs").arg(&archive).arg(&library).status();
        if !done.is_ok_and(|s| s.success()) {
            fail(&format!("{} cannot put {} into an archive", ar.to_string_lossy(), library.display()));
        }
    }
    hold_to_version(&library, &out);
    println!("cargo:rustc-link-search=native={}", out.display());
    println!("cargo:rustc-link-lib=static=prohunsev_proved");
}
