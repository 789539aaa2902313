//! Links the library that `tools/build/library` builds: that in the folder `YARROWDOOR_DIST`; else that in `dist`, at the top of the
//! repository, or for another target than this machine's that in a folder below it; else that in `lib`, beside this package in
//! a tarball; else the one that pkg-config finds.
//!
//! Where there is none it only warns, since `cargo check`, `cargo doc` and `cargo clippy` link nothing. A program is not
//! linked then.

use std::env;
use std::mem;
use std::path::{Path, PathBuf};
use std::process::Command;
use std::slice;

const ARCHIVE: &str = "libyarrowdoor.a";

fn main() {
    for name in ["YARROWDOOR_DIST", "PKG_CONFIG", "PKG_CONFIG_PATH"] {
        println!("cargo:rerun-if-env-changed={name}");
    }
    let named = env::var_os("YARROWDOOR_DIST").map(PathBuf::from);
    let package =
        PathBuf::from(env::var_os("CARGO_MANIFEST_DIR").expect("cargo names the package"));
    let [host, target] = ["HOST", "TARGET"].map(|name| env::var(name).unwrap_or_default());
    let top = package.join("..");
    let built = [dist(&top, &host, &target), top.join("lib")];
    for line in instructions(named.as_ref(), &built, ask_pkg_config) {
        println!("cargo:{line}");
    }
}

/// Where `tools/build/library` puts the library of a target. C libraries do not count: it serves each of them.
pub(crate) fn dist(top: &Path, host: &str, target: &str) -> PathBuf {
    let system_of = |triple: &str| {
        let processor = triple.split('-').next().unwrap_or_default().to_owned();
        let names = ["linux", "windows"];
        let system = names.into_iter().find(|system| triple.contains(system));
        format!("{processor}-{}", system.unwrap_or("other"))
    };
    let (dist, system) = (top.join("dist"), system_of(target));
    if system == system_of(host) {
        dist
    } else {
        dist.join(system)
    }
}

/// What cargo is told. `ask` gives the linker's flags of an installed library, if there is one.
pub(crate) fn instructions(
    named: Option<&PathBuf>,
    built: &[PathBuf],
    ask: impl FnOnce() -> Option<String>,
) -> Vec<String> {
    // no other library than the one that was asked for
    let folders = named.map_or(built, slice::from_ref);
    let found = folders.iter().find(|it| it.join(ARCHIVE).exists());
    // Where there is none, all are looked at again. Cargo takes a file that is missing for one that has changed, and compiles anew.
    let watched = found.map_or(folders, slice::from_ref);
    let line = |folder: &PathBuf| format!("rerun-if-changed={}", folder.join(ARCHIVE).display());
    let mut lines: Vec<String> = watched.iter().map(line).collect();
    if let Some(folder) = found {
        lines.push(format!("rustc-link-search=native={}", folder.display()));
        lines.push("rustc-link-lib=static=yarrowdoor".to_owned());
    } else if let Some(folder) = named {
        let folder = folder.display();
        lines.push(format!(
            "warning=YARROWDOOR_DIST is {folder}, which has no {ARCHIVE}"
        ));
    } else if let Some(flags) = ask() {
        lines.extend(words(&flags).iter().filter_map(|flag| instruction(flag)));
    } else {
        let what =
            "no library to link: tools/build/library builds it, or YARROWDOOR_DIST names its folder";
        lines.push(format!("warning={what}"));
    }
    lines
}

/// The words that pkg-config prints. A backslash stands before each character that a shell would read otherwise, as a space in the
/// name of a folder.
fn words(printed: &str) -> Vec<String> {
    let mut words = Vec::new();
    let mut word = String::new();
    let mut characters = printed.chars();
    while let Some(character) = characters.next() {
        match character {
            '\\' => word.extend(characters.next()),
            _ if character.is_whitespace() => words.push(mem::take(&mut word)),
            _ => word.push(character),
        }
    }
    words.push(word);
    words.retain(|word| !word.is_empty());
    words
}

/// What cargo is told for one flag of a linker. Others than folders and libraries are left out.
fn instruction(flag: &str) -> Option<String> {
    if let Some(folder) = flag.strip_prefix("-L") {
        return Some(format!("rustc-link-search=native={folder}"));
    }
    let library = flag.strip_prefix("-l")?;
    Some(format!("rustc-link-lib={library}"))
}

/// The flags with which pkg-config links the library. It knows the libraries of this machine alone.
fn ask_pkg_config() -> Option<String> {
    if env::var_os("TARGET") != env::var_os("HOST") {
        return None;
    }
    let program = env::var_os("PKG_CONFIG").unwrap_or_else(|| "pkg-config".into());
    let output = Command::new(program)
        .args(["--libs", "yarrowdoor"])
        .output()
        .ok()?;
    let flags = String::from_utf8(output.stdout).ok()?;
    output.status.success().then_some(flags)
}
