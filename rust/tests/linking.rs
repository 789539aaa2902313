//! Which library the build script links.

#[allow(dead_code)]
#[path = "../build.rs"]
mod build;

use std::fs;
use std::path::{Path, PathBuf};
use std::slice;

/// A folder of this test, with a library in it or without.
fn folder(name: &str, has_library: bool) -> PathBuf {
    let folder = Path::new(env!("CARGO_TARGET_TMPDIR")).join(name);
    let _ = fs::remove_dir_all(&folder);
    fs::create_dir_all(&folder).unwrap();
    if has_library {
        fs::write(folder.join("libyarrowdoor.a"), b"").unwrap();
    }
    folder
}

const INSTALLED: &str = "-L/opt/lib -lyarrowdoor -pthread";

/// What is linked or warned of.
fn told(lines: &[String]) -> Vec<&str> {
    let told = lines.iter().map(String::as_str);
    told.filter(|line| !line.starts_with("rerun-if-changed="))
        .collect()
}

#[test]
fn the_folder_that_is_named_comes_first() {
    let (named, built) = (folder("named_1", true), folder("built_1", true));
    let lines = build::instructions(Some(&named), &[built], || Some(INSTALLED.to_owned()));
    let search = format!("rustc-link-search=native={}", named.display());
    assert_eq!(
        told(&lines),
        [search.as_str(), "rustc-link-lib=static=yarrowdoor"]
    );
}

#[test]
fn what_was_built_comes_before_what_is_installed() {
    let built = folder("built_2", true);
    let lines = build::instructions(None, slice::from_ref(&built), || Some(INSTALLED.to_owned()));
    let search = format!("rustc-link-search=native={}", built.display());
    assert_eq!(
        told(&lines),
        [search.as_str(), "rustc-link-lib=static=yarrowdoor"]
    );
}

// In a tarball there is no `dist`.
#[test]
fn the_second_folder_serves_where_the_first_has_none() {
    let (built, packed) = (folder("built_7", false), folder("packed_7", true));
    let lines = build::instructions(None, &[built, packed.clone()], || {
        Some(INSTALLED.to_owned())
    });
    let search = format!("rustc-link-search=native={}", packed.display());
    assert_eq!(
        told(&lines),
        [search.as_str(), "rustc-link-lib=static=yarrowdoor"]
    );
}

#[test]
fn each_target_has_a_folder() {
    let dist = |host, target| build::dist(Path::new("top"), host, target);
    let (glibc, musl) = ("x86_64-unknown-linux-gnu", "x86_64-unknown-linux-musl");
    assert_eq!(dist(glibc, glibc), Path::new("top/dist"));
    assert_eq!(dist(glibc, musl), Path::new("top/dist"));
    assert_eq!(
        dist(glibc, "aarch64-unknown-linux-gnu"),
        Path::new("top/dist/aarch64-linux")
    );
    assert_eq!(
        dist(glibc, "x86_64-pc-windows-gnu"),
        Path::new("top/dist/x86_64-windows")
    );
    assert_eq!(
        dist("aarch64-unknown-linux-gnu", musl),
        Path::new("top/dist/x86_64-linux")
    );
}

#[test]
fn what_is_installed_comes_last() {
    let lines = build::instructions(None, &[folder("built_3", false)], || {
        Some(INSTALLED.to_owned())
    });
    assert_eq!(
        told(&lines),
        [
            "rustc-link-search=native=/opt/lib",
            "rustc-link-lib=yarrowdoor"
        ]
    );
}

// So pkg-config prints a folder with a space in its name.
#[test]
fn a_folder_with_a_space_in_its_name_is_one_flag() {
    let lines = build::instructions(None, &[folder("built_8", false)], || {
        Some("-L/opt/in\\ stalled/lib -lyarrowdoor \n".to_owned())
    });
    assert_eq!(
        told(&lines),
        [
            "rustc-link-search=native=/opt/in stalled/lib",
            "rustc-link-lib=yarrowdoor"
        ]
    );
}

#[test]
fn no_other_library_is_linked_than_the_one_that_is_named() {
    let (named, built) = (folder("named_4", false), folder("built_4", true));
    let lines = build::instructions(Some(&named), &[built], || Some(INSTALLED.to_owned()));
    let told = told(&lines);
    assert!(
        told.len() == 1 && told[0].starts_with("warning=YARROWDOOR_DIST is "),
        "{told:?}"
    );
}

#[test]
fn where_there_is_none_it_warns() {
    let lines = build::instructions(None, &[folder("built_5", false)], || None);
    let told = told(&lines);
    assert!(
        told.len() == 1 && told[0].starts_with("warning=no library"),
        "{told:?}"
    );
}

// A library that is built later is found: the script runs again once its file is there.
#[test]
fn the_file_is_watched() {
    let built = folder("built_6", false);
    let lines = build::instructions(None, slice::from_ref(&built), || None);
    let watched = format!(
        "rerun-if-changed={}",
        built.join("libyarrowdoor.a").display()
    );
    assert!(lines.contains(&watched));
}

// Cargo takes a file that is missing for one that has changed: each build of a program over a tarball would compile the package anew.
#[test]
fn only_the_file_that_was_found_is_watched() {
    let (built, packed) = (folder("built_9", false), folder("packed_9", true));
    let lines = build::instructions(None, &[built, packed.clone()], || None);
    let watched = format!(
        "rerun-if-changed={}",
        packed.join("libyarrowdoor.a").display()
    );
    assert_eq!(
        lines
            .iter()
            .filter(|it| it.starts_with("rerun-if-changed="))
            .collect::<Vec<_>>(),
        [&watched]
    );
}
