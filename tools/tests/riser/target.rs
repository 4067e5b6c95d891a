//! The file that a tool writes, when something comes to stand there between looking and writing.

use crate::common::directory::Directory;
use std::fs;
use std::os::unix::fs::symlink;
use std::path::Path;
use tools::files::target::{Target, claim};

/// A target that may be taken.
fn find(path: &Path) -> Target {
    claim(path, true, &[]).expect("a place")
}

#[test]
fn what_came_to_stand_there_since_is_left_alone() {
    let directory = Directory::new("target-since");
    let [file, link] = ["file.bin", "link.bin"].map(|name| directory.0.join(name));
    let targets = [&file, &link].map(|path| find(path));
    fs::write(&file, b"kept").expect("a new file");
    symlink("nowhere.bin", &link).expect("a link");
    for (target, path) in targets.iter().zip([&file, &link]) {
        let message = target.write(b"new").expect_err("it is taken by now");
        assert!(message.starts_with(&format!("{}: can't be written: ", path.display())), "{message}");
    }
    assert_eq!(fs::read(&file).expect("the file"), b"kept");
    assert!(link.is_symlink());
    assert_eq!(directory.names(), ["file.bin", "link.bin"]);
}

#[test]
fn a_file_that_is_there_is_replaced() {
    let directory = Directory::new("target-taken");
    let file = directory.file("file.bin", b"old");
    find(&file).write(b"new").expect("it can be written");
    assert_eq!(fs::read(&file).expect("the file"), b"new");
    assert_eq!(directory.names(), ["file.bin"]);
}

#[test]
fn a_file_that_is_read_is_never_a_target() {
    let directory = Directory::new("target-read");
    let [one, other] = ["one.bin", "other.bin"].map(|name| directory.file(name, b"kept"));
    let refused =
        |over| claim(&one, over, &[(None, "nothing"), (Some(&one), "the pattern")]).expect_err("it is read");
    assert_eq!(refused(true), format!("{}: can't be written: it is the pattern", one.display()));
    assert_eq!(refused(false), refused(true));
    assert!(claim(&one, true, &[(Some(&other), "the pattern")]).is_ok());
    let taken = claim(&one, false, &[]).expect_err("it is there");
    assert_eq!(taken, format!("{}: it is there already; --over replaces it", one.display()));
}

#[test]
fn a_target_is_the_file_that_its_path_leads_to() {
    let directory = Directory::new("target-is");
    let [one, other] = ["one.bin", "other.bin"].map(|name| directory.file(name, b""));
    let link = directory.0.join("link.bin");
    symlink("one.bin", &link).expect("a link");
    let target = find(&link);
    assert_eq!([&one, &link, &other].map(|path| target.is(path).ok()), [Some(true), Some(true), Some(false)]);
    let free = find(&directory.0.join("free.bin"));
    assert_eq!(free.is(&one).ok(), Some(false));
}
