//! What is written over: nothing but the content changes, and of two files both or none.

use crate::at::{text, At};
use std::fs::Permissions;
use std::os::unix::fs::{symlink, FileTypeExt, MetadataExt, PermissionsExt};
use std::process::Command;

/// A folder with the text of the worked example, and its bytes.
fn folder(name: &str) -> (At, Vec<u8>) {
    let at = At::example(name);
    let shown = at.printed("show problem.tbv");
    at.write("p.txt", shown);
    let bytes = at.read("problem.tbv");
    (at, bytes)
}

fn mode(at: &At, name: &str) -> u32 {
    at.path(name).metadata().unwrap().permissions().mode() & 0o7777
}

#[test]
fn a_mode_is_kept_and_nothing_else_is_touched() {
    let (at, bytes) = folder("mode");
    at.write("new.tbv", "old, and longer than what comes");
    std::fs::set_permissions(at.path("new.tbv"), Permissions::from_mode(0o640)).unwrap();
    at.write("new.tbv.part", "the user's own");
    at.write(".walumpeh-1-0", "the user's own");
    // Only root may give a file to any group.
    let _ = std::os::unix::fs::chown(at.path("new.tbv"), None, Some(1));
    let (before, group) = (at.listing().len(), at.path("new.tbv").metadata().unwrap().gid());
    at.prints("build p.txt new.tbv", "");
    assert_eq!((at.read("new.tbv"), mode(&at, "new.tbv")), (bytes, 0o640));
    assert_eq!(at.path("new.tbv").metadata().unwrap().gid(), group);
    assert_eq!(at.read("new.tbv.part"), b"the user's own");
    assert_eq!(at.listing().len(), before);
}

#[test]
fn read_only_files_are_refused() {
    let (at, _) = folder("read-only");
    at.write("new.tbv", "old");
    std::fs::set_permissions(at.path("new.tbv"), Permissions::from_mode(0o444)).unwrap();
    at.fails("build p.txt new.tbv", "new.tbv: is read-only");
    assert_eq!(mode(&at, "new.tbv"), 0o444);
}

#[test]
fn links_stay_and_what_they_lead_to_is_written() {
    let (at, bytes) = folder("links");
    std::fs::create_dir(at.path("other")).unwrap();
    at.write("other/real.tbv", "old");
    symlink("other/real.tbv", at.path("link.tbv")).unwrap();
    symlink("other/none.tbv", at.path("open.tbv")).unwrap();
    for (link, real) in [("link.tbv", "other/real.tbv"), ("open.tbv", "other/none.tbv")] {
        at.prints(&format!("build p.txt {link}"), "");
        assert!(at.path(link).is_symlink(), "{link}");
        assert_eq!(at.read(real), bytes, "{link}");
    }
    at.write("first.tbv", "old");
    std::fs::hard_link(at.path("first.tbv"), at.path("second.tbv")).unwrap();
    at.prints("build p.txt first.tbv", "");
    assert_eq!(at.read("second.tbv"), bytes);
    assert_eq!(at.path("first.tbv").metadata().unwrap().nlink(), 2);
}

#[test]
fn pipes_and_devices_are_written_in_place() {
    let (at, bytes) = folder("pipes");
    assert!(Command::new("mkfifo").arg(at.path("pipe")).status().unwrap().success());
    let path = at.path("pipe");
    let reader = std::thread::spawn(move || std::fs::read(path).unwrap());
    at.prints("build p.txt pipe", "");
    assert_eq!(reader.join().unwrap(), bytes);
    assert!(at.path("pipe").symlink_metadata().unwrap().file_type().is_fifo());
    at.prints("build p.txt /dev/null", "");
    for to in ["/dev/stdout", "-"] {
        let output = at.run(&format!("build p.txt {to}"));
        assert_eq!((output.status.code(), output.stdout), (Some(0), bytes.clone()), "{to}");
    }
    at.fails("build p.txt /dev/full", "/dev/full: No space left on device (os error 28)");
}

#[test]
fn of_two_files_both_are_written_or_none() {
    let (at, _) = folder("both");
    at.write("start.bin", "old");
    std::fs::create_dir(at.path("folder")).unwrap();
    at.write("fixed.bin", "old");
    std::fs::set_permissions(at.path("fixed.bin"), Permissions::from_mode(0o444)).unwrap();
    at.fails("tape problem.tbv start.bin folder", "folder: is a folder");
    at.fails("tape problem.tbv start.bin fixed.bin", "fixed.bin: is read-only");
    at.fails("tape problem.tbv start.bin no/such.bin", "no/such.bin: No such file or directory (os error 2)");
    at.fails("tape problem.tbv start.bin /dev/full", "/dev/full: No space left on device (os error 28)");
    at.fails("tape problem.tbv new.bin /dev/full", "/dev/full: No space left on device (os error 28)");
    at.fails("example no/such", "no/such/problem.tbv: No such file or directory (os error 2)");
}

#[test]
fn no_file_is_named_for_two_things() {
    let (at, _) = folder("twice");
    let twice = "named for two things at once";
    at.fails("tape problem.tbv same.bin same.bin", &format!("same.bin: {twice}"));
    at.fails("tape problem.tbv same.bin ./same.bin", &format!("./same.bin: {twice}"));
    at.fails("tape problem.tbv - -", &format!("-: {twice}"));
    at.fails("tape problem.tbv start.bin start.bin", &format!("start.bin: {twice}"));
    at.fails("tape problem.tbv ./problem.tbv", &format!("./problem.tbv: {twice}"));
    at.fails("build p.txt p.txt", &format!("p.txt: {twice}"));
    symlink("p.txt", at.path("again.txt")).unwrap();
    at.fails("build p.txt again.txt", &format!("again.txt: {twice}"));
    std::fs::hard_link(at.path("p.txt"), at.path("third.txt")).unwrap();
    at.fails("build p.txt third.txt", &format!("third.txt: {twice}"));
    at.prints("tape problem.tbv /dev/null /dev/null", "");
}

/// A limit on the size of files stops the writing, and leaves all as it was.
#[test]
fn a_limit_on_sizes_leaves_all_as_it_was() {
    let (at, _) = folder("limit");
    at.write("big.txt", (0..1000).map(|i| format!("x{i} = var 1\n")).collect::<String>() + "root x0\n");
    at.write("big.tbv", "old");
    let before = at.listing();
    let script = format!("ulimit -f 1; '{}' build big.txt big.tbv", crate::at::WALUMPEH);
    let output = Command::new("sh").args(["-c", &script]).current_dir(&at.folder).output().unwrap();
    assert_eq!(output.status.code(), Some(1));
    assert_eq!(text(&output.stderr), "walumpeh: big.tbv: File too large (os error 27)\n");
    assert_eq!(at.listing(), before);
}
