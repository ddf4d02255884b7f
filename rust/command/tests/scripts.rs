//! The scripts as a user meets them who lacks something: no toolchain, a closed output, a file that is refused, a word too many.

use std::fs;
use std::os::unix::fs::PermissionsExt;
use std::path::{Path, PathBuf};
use std::process::Command;

fn root() -> PathBuf {
    Path::new(env!("CARGO_MANIFEST_DIR")).join("../..")
}

/// A folder of the tests' own, with a copy of a script.
fn copied(name: &str, script: &str) -> PathBuf {
    let folder = Path::new(env!("CARGO_TARGET_TMPDIR")).join(name);
    fs::create_dir_all(folder.join("scripts")).unwrap();
    fs::copy(root().join("scripts").join(script), folder.join("scripts").join(script)).unwrap();
    folder
}

/// A program of the tests' own, in bash.
fn program(path: &Path, text: &str) {
    fs::create_dir_all(path.parent().unwrap()).unwrap();
    fs::write(path, format!("#!/bin/bash\n{}\n", text)).unwrap();
    fs::set_permissions(path, fs::Permissions::from_mode(0o755)).unwrap();
}

/// What a line of bash in a folder prints on standard output and on standard error, and its exit status.
fn run(folder: &Path, path: &str, line: &str) -> (String, String, i32) {
    let mut command = Command::new("/bin/bash");
    let output = command.current_dir(folder).env("PATH", path).args(["-c", line]).output().unwrap();
    let text = |bytes: Vec<u8>| String::from_utf8(bytes).unwrap();
    (text(output.stdout), text(output.stderr), output.status.code().unwrap())
}

/// A PATH that has what the scripts use of a plain system, and not the toolchain.
const PLAIN: &str = "/usr/bin:/bin";

#[test]
fn without_the_toolchain() {
    for (script, argument) in [("ladder", "scripts/ladder"), ("archive", "")] {
        let folder = copied("bare", script);
        let (out, err, status) = run(&folder, PLAIN, &format!("scripts/{} {}", script, argument));
        let told = format!("scripts/{}: the Rattle toolchain's command rt is not on the PATH\n", script);
        assert_eq!((&out[..], err, status), ("", told, 2));
    }
}

/// The program `ladder` has no exit status; its script has. Crates that are not proved anew are not told.
#[test]
fn the_exit_status_of_ladder() {
    let folder = copied("ladder", "ladder");
    program(
        &folder.join("bin/rt"),
        "echo 'rt: one proved (unchanged since it was last proved)'; echo 'rt: two proved (3 s)' >&2",
    );
    let path = format!("{}:{}", folder.join("bin").display(), PLAIN);
    let ladder = |text: &str| {
        program(&folder.join("crates/ladder/out/ladder"), text);
        run(&folder, &path, "scripts/ladder scripts/ladder")
    };
    let told = "rt: two proved (3 s)\n".to_string();
    assert_eq!(ladder("echo 1 2 3; echo 2 3 4"), ("1 2 3\n2 3 4\n".to_string(), told.clone(), 0));
    assert_eq!(ladder("echo refused 5 at 7"), ("refused 5 at 7\n".to_string(), told.clone(), 1));
    assert_eq!(ladder("echo unreadable >&2"), (String::new(), told + "unreadable\n", 3));
    program(&folder.join("crates/ladder/out/ladder"), "echo 1 2 3");
    assert_eq!(run(&folder, &path, "scripts/ladder scripts/ladder >/dev/full").2, 3);
}

#[test]
fn a_closed_output() {
    let folder = copied("closed", "biidhaqun");
    let (_, err, status) = run(&folder, PLAIN, "scripts/biidhaqun explain 5 >&-");
    assert_eq!((&err[..], status), ("biidhaqun: standard output cannot be written: it is closed\n", 3));
}

#[test]
fn words_that_a_script_does_not_take() {
    for line in ["bench --help", "bench 0", "bench 1 2", "library quick"] {
        let script = line.split(' ').next().unwrap();
        let (_, err, status) = run(&copied("words", script), PLAIN, &format!("scripts/{}", line));
        assert!(err.starts_with(&format!("usage: scripts/{}", script)) && status == 2, "{}: {}", line, err);
    }
}
