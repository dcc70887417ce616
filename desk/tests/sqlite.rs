//! `desk asrun --sqlite`: what is handed to the program sqlite3, by a stand-in of that name. tools/desk.sh
//! tries the real one.

mod common;

use common::{recording, scratch};
use std::os::unix::fs::PermissionsExt;
use std::process::{Command, Output};

/// Runs `desk asrun --sqlite days.db` where sqlite3 is this script, or is not there.
fn handed(name: &str, script: Option<&str>) -> (Output, String) {
    let folder = scratch(&format!("{name}.kept"), b"");
    let folder = folder.replace(&format!("{name}.kept"), name);
    std::fs::create_dir_all(&folder).unwrap();
    if let Some(script) = script {
        let path = format!("{folder}/sqlite3");
        std::fs::write(&path, format!("#!/bin/sh\n{script}\n")).unwrap();
        std::fs::set_permissions(&path, PermissionsExt::from_mode(0o755)).unwrap();
    }
    let path = match script {
        Some(_) => format!("{folder}:/bin:/usr/bin"),
        None => folder.clone(),
    };
    let ran = Command::new(env!("CARGO_BIN_EXE_desk"))
        .args(["asrun", "--session", "202", "--sqlite", "days.db"])
        .arg(recording("example-day.rec"))
        .env("PATH", path)
        .current_dir(&folder)
        .output()
        .unwrap();
    (ran, folder)
}

#[test]
fn the_list_is_handed_over_as_sql() {
    let script = "echo \"$@\" >words\ncat >sql";
    let (ran, folder) = handed("sqlite-good", Some(script));
    assert!(
        ran.status.success(),
        "{}",
        String::from_utf8_lossy(&ran.stderr)
    );
    let said = String::from_utf8(ran.stdout).unwrap();
    assert_eq!(
        said,
        "1 requests into days.db; 87 calls, every record as the rules give it\n"
    );
    let kept = |name: &str| std::fs::read_to_string(format!("{folder}/{name}")).unwrap();
    assert_eq!(kept("words"), "-batch -bail days.db\n");
    let columns = "scheduled, started, ended, connection, session, event, length_s, on_air_s, ticks, result, outcome";
    let expected = format!(
        "BEGIN;\nCREATE TABLE IF NOT EXISTS asrun (scheduled TEXT, started TEXT, ended TEXT, connection INTEGER, session INTEGER, \
         event INTEGER, length_s REAL, on_air_s REAL, ticks INTEGER, result INTEGER, outcome TEXT);\n\
         INSERT INTO asrun ({columns}) VALUES ('1970-01-12T14:07:10.000000Z', NULL, NULL, 0, 202, 4294967295, 30.000000, NULL, NULL, 109, \
         'refused, 109: Splice Collision');\nCOMMIT;\n"
    );
    assert_eq!(kept("sql"), expected);
}

#[test]
fn what_goes_wrong_is_said_in_one_line() {
    let failing = Some("cat >/dev/null\necho 'Error: disk full' >&2\nexit 1");
    let cases = [
        (
            "sqlite-bad",
            failing,
            "desk: days.db: sqlite3: Error: disk full\n",
        ),
        ("sqlite-none", None, "Debian's package sqlite3 has it\n"),
    ];
    for (name, script, says) in cases {
        let (ran, _) = handed(name, script);
        let said = String::from_utf8(ran.stderr).unwrap();
        assert_eq!(ran.status.code(), Some(2), "{said}");
        assert!(ran.stdout.is_empty());
        assert_eq!(said.lines().count(), 1, "{said}");
        assert!(said.ends_with(says), "{said}");
    }
}
