//! Plays each session of ports of the examples, and compares what is told with the report beside it.

use std::fs::{self, File};
use std::path::Path;
use std::process::Command;

fn told_of(session: &Path) -> Vec<u8> {
    let source = File::open(session).expect("a session");
    let played = Command::new(env!("CARGO_BIN_EXE_plain_player"))
        .args(["run", "--one"])
        .stdin(source)
        .output()
        .expect("a play");
    assert!(played.status.success(), "{}", session.display());
    played.stdout
}

fn is_of_consoles(session: &Path) -> bool {
    let text = fs::read_to_string(session).expect("a session");
    text.lines().any(|line| line.starts_with("vt-session"))
}

#[test]
fn each_example_is_told_as_its_report_says() {
    let folder = Path::new(env!("CARGO_MANIFEST_DIR")).join("../../../crates/example_prog/data");
    let mut count = 0;
    for entry in fs::read_dir(&folder).expect("the examples") {
        let session = entry.expect("a file").path();
        if session.extension().is_some_and(|end| end == "session") && !is_of_consoles(&session) {
            let report = fs::read(session.with_extension("report")).expect("a report");
            assert!(told_of(&session) == report, "{}", session.display());
            count += 1;
        }
    }
    assert!(count > 20);
}
