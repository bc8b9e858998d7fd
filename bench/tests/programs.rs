//! The programs, run as a person runs them.

use std::fs;
use std::path::{Path, PathBuf};
use std::process::{Command, Output, Stdio};

const CAPTURE: &str = env!("CARGO_BIN_EXE_capture");
const COMPARE: &str = env!("CARGO_BIN_EXE_compare");
const DRIVE: &str = env!("CARGO_BIN_EXE_drive");
const LISTING: &str = env!("CARGO_BIN_EXE_listing");
const MIX: &str = env!("CARGO_BIN_EXE_mix");
const REPLAY: &str = env!("CARGO_BIN_EXE_replay-model");
const TOUR: &str = env!("CARGO_BIN_EXE_tour");

/// Each program, and arguments that it does not take.
const PROGRAMS: [(&str, &[&str]); 12] = [
    (CAPTURE, &["rows"]),
    (COMPARE, &[LISTING, "rows"]),
    (env!("CARGO_BIN_EXE_compare-damage"), &[]),
    (env!("CARGO_BIN_EXE_compare-directory"), &[]),
    (
        env!("CARGO_BIN_EXE_compare-replay"),
        &[REPLAY, "other", "1"],
    ),
    (DRIVE, &[]),
    (LISTING, &["file"]),
    (env!("CARGO_BIN_EXE_measure"), &[LISTING, "more"]),
    (env!("CARGO_BIN_EXE_measure-replay"), &[]),
    (MIX, &["--left"]),
    (REPLAY, &["file"]),
    (TOUR, &["other"]),
];

fn run(program: &str, arguments: &[&str]) -> Output {
    let command = Command::new(program)
        .args(arguments)
        .stdin(Stdio::null())
        .output();
    command.unwrap()
}

fn text(bytes: &[u8]) -> String {
    String::from_utf8(bytes.to_vec()).unwrap()
}

/// A file that is this test's own.
fn file(name: &str, content: &[u8]) -> PathBuf {
    let path = Path::new(env!("CARGO_TARGET_TMPDIR")).join(name);
    fs::write(&path, content).unwrap();
    path
}

#[test]
fn every_program_has_help() {
    let sources = fs::read_dir(concat!(env!("CARGO_MANIFEST_DIR"), "/src/bin"));
    assert_eq!(sources.unwrap().count(), PROGRAMS.len());
    for (program, _) in PROGRAMS {
        let name = Path::new(program).file_name().unwrap().to_str().unwrap();
        for arguments in [&["--help"][..], &["-h"], &["one", "--help", "--other"]] {
            let output = run(program, arguments);
            assert!(output.status.success(), "{name}");
            assert!(output.stderr.is_empty(), "{name}");
            let help = text(&output.stdout);
            assert!(help.starts_with(&format!("usage: {name}")), "{help}");
            assert!(help.ends_with('\n') && help.lines().count() > 1);
            assert!(help.lines().all(|line| line.len() <= 80), "{help}");
        }
    }
}

#[test]
fn wrong_arguments_show_the_usage() {
    for (program, wrong) in PROGRAMS {
        for arguments in [wrong, &["--other"]] {
            let output = run(program, arguments);
            assert_eq!(output.status.code(), Some(2), "{program}");
            assert!(output.stdout.is_empty(), "{program}");
            assert!(text(&output.stderr).contains("\nusage: "), "{program}");
        }
    }
}

#[test]
fn each_answer_comes_before_the_next_line_is_written() {
    let output = run(DRIVE, &[REPLAY, "--scripts", "1"]);
    assert!(output.status.success(), "{}", text(&output.stdout));
    let script = file("own.script", b"close 0\nshow\ntable\n# remark\nstop");
    let output = run(DRIVE, &[REPLAY, "--file", script.to_str().unwrap()]);
    assert!(output.status.success(), "{}", text(&output.stdout));
}

/// A program with other answers is found.
#[test]
fn other_answers_are_found() {
    let output = run(DRIVE, &[TOUR, "--scripts", "1"]);
    assert_eq!(output.status.code(), Some(1));
    assert!(text(&output.stdout).starts_with("tour, sent line by line\n"));
}

#[test]
fn a_capture_of_ones_own_is_compared() {
    let capture = run(CAPTURE, &["mixed", "3"]).stdout;
    let path = file("own.capture", &capture);
    let path = path.to_str().unwrap();
    let output = run(COMPARE, &[LISTING, "--file", path]);
    assert!(output.status.success());
    assert!(text(&output.stdout).ends_with("no difference\n"));
    let output = run(COMPARE, &[REPLAY, "--file", path]);
    assert_eq!(output.status.code(), Some(1));
    let output = run(COMPARE, &[LISTING, "--file", "no such file"]);
    assert_eq!(output.status.code(), Some(2));
}

#[test]
fn captures_and_mixes_become_one_script() {
    let before = file("before.mix", b"# before\nstart -\n0 c0 00\n");
    let one = file(
        "one.socat",
        b"> 2026/11/17 12:00:00.1  length=2 from=0 to=1\n c0 00\n\
        < 2026/11/17 12:00:00.2  length=1 from=0 to=0\n 2a\n\
        > 2026/11/17 12:00:00.3  length=2 from=2 to=3\n 01 c0\n",
    );
    let other = file(
        "other.socat",
        b"> 2026/11/17 12:00:00.200000000  length=1 from=0 to=0\n 02                   .\n--\n",
    );
    let [before, one, other] = [&before, &one, &other].map(|path| path.to_str().unwrap());
    let (one, other) = (format!("0={one}"), format!("3={other}"));
    let output = run(MIX, &[before, &one, &other]);
    let expected = "# before\nstart -\nfeed 0 512 C000\n\
        # 2026/11/17 12:00:00.1 line 0\nfeed 0 512 C000\nfeed 0 512 00\n\
        # 2026/11/17 12:00:00.200000000 line 3\nfeed 3 512 02\n\
        # 2026/11/17 12:00:00.3 line 0\nfeed 0 512 01C0\n";
    assert_eq!(text(&output.stdout), expected);
    let output = run(MIX, &["--hub-left", &one]);
    let expected = "# 2026/11/17 12:00:00.2 line 0\nfeed 0 512 2A\n";
    assert_eq!(text(&output.stdout), expected);
}
