//! The program itself: what it prints where, and its status.

use std::fs::File;
use std::io::Write;
use std::path::PathBuf;
use std::process::{Command, Output, Stdio};

use desk::command::{answer, Answer, View};
use desk::story::Failure;
use oracle::gen::{self, Rng, FULL, TINY};
use oracle::Cycle::TwoRound;
use rajvokshul::Cycle;

const C1: [u8; 8] = [0x08, 0x04, 0x35, 0x30, 0x00, 0x03, 0x00, 0x00];
const C2: [u8; 6] = [0x08, 0x02, 0x35, 0x31, 0x80, 0x00];
/// One truck, which opens with crusher 7 and is never active, for six rounds.
const SILENT: [u8; 6] = [0x04, 0x06, 0x70, 0x00, 0x00, 0x00];
const LISTING: &str = "trucks 2 rounds 4\n0 opened 3 decided 3 round 4 sent 2 vetoes 1\n\
     1 opened 5 decided 3 round 4 sent 2 vetoes 1\nsent 4 vetoes 2\n";

fn program() -> Command {
    let mut command = Command::new(env!("CARGO_BIN_EXE_desk"));
    command.stdin(Stdio::null()).stdout(Stdio::piped()).stderr(Stdio::piped());
    command
}

/// The program with a recording on standard input. It may end before it has read all.
fn fed(arguments: &[&str], input: &[u8]) -> Output {
    let mut child = program().args(arguments).stdin(Stdio::piped()).spawn().unwrap();
    let _ = child.stdin.take().unwrap().write_all(input);
    child.wait_with_output().unwrap()
}

/// Standard output, standard error and the status.
fn said(output: Output) -> (String, String, i32) {
    let text = |bytes: Vec<u8>| String::from_utf8(bytes).unwrap();
    (text(output.stdout), text(output.stderr), output.status.code().unwrap())
}

fn run(arguments: &[&str]) -> (String, String, i32) {
    said(program().args(arguments).output().unwrap())
}

/// A file of its own with some bytes.
fn file(name: &str, bytes: &[u8]) -> PathBuf {
    let path = PathBuf::from(env!("CARGO_TARGET_TMPDIR")).join(name);
    std::fs::write(&path, bytes).unwrap();
    path
}

#[test]
fn list_and_grade() {
    let listed = (LISTING.to_string(), String::new(), 0);
    assert_eq!(said(fed(&["list"], &C1)), listed);
    assert_eq!(said(fed(&["list", "-"], &C1)), listed);
    let path = file("c1", &C1);
    assert_eq!(run(&["list", path.to_str().unwrap()]), listed);
    assert_eq!(run(&["list", "--", path.to_str().unwrap()]), listed);
    let graded = "complete 1\nmajority 1\nzero 0\naccurate 0\n".to_string();
    assert_eq!(said(fed(&["grade"], &C2)), (graded, String::new(), 0));
}

#[test]
fn the_cycle_is_chosen() {
    // In two rounds a truck that never sends runs on, in six it decides.
    let ends = |arguments: &[&str]| {
        let (out, err, status) = said(fed(arguments, &SILENT));
        assert_eq!((err.as_str(), status), ("", 0), "{arguments:?}");
        assert!(out.contains("decided") || out.contains("running"), "{out}");
        (out.contains("Every truck decided crusher 7, the last in round 6."), out)
    };
    for command in ["timeline", "picture"] {
        let (decided, six) = ends(&[command, "--cycle", "six"]);
        assert!(decided && six.contains("in the six-round cycle"), "{six}");
        assert_eq!(ends(&["--cycle", "six", command, "-"]), (true, six));
        let (decided, two) = ends(&[command]);
        assert!(!decided && !two.contains("cycle"), "{two}");
        assert_eq!(ends(&[command, "--cycle", "two"]), (false, two));
    }
    // C2 three times over: trucks of crushers 3 and 5 never hear each other. In two rounds they decide in round 2. In round
    // 3 of six, for the bit worth 4, truck 1 sends alone, and truck 0 misses it.
    let apart = rajvokshul::write(2, 6, &[3, 5], &[0, 0b11, 0, 0b10, 0b01].repeat(6)).unwrap();
    let graded = |zero| format!("complete 1\nmajority 1\nzero {zero}\naccurate 0\n");
    assert_eq!(said(fed(&["grade", "--cycle", "six"], &apart)), (graded(3), String::new(), 0));
    assert_eq!(said(fed(&["grade", "--cycle", "two"], &apart)), (graded(0), String::new(), 0));
    assert_eq!(
        said(fed(&["list", "--cycle", "two"], &C1)),
        (LISTING.to_string(), String::new(), 0)
    );
    assert_eq!(said(fed(&["explain", "--cycle", "two"], &C1)), said(fed(&["explain"], &C1)));
}

#[test]
fn a_wrong_cycle_is_usage() {
    for (arguments, complaint) in [
        (&["timeline", "--cycle", "seven"][..], "after --cycle comes two or six, not \"seven\""),
        (&["timeline", "--cycle", "Six"], "after --cycle comes two or six, not \"Six\""),
        (&["timeline", "--cycle", ""], "after --cycle comes two or six, not \"\""),
        (&["timeline", "--cycle"], "after --cycle comes two or six"),
        (&["--cycle", "timeline"], "after --cycle comes two or six, not \"timeline\""),
        (&["timeline", "--cycle", "six", "--cycle", "six"], "--cycle is there twice"),
        (&["--cycle", "six"], "no command"),
        (&["list", "--cycle", "six"], "no --cycle six with \"list\": the proved listing is that of two rounds"),
        (
            &["--cycle", "six", "explain"],
            "no --cycle six with \"explain\": it is about a recording's bytes, and counts by two rounds",
        ),
        (&["draw", "--cycle", "six"], "no command \"draw\""),
    ] {
        let (out, err, status) = run(arguments);
        assert_eq!((out.as_str(), status), ("", 2), "{arguments:?}");
        assert!(err.starts_with(&format!("desk: {complaint}\nusage: desk ")), "{err}");
    }
    // After -- it is a file's name.
    assert_eq!(run(&["grade", "--", "--cycle"]).2, 3);
}

#[test]
fn a_refused_recording_has_status_1() {
    for command in ["list", "grade", "timeline", "picture"] {
        let (out, err, status) = said(fed(&[command], &C1[..7]));
        assert_eq!((out.as_str(), status), ("", 1));
        assert!(err.starts_with("desk: refused 4: "), "{err}");
        assert!(err.ends_with(" (desk explain says where)\n"), "{err}");
    }
    let (out, err, status) = said(fed(&["explain"], &C1[..7]));
    assert!(out.starts_with("refused 4: ") && out.contains("1 byte short"), "{out}");
    assert_eq!((err.as_str(), status), ("", 1));
    // No input is a recording of no bytes.
    assert_eq!(run(&["list"]).2, 1);
}

#[test]
fn usage_has_status_2() {
    let wrong: [&[&str]; 9] = [
        &[],
        &["draw"],
        &["--list"],
        &["list", "--all"],
        &["list", "-x"],
        &["list", "a", "b"],
        &["help", "draw"],
        &["help", "list", "grade"],
        &["draw", "--help"],
    ];
    for arguments in wrong {
        let (out, err, status) = run(arguments);
        assert_eq!((out.as_str(), status), ("", 2), "{arguments:?}");
        assert!(err.starts_with("desk: ") && err.contains("\nusage: desk "), "{err}");
    }
}

#[test]
fn help_and_version() {
    for arguments in [&["--help"][..], &["-h"], &["help"]] {
        let (out, err, status) = run(arguments);
        assert!(out.starts_with("usage: desk COMMAND [--cycle two|six] [FILE]\n"), "{out}");
        assert_eq!((err.as_str(), status), ("", 0));
    }
    for command in ["list", "grade", "explain", "timeline", "picture", "record"] {
        let (out, _, status) = run(&["help", command]);
        assert!(out.starts_with(&format!("usage: desk {command} ")), "{out}");
        assert_eq!(status, 0);
        assert_eq!(run(&[command, "--help"]), (out.clone(), String::new(), 0));
        assert!(run(&["--help"]).0.contains(&format!("desk {command} FILE")));
        // The first line says which commands take a cycle.
        let first = out.lines().next().unwrap();
        let two_alone = command == "list" || command == "explain";
        assert_eq!(first.contains(" [--cycle two|six] "), !two_alone, "{first}");
        assert_eq!(run(&["help", command, "--cycle", "six"]), (out, String::new(), 0));
    }
    let version = format!("desk {}\n", env!("CARGO_PKG_VERSION"));
    assert_eq!(run(&["--version"]), (version, String::new(), 0));
}

#[test]
fn failed_reading_and_writing_have_status_3() {
    let (out, err, status) = run(&["list", "no-such-file"]);
    assert_eq!((out.as_str(), status), ("", 3));
    assert!(err.starts_with("desk: no-such-file: "), "{err}");
    assert_eq!(run(&["list", env!("CARGO_TARGET_TMPDIR")]).2, 3);
    let path = file("c1-full", &C1);
    for arguments in [&["list", path.to_str().unwrap()][..], &["--help"]] {
        let full = File::options().write(true).open("/dev/full").unwrap();
        let (_, err, status) = said(program().args(arguments).stdout(full).output().unwrap());
        assert!(err.starts_with("desk: standard output: "), "{err}");
        assert_eq!(status, 3);
    }
}

#[test]
fn a_reader_that_has_gone_gets_no_message() {
    let mut child = program().arg("timeline").stdin(Stdio::piped()).spawn().unwrap();
    drop(child.stdout.take());
    child.stdin.take().unwrap().write_all(&C1).unwrap();
    let (_, err, status) = said(child.wait_with_output().unwrap());
    assert_eq!((err.as_str(), status), ("", 3));
}

#[test]
fn input_without_end_is_not_read_to_its_end() {
    // The first two bytes are 0, so that there are no trucks.
    assert!(run(&["explain", "/dev/zero"]).0.starts_with("refused 2: "));
    let mut input = vec![0x81, 0x90];
    input.resize(2_000_000, 0);
    let long = file("long", &input);
    let answers = [said(fed(&["explain"], &input)), run(&["explain", long.to_str().unwrap()])];
    for (out, _, status) in answers {
        assert!(out.contains("but there are 56,019 or more"), "{out}");
        assert_eq!(status, 1);
    }
}

#[test]
fn a_contradiction_has_status_4() {
    let answered = Answer::from(Failure::Contradiction("two records differ".to_string()));
    let err = "internal contradiction: two records differ\n".to_string();
    assert_eq!(answered, Answer { out: String::new(), err, status: 4 });
}

#[test]
fn any_bytes_have_an_answer_in_every_view() {
    let mut rng = Rng::new(0xA175);
    for k in 0..3_000 {
        let mut bytes = gen::recording(TwoRound, &mut rng, if k % 300 == 0 { FULL } else { TINY });
        if k % 3 == 0 {
            bytes = (0..rng.below(80)).map(|_| rng.next_u64() as u8).collect();
        } else if k % 3 == 1 {
            let at = rng.below(bytes.len());
            bytes[at] ^= 1 << rng.below(8);
        }
        let status = u8::from(oracle::check(&bytes).is_err());
        for (view, name, _) in View::ALL {
            for &cycle in Cycle::ALL {
                let answered = answer(view, cycle, &bytes);
                assert_eq!(answered.status, status, "{name} of {bytes:x?} in {cycle}");
                assert_eq!(answered.out.is_empty(), status == 1 && view != View::Explain);
                assert_eq!(answered.err.is_empty(), status == 0 || view == View::Explain);
            }
        }
    }
}
