//! Lines of text to recordings: bytes by hand from the scope paper, random rounds against the independent reading, and
//! what is said of a line that is wrong.

use std::io::Write;
use std::process::{Command, Output, Stdio};

use desk::record::{recorded, recorded_in, MOST_TEXT};
use oracle::gen::{self, Rng, FULL, SMALL, TINY};
use oracle::Cycle::TwoRound;
use rajvokshul::Cycle;

const C1: [u8; 8] = [0x08, 0x04, 0x35, 0x30, 0x00, 0x03, 0x00, 0x00];
const C1_TEXT: &str = "start 3 5\nround active 0 1\nround\nround active 0 1\nround\n";

#[test]
fn the_worked_cases_as_text() {
    assert_eq!(recorded(C1_TEXT.as_bytes()), Ok(C1.to_vec()));
    // C2 and C3: both send and miss each other, without and with marks
    let c2 = "start 3 5\nround active 0 1 lost 0:1 1:0\nround\n";
    assert_eq!(recorded(c2.as_bytes()), Ok(vec![0x08, 0x02, 0x35, 0x31, 0x80, 0x00]));
    let c3 = "start 3 5\nround active 0 1 marked 0 1 lost 0:1 1:0\nround\n";
    assert_eq!(recorded(c3.as_bytes()), Ok(vec![0x08, 0x02, 0x35, 0x3D, 0x80, 0x00]));
    // C4 and C5
    assert_eq!(recorded(b"start 7\nround active 0\nround"), Ok(vec![0x04, 0x02, 0x74, 0x00]));
    assert_eq!(recorded(b"start 3 5"), Ok(vec![0x08, 0x00, 0x35]));
}

#[test]
fn blanks_comments_and_order_change_nothing() {
    let text = "# a morning\r\n\r\n  start\t3 5 # two trucks\r\nround active 1 active 0\r\nround #\r\nround active 0 1 0\r\nround lost marked";
    assert_eq!(recorded(text.as_bytes()), Ok(C1.to_vec()));
    // one round with a bit of each kind: stops of 1, active 0, mark of 2, truck 2 misses truck 0
    let text = b"start 1 2 4\nround lost 2:0 marked 2 stopped 1 active 0\n";
    let words = [0b010, 0b001, 0b100, 0, 0, 0b001];
    assert_eq!(recorded(text), Ok(rajvokshul::write(3, 1, &[1, 2, 4], &words).unwrap()));
}

/// What is said of a text that is wrong.
fn wrong(text: &str) -> String {
    recorded(text.as_bytes()).unwrap_err().to_string()
}

#[test]
fn what_is_refused_is_said_with_its_line() {
    let not_there = "refused 8: the rounds have the wrong number of words, or a word has the bit of a truck that is not there";
    let openings = "refused 7: a fleet record is outside the limits, an opening is above 15, or the openings are not one for each truck";
    for (text, said) in [
        ("start 3 5\nround active 0 2", format!("line 2: active 2: {not_there}")),
        ("start 3 5\nround\n\nround stopped 2", format!("line 4: stopped 2: {not_there}")),
        ("start 3 5\nround marked 99999999999999999999999", format!("line 2: marked 99999999999999999999999: {not_there}")),
        ("start 3 5\nround lost 0:2", format!("line 2: lost 0:2: {not_there}")),
        ("start 3 5\nround lost 2:0", format!("line 2: lost 2:0: {not_there}")),
        (
            "start 3 5\nround lost 1:1",
            "line 2: lost 1:1: refused 6 round 1 truck 1: a truck's own loss bit is 1, but a truck always hears itself".to_string(),
        ),
        (
            "start 3 5\nround active 0\nround\nround lost 0:0",
            "line 4: lost 0:0: refused 6 round 3 truck 0: a truck's own loss bit is 1, but a truck always hears itself".to_string(),
        ),
        ("\nstart 3 16", format!("line 2: {openings}")),
        ("start 3 300", format!("line 1: {openings}")),
        ("start", "line 1: refused 2: the number of trucks is 0 or above 32".to_string()),
        (&format!("start{}", " 0".repeat(33)), "line 1: refused 2: the number of trucks is 0 or above 32".to_string()),
        (&format!("start 0{}", "\nround".repeat(401)), "line 402: refused 14: 400 rounds are done already".to_string()),
    ] {
        assert_eq!(wrong(text), said);
    }
    assert!(recorded(format!("start 0{}", "\nround".repeat(400)).as_bytes()).is_ok());
}

#[test]
fn what_is_not_understood_is_said_with_its_line() {
    for (text, said) in [
        ("", "there is no line start"),
        ("# start 3 5", "there is no line start"),
        ("round", "line 1: a line start comes before the first round"),
        ("start 3\nstart 3", "line 2: the fleet is started already"),
        ("begin 3", "line 1: a line begins with start or round, not \"begin\""),
        ("start 3\nround 0", "line 2: after round comes stopped, active, marked or lost, not \"0\""),
        ("start 3\nround actve 0", "line 2: after round comes stopped, active, marked or lost, not \"actve\""),
        ("start 3\nround active one", "line 2: \"one\" is no number"),
        ("start 3\nround active +0", "line 2: \"+0\" is no number"),
        ("start -3", "line 1: \"-3\" is no number"),
        ("start 3 5\nround lost 1:", "line 2: \"\" is no number"),
        (
            "start 3 5\nround lost 1 0",
            "line 2: after lost come two trucks with a colon, as 1:0 for truck 1 missing truck 0, not \"1\"",
        ),
    ] {
        assert_eq!(wrong(text), said);
    }
}

/// The text of a plain form.
fn text_of(plain: &oracle::Plain) -> String {
    let listed = |word: u32| (0..plain.n).filter(move |j| word >> j & 1 == 1);
    let mut text = "start".to_string();
    for opening in &plain.openings {
        text += &format!(" {opening}");
    }
    for number in 1..=plain.rounds {
        let words = plain.round(number);
        text += "\nround";
        for (kind, word) in ["stopped", "active", "marked"].iter().zip(words) {
            text += &format!(" {kind}");
            listed(*word).for_each(|truck| text += &format!(" {truck}"));
        }
        text += " lost";
        for i in 0..plain.n {
            listed(words[3 + i]).for_each(|j| text += &format!(" {i}:{j}"));
        }
    }
    text
}

#[test]
fn random_rounds_as_text_are_recorded_bit_by_bit() {
    let mut rng = Rng::new(0x2EC0);
    for k in 0..2_000 {
        let limits = match k % 100 {
            0 => FULL,
            1..=10 => SMALL,
            _ => TINY,
        };
        let plain = gen::plain(TwoRound, &mut rng, limits);
        assert_eq!(recorded(text_of(&plain).as_bytes()), Ok(gen::bytes_of(&plain)));
        // A recording does not say its cycle.
        let six = recorded_in(Cycle::SixRound, text_of(&plain).as_bytes());
        assert_eq!(six, Ok(gen::bytes_of(&plain)));
    }
}

#[test]
fn what_is_refused_in_six_rounds_is_said_with_its_line() {
    let wrong = |text: &str| recorded_in(Cycle::SixRound, text.as_bytes()).unwrap_err().to_string();
    assert_eq!(
        wrong("start 3 5\nround\nround\nround lost 0:0"),
        "line 4: lost 0:0: refused 6 round 3 truck 0: a truck's own loss bit is 1, but a truck always hears itself"
    );
    let long = format!("start 0{}", "\nround".repeat(401));
    assert_eq!(wrong(&long), "line 402: refused 14: 400 rounds are done already");
}

/// `desk record` with a text on standard input. It may end before it has read all.
fn fed(arguments: &[&str], input: &[u8]) -> Output {
    let mut command = Command::new(env!("CARGO_BIN_EXE_desk"));
    command.args(arguments).stdin(Stdio::piped()).stdout(Stdio::piped()).stderr(Stdio::piped());
    let mut child = command.spawn().unwrap();
    let _ = child.stdin.take().unwrap().write_all(input);
    child.wait_with_output().unwrap()
}

#[test]
fn the_program_prints_the_bytes_or_says_why_not() {
    let path = format!("{}/c1.txt", env!("CARGO_TARGET_TMPDIR"));
    std::fs::write(&path, C1_TEXT).unwrap();
    for arguments in [&["record"][..], &["record", "-"], &["record", &path]] {
        let output = fed(arguments, C1_TEXT.as_bytes());
        assert_eq!((output.stdout, output.stderr), (C1.to_vec(), vec![]), "{arguments:?}");
        assert_eq!(output.status.code(), Some(0));
    }
    let output = fed(&["record"], b"start 3 5\nround active 5\n");
    assert_eq!((output.stdout, output.status.code()), (vec![], Some(1)));
    assert!(String::from_utf8(output.stderr)
        .unwrap()
        .starts_with("desk: line 2: active 5: refused 8: "));
    for cycle in ["two", "six"] {
        let output = fed(&["record", "--cycle", cycle, &path], b"");
        assert_eq!((output.stdout, output.status.code()), (C1.to_vec(), Some(0)));
    }
    assert_eq!(fed(&["record", "--cycle", "four", &path], b"").status.code(), Some(2));
    assert_eq!(fed(&["record", "no-such-file"], b"").status.code(), Some(3));
    assert_eq!(fed(&["record", &path, &path], b"").status.code(), Some(2));
}

#[test]
fn a_text_without_end_is_refused() {
    let mut text = C1_TEXT.as_bytes().to_vec();
    text.resize(MOST_TEXT, b'\n');
    assert_eq!(recorded(&text), Ok(C1.to_vec()));
    text.push(b'\n');
    assert_eq!(recorded(&text).unwrap_err().to_string(), "the text is longer than 16 MiB");
    let output = fed(&["record", "/dev/zero"], b"");
    assert_eq!(output.stderr, b"desk: the text is longer than 16 MiB\n");
    assert_eq!(output.status.code(), Some(1));
}
