//! The command line: what is asked for, and what is answered.

use std::ffi::{OsStr, OsString};

use rajvokshul::{grade_in, list, Cycle, Grades};

use crate::explain::explained;
use crate::picture::picture;
use crate::story::{tell_in, Failure};
use crate::timeline::timeline;

/// Everything was done.
pub const DONE: u8 = 0;
/// The recording, or a line to record, is refused.
pub const REFUSED: u8 = 1;
/// The command line is not understood.
pub const USAGE: u8 = 2;
/// Reading or writing failed.
pub const FAILED: u8 = 3;
/// The program contradicts the proved library.
pub const CONTRADICTED: u8 = 4;

/// How the program is called.
pub const USAGE_TEXT: &str = "\
usage: desk COMMAND [--cycle two|six] [FILE]

  desk list FILE       the trucks after the last round
  desk grade FILE      the first round that breaks each class of marks, or 0
  desk explain FILE    why a recording is refused, and where; or what it holds
  desk timeline FILE   every round in words, and a verdict
  desk picture FILE    the whole run as an SVG picture
  desk record FILE     lines of text to a recording

  desk help COMMAND    more about a command
  desk --help          this text
  desk --version       the program's version

Without FILE, or with -, standard input is read. A recording does not say its
cycle of rounds: with --cycle six grade, timeline, picture and record go by six
(prepare, four bit rounds, accept), with --cycle two, as without, by two.
Status: 0 done, 1 the recording, or a line to record, is refused, 2 usage,
3 reading or writing failed, 4 the program contradicts itself.
";

const RECORD_HELP: &str = "\
usage: desk record [--cycle two|six] [FILE] > run.rec

Reads lines of text and prints the recording that they make. The first line is
start with the opening crusher of each truck; each further line is a round.

  start 3 5
  round active 0 1
  round
  round active 0 marked 1 lost 1:0
  round stopped 1

After stopped, active and marked come trucks, after lost who missed whom: 1:0 is
truck 1 missing truck 0. Empty lines, and what follows a #, are passed over.
Where a line is refused, standard error says which and why, and nothing is
printed. The fleet is stepped in the cycle that is asked for; a recording does
not say its cycle, so that its bytes are the same.
";

/// What can be shown of a recording.
#[derive(Clone, Copy, Debug, PartialEq, Eq)]
pub enum View {
    /// The proved listing.
    List,
    /// The proved grades.
    Grade,
    /// Why it is refused.
    Explain,
    /// Every round in words.
    Timeline,
    /// The SVG picture.
    Picture,
}

impl View {
    /// All of them with their names and what help says.
    pub const ALL: [(View, &'static str, &'static str); 5] = [
        (
            View::List,
            "list",
            "\
usage: desk list [FILE]

Prints the numbers of trucks and rounds, then a line for each truck after the
last round: its opening, its state, its crusher, the round of a decision or a
stop, and how many proposals and vetoes it sent. The last line has how many all
of them sent. This is the proved listing, which is for the two-round cycle.
",
        ),
        (
            View::Grade,
            "grade",
            "\
usage: desk grade [--cycle two|six] [FILE]

Prints for each class of marks the first round that breaks it, or 0.
  complete   a truck that misses a message has a mark
  majority   a truck that hears at most half of the messages has a mark
  zero       a truck that hears none of the messages has a mark
  accurate   a truck that has a mark missed a message
",
        ),
        (
            View::Explain,
            "explain",
            "\
usage: desk explain [FILE]

Says on standard output why a recording is refused: the refusal with its number,
then the place, with offsets counted from 0. The status is 1 then. Of an
accepted recording it says so, with its counts by the two-round cycle.
",
        ),
        (
            View::Timeline,
            "timeline",
            "\
usage: desk timeline [--cycle two|six] [FILE]

Prints every round: what each truck sent, heard and missed, its mark, and its
estimate; who stopped and who decided; which class of marks a truck broke. Then
how many proposals and vetoes each truck sent. The verdict at the end says
whether the marks guaranteed agreement, in which rounds the fine detector may
rest, what was decided, and whether five rounds in a row were calm. Agreement
is guaranteed where marks are majority complete in odd rounds and zero complete
in even ones.

With --cycle six each round has its name: prepare, bit 8, bit 4, bit 2, bit 1,
accept. It says who became unwilling, and on what, and not how much each sent.
Agreement is guaranteed where marks are zero complete in every round, and eleven
rounds in a row may be calm.
",
        ),
        (
            View::Picture,
            "picture",
            "\
usage: desk picture [--cycle two|six] [FILE] > run.svg

Prints an SVG picture of the run: trucks down, rounds across, the colour of a
bar for the crusher of the estimate, with its number. With --cycle six each
round has its name.
",
        ),
    ];

    /// Why it goes by two rounds alone, if it does.
    pub fn only_two(self) -> Option<&'static str> {
        match self {
            View::List => Some("the proved listing is that of two rounds"),
            View::Explain => Some("it is about a recording's bytes, and counts by two rounds"),
            View::Grade | View::Timeline | View::Picture => None,
        }
    }

    fn named(name: &OsStr) -> Option<(View, &'static str)> {
        let named = View::ALL.into_iter().find(|(_, known, _)| name == *known)?;
        Some((named.0, named.2))
    }
}

/// What the command line asks for.
#[derive(Clone, Debug, PartialEq, Eq)]
pub enum Request {
    /// A text to print.
    Say(&'static str),
    /// A view of a recording in a cycle, from a file or from standard input.
    Show(View, Cycle, Option<OsString>),
    /// The recording of a text, stepped in a cycle, from a file or from standard input.
    Record(Cycle, Option<OsString>),
}

/// Reads the arguments after the program's name; an error says what is not understood.
pub fn parse(arguments: &[OsString]) -> Result<Request, String> {
    let mut words: Vec<&OsStr> = Vec::new();
    let mut help = false;
    let mut version = false;
    let mut cycle = None;
    let mut options = true;
    let mut arguments = arguments.iter();
    while let Some(argument) = arguments.next() {
        match argument.to_str() {
            Some("--") if options => options = false,
            Some("--help" | "-h") if options => help = true,
            Some("--version" | "-V") if options => version = true,
            Some("--cycle") if options && cycle.is_some() => {
                return Err("--cycle is there twice".to_string())
            }
            Some("--cycle") if options => cycle = Some(cycle_named(arguments.next())?),
            _ if options && is_option(argument) => return Err(format!("no option {argument:?}")),
            _ => words.push(argument),
        }
    }
    let cycle = cycle.unwrap_or_default();
    match words.as_slice() {
        _ if version => Ok(Request::Say(concat!("desk ", env!("CARGO_PKG_VERSION"), "\n"))),
        [] if help => Ok(Request::Say(USAGE_TEXT)),
        [] => Err("no command".to_string()),
        [name] if *name == "help" => Ok(Request::Say(USAGE_TEXT)),
        [name, about] if *name == "help" => help_on(about),
        [name, ..] if help => help_on(name),
        [name, rest @ ..] if *name == "record" => Ok(Request::Record(cycle, one_file(rest)?)),
        [name, rest @ ..] => {
            let (view, _) = View::named(name).ok_or_else(|| format!("no command {name:?}"))?;
            if let (Cycle::SixRound, Some(why)) = (cycle, view.only_two()) {
                return Err(format!("no --cycle six with {name:?}: {why}"));
            }
            Ok(Request::Show(view, cycle, one_file(rest)?))
        }
    }
}

/// The cycle that the word after `--cycle` names.
fn cycle_named(word: Option<&OsString>) -> Result<Cycle, String> {
    match word.map(|word| (word, word.to_str())) {
        Some((_, Some("two"))) => Ok(Cycle::TwoRound),
        Some((_, Some("six"))) => Ok(Cycle::SixRound),
        Some((other, _)) => Err(format!("after --cycle comes two or six, not {other:?}")),
        None => Err("after --cycle comes two or six".to_string()),
    }
}

/// The file that is named after a command; none is standard input.
fn one_file(words: &[&OsStr]) -> Result<Option<OsString>, String> {
    match words {
        [] => Ok(None),
        [file] if *file == "-" => Ok(None),
        [file] => Ok(Some(file.to_os_string())),
        [_, other, ..] => Err(format!("one file at a time, but there is {other:?} too")),
    }
}

/// A lone dash names standard input and is no option.
fn is_option(argument: &OsStr) -> bool {
    argument != "-" && argument.as_encoded_bytes().first() == Some(&b'-')
}

fn help_on(name: &OsStr) -> Result<Request, String> {
    if name == "record" {
        return Ok(Request::Say(RECORD_HELP));
    }
    let (_, text) = View::named(name).ok_or_else(|| format!("no command {name:?}"))?;
    Ok(Request::Say(text))
}

/// What is printed, and the status.
#[derive(Clone, Debug, PartialEq, Eq)]
pub struct Answer {
    /// For standard output.
    pub out: String,
    /// For standard error, without the program's name.
    pub err: String,
    /// The status to end with.
    pub status: u8,
}

impl From<Failure> for Answer {
    fn from(failure: Failure) -> Answer {
        let (status, more) = match failure {
            Failure::Refused(_) => (REFUSED, " (desk explain says where)"),
            Failure::Contradiction(_) => (CONTRADICTED, ""),
        };
        Answer { out: String::new(), err: format!("{failure}{more}\n"), status }
    }
}

/// A view of a recording in a cycle; [`View::only_two`] tells of views that go by two rounds whatever the cycle.
pub fn answer(view: View, cycle: Cycle, recording: &[u8]) -> Answer {
    shown(view, cycle, recording).unwrap_or_else(Answer::from)
}

fn shown(view: View, cycle: Cycle, recording: &[u8]) -> Result<Answer, Failure> {
    let mut status = DONE;
    let out = match view {
        View::List => list(recording)?,
        View::Grade => {
            let Grades { complete, majority, zero, accurate, .. } = grade_in(cycle, recording)?;
            format!("complete {complete}\nmajority {majority}\nzero {zero}\naccurate {accurate}\n")
        }
        View::Explain => {
            let (text, refusal) = explained(recording)?;
            if refusal.is_some() {
                status = REFUSED;
            }
            text
        }
        View::Timeline => timeline(&tell_in(cycle, recording)?),
        View::Picture => picture(&tell_in(cycle, recording)?),
    };
    Ok(Answer { out, err: String::new(), status })
}
