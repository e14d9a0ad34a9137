//! The picture: well-formed, complete within its frame, and with one element for each event that the independent reading
//! counts, on cases worked by hand and on recordings from fixed seeds.

use std::collections::BTreeMap;

use desk::picture::picture;
use desk::story::{tell, tell_in};
use oracle::gen::{self, Rng, FULL, SMALL, TINY, TINY_SIX};
use oracle::marks::{classes_of, mixed, radios, round_is_calm};
use oracle::steps::follow;
use oracle::{Cycle, Header, Plain, Radio, RoundKind, State, Truck};

const C1: [u8; 8] = [0x08, 0x04, 0x35, 0x30, 0x00, 0x03, 0x00, 0x00];
const C2: [u8; 6] = [0x08, 0x02, 0x35, 0x31, 0x80, 0x00];
const C3: [u8; 6] = [0x08, 0x02, 0x35, 0x3D, 0x80, 0x00];

/// An element: its name and its attributes.
struct Element {
    name: String,
    attributes: BTreeMap<String, String>,
    text: String,
}

impl Element {
    fn has(&self, class: &str) -> bool {
        self.attributes.get("class").is_some_and(|all| all.split(' ').any(|one| one == class))
    }

    fn number(&self, attribute: &str) -> Option<i32> {
        self.attributes.get(attribute).map(|value| value.parse().unwrap())
    }
}

/// The attributes of a tag, each with its value in double quotes.
fn attributes(mut rest: &str) -> BTreeMap<String, String> {
    let mut all = BTreeMap::new();
    while !rest.trim().is_empty() {
        let (name, after) = rest.trim_start().split_once("=\"").expect("an attribute");
        let (value, after) = after.split_once('"').expect("a closing quote");
        assert!(name.chars().all(|c| c.is_ascii_alphanumeric() || c == '-'), "{name}");
        assert!(!value.contains(['<', '&']), "{value}");
        assert!(all.insert(name.to_string(), value.to_string()).is_none(), "{name} twice");
        rest = after;
    }
    all
}

/// Reads a picture; panics unless it is well-formed.
fn elements(svg: &str) -> Vec<Element> {
    let mut all: Vec<Element> = Vec::new();
    let mut open: Vec<String> = Vec::new();
    let mut rest = svg;
    while let Some((text, after)) = rest.split_once('<') {
        assert!(!text.contains('&'), "{text}");
        let (tag, after) = after.split_once('>').expect("a closing bracket");
        if let Some(name) = tag.strip_prefix('/') {
            assert_eq!(open.pop().as_deref(), Some(name));
            if let Some(last) = all.last_mut().filter(|last| last.name == name) {
                last.text = text.to_string();
            }
        } else {
            let (tag, closed) = tag.strip_suffix('/').map_or((tag, false), |tag| (tag, true));
            let (name, attributed) = tag.split_once(' ').unwrap_or((tag, ""));
            if !closed {
                open.push(name.to_string());
            }
            let attributes = attributes(attributed);
            all.push(Element { name: name.to_string(), attributes, text: String::new() });
        }
        rest = after;
    }
    assert!(open.is_empty() && rest.trim().is_empty());
    assert_eq!(all[0].name, "svg");
    all
}

fn drawn(recording: &[u8]) -> Vec<Element> {
    drawn_in(Cycle::TwoRound, recording)
}

fn drawn_in(cycle: Cycle, recording: &[u8]) -> Vec<Element> {
    let cycle = match cycle {
        Cycle::TwoRound => rajvokshul::Cycle::TwoRound,
        Cycle::SixRound => rajvokshul::Cycle::SixRound,
    };
    elements(&picture(&tell_in(cycle, recording).unwrap()))
}

fn count(elements: &[Element], class: &str) -> usize {
    elements.iter().filter(|element| element.has(class)).count()
}

/// The events, in the order in which the tests write them down; the last two are of six rounds.
const EVENTS: [&str; 10] =
    ["cell", "sent", "veto", "missed", "mark", "false", "stopped", "decided", "bit", "unwilling"];

fn events(elements: &[Element]) -> [usize; 10] {
    EVENTS.map(|class| count(elements, class))
}

#[test]
fn cases_by_hand() {
    // C1: two trucks run in four rounds, send twice each, veto once each and decide.
    let c1 = drawn(&C1);
    assert_eq!(events(&c1), [8, 4, 2, 0, 0, 0, 0, 2, 0, 0]);
    // A number for each opening, for truck 1's change to 3, and for each decision.
    assert_eq!(count(&c1, "number"), 5);
    assert_eq!((count(&c1, "even"), count(&c1, "broken"), count(&c1, "calm")), (2, 0, 0));
    // C2: each sends once, misses once and decides; agreement is not guaranteed.
    let c2 = drawn(&C2);
    assert_eq!(events(&c2), [4, 2, 0, 2, 0, 0, 0, 2, 0, 0]);
    assert_eq!((count(&c2, "even"), count(&c2, "broken")), (1, 1));
    // C3: with a mark each, both veto.
    assert_eq!(events(&drawn(&C3)), [4, 2, 2, 2, 2, 0, 0, 0, 0, 0]);
    // C5: no rounds, so nothing but openings.
    let c5 = drawn(&[0x08, 0x00, 0x35]);
    assert_eq!(events(&c5), [0; 10]);
    assert_eq!((count(&c5, "opening"), count(&c5, "number")), (2, 2));
}

/// The texts of a class, in their order.
fn texts<'a>(elements: &'a [Element], class: &str) -> Vec<&'a str> {
    elements.iter().filter(|e| e.has(class)).map(|e| e.text.as_str()).collect()
}

#[test]
fn six_rounds_by_hand() {
    // Trucks of crushers 4 and 0. In round 3 truck 0 sends, and truck 1 hears it and becomes unwilling; in round 6 it vetoes,
    // and truck 0 misses that and decides.
    let mut words = vec![0; 6 * 5];
    words[5 * 5 + 3] = 0b10;
    let recording = rajvokshul::write(2, 6, &[4, 0], &words).unwrap();
    let six = drawn_in(Cycle::SixRound, &recording);
    assert_eq!(events(&six), [12, 0, 1, 1, 0, 0, 0, 1, 1, 1]);
    let names = ["prepare", "bit 8", "bit 4", "bit 2", "bit 1", "accept"];
    assert_eq!(texts(&six, "kind"), names);
    assert_eq!((count(&six, "accept"), count(&six, "even"), count(&six, "broken")), (1, 0, 1));
    assert_eq!(texts(&six, "broken-label"), ["round 6: not zero complete"]);
    assert_eq!(texts(&six, "title"), ["2 trucks, 6 rounds in the six-round cycle"]);
    assert_eq!(
        texts(&six, "summary"),
        ["1 decided, 0 stopped, 1 running; 1 message missed, 0 marks (0 false)"]
    );
    assert_eq!(texts(&six, "end"), ["decided 4, round 6", "running 0"]);
    let titles: Vec<&str> =
        six.iter().filter(|e| e.name == "title").map(|e| e.text.as_str()).collect();
    for said in [
        "truck 0, round 3 (bit 4): sent; estimate 4; heard 1 of 1",
        "truck 1, round 3 (bit 4): silent; estimate 0; heard 1 of 1; became unwilling on a message",
        "truck 1, round 6 (accept): vetoed; estimate 0; heard 1 of 1",
    ] {
        assert!(titles.contains(&said), "{titles:?}");
    }
    assert!(!titles.iter().any(|title| title.contains(" sent ") && title.contains("proposal")));
}

#[test]
fn narrow_rounds_of_six_have_their_names_where_they_are_pointed_at() {
    for (rounds, letters) in [(53, 53), (250, 250), (251, 0), (400, 0)] {
        let recording = rajvokshul::write(1, rounds, &[0], &vec![0; 4 * rounds as usize]).unwrap();
        let six = drawn_in(Cycle::SixRound, &recording);
        let heads: Vec<String> = six
            .windows(2)
            .filter(|pair| pair[0].has("round"))
            .map(|pair| pair[1].text.clone())
            .collect();
        let names = ["prepare", "bit 8", "bit 4", "bit 2", "bit 1", "accept"].iter().cycle();
        let expected = (1..=rounds).zip(names).map(|(k, name)| format!("round {k} ({name})"));
        assert_eq!(heads, expected.collect::<Vec<_>>());
        let short = ["P", "8", "4", "2", "1", "A"].into_iter().cycle().take(letters);
        assert_eq!(texts(&six, "kind"), short.collect::<Vec<_>>());
        assert_eq!(count(&six, "accept"), rounds as usize / 6);
    }
}

#[test]
fn the_largest_recording_of_zeros_is_a_bar_for_each_truck() {
    let mut recording = vec![0x81, 0x90];
    recording.resize(56_018, 0);
    let elements = drawn(&recording);
    assert_eq!(events(&elements), [0; 10]);
    assert_eq!((count(&elements, "bar"), count(&elements, "opening")), (32, 32));
    assert_eq!(count(&elements, "even"), 200);
    assert_eq!(count(&elements, "rest"), 0);
}

/// What the independent reading counts for a picture.
#[derive(Debug, Default, PartialEq, Eq)]
struct Counted {
    events: [usize; 10],
    /// Truck rounds after which the estimate is a crusher, for each crusher.
    crushers: [usize; 16],
    bars: usize,
    changes: usize,
    rests: usize,
    broken: usize,
    calm: usize,
}

/// What happens to truck i in a round, in the order of the events.
fn happened(radio: &Radio, before: &Truck, after: &Truck, i: usize) -> [bool; 10] {
    let marked = radio.running[i] && radio.mark_bit[i];
    [
        radio.running[i],
        radio.sends[i] && radio.is_proposal(),
        radio.sends[i] && matches!(radio.kind, RoundKind::Vetoes | RoundKind::Accept),
        radio.running[i] && radio.missed(i) > 0,
        marked,
        marked && radio.missed(i) == 0,
        after.state == State::Stopped(radio.round),
        after.state == State::Decided(radio.round),
        radio.sends[i] && matches!(radio.kind, RoundKind::Bit(_)),
        !before.unwilling && after.unwilling,
    ]
}

fn counted(cycle: Cycle, plain: &Plain) -> Counted {
    let mut counted = Counted::default();
    let (_, mut before) = oracle::start(plain.n as u64, &plain.openings);
    let mut last = vec![None; plain.n];
    let radios = radios(cycle, plain);
    for radio in &radios {
        let after = follow(cycle, &before, plain.round(radio.round as usize));
        for (i, last) in last.iter_mut().enumerate() {
            let (was, is) = (&before.trucks[i], &after.trucks[i]);
            for (total, happened) in counted.events.iter_mut().zip(happened(radio, was, is, i)) {
                *total += usize::from(happened);
            }
            counted.changes += usize::from(was.estimate != is.estimate);
            if radio.running[i] {
                counted.crushers[usize::from(is.estimate)] += 1;
                counted.bars += usize::from(*last != Some(is.estimate));
                *last = Some(is.estimate);
            }
        }
        before = after;
    }
    let rests = |truck: &&Truck| match truck.state {
        State::Running => false,
        State::Stopped(round) | State::Decided(round) => usize::from(round) < plain.rounds,
    };
    counted.rests = before.trucks_below_n().iter().filter(rests).count();
    counted.broken = usize::from(match cycle {
        Cycle::TwoRound => !mixed(plain),
        Cycle::SixRound => !classes_of(cycle, plain).iter().all(|kept| kept.zero),
    });
    let calm_rounds = cycle.calm_span() as usize + 1;
    let all_calm = |rounds: &[Radio], b: u64| rounds.iter().all(|radio| round_is_calm(radio, b));
    let calm = |b: u64| radios.windows(calm_rounds).any(|rounds| all_calm(rounds, b));
    counted.calm = usize::from((0..=32).any(calm));
    counted
}

/// A picture against what the independent reading counts, wide or narrow.
fn hold(cycle: Cycle, plain: &Plain) {
    let elements = drawn_in(cycle, &gen::bytes_of(plain));
    let expected = counted(cycle, plain);
    let mut events = events(&elements);
    let wide = plain.rounds <= 52;
    if wide {
        let numbers = plain.n + expected.changes + expected.events[7];
        assert_eq!(count(&elements, "number"), numbers);
        assert_eq!(count(&elements, "bar"), 0);
        for crusher in 0..16 {
            let class = format!("c{crusher}");
            let cells = elements.iter().filter(|e| e.has("cell") && e.has(&class)).count();
            assert_eq!(cells, expected.crushers[crusher], "crusher {crusher}");
        }
    } else {
        assert_eq!(count(&elements, "bar"), expected.bars);
        // Equal rounds are one bar, so there is no cell for each.
        assert_eq!(events[0], 0);
        events[0] = expected.events[0];
    }
    assert_eq!(events, expected.events, "{EVENTS:?}");
    assert_eq!(count(&elements, "opening"), plain.n);
    let grounds = match cycle {
        Cycle::TwoRound => [plain.rounds / 2, 0],
        Cycle::SixRound => [0, plain.rounds / 6],
    };
    assert_eq!([count(&elements, "even"), count(&elements, "accept")], grounds);
    assert_eq!(count(&elements, "rest"), expected.rests);
    assert_eq!(count(&elements, "broken"), expected.broken);
    assert_eq!(count(&elements, "calm"), expected.calm);
    within_the_frame(&elements);
    beside_each_other(&elements);
}

/// The size of a text's face, by its class; of a kind in a wide round.
fn face(element: &Element) -> i32 {
    match () {
        _ if element.has("title") => 20,
        _ if element.has("verdict") => 14,
        _ if element.has("kind") => 11,
        _ => 12,
    }
}

/// The texts in the head of the columns, which stand on two lines and are centred, do not reach into each other: numbers of
/// rounds, and kinds. Kinds of narrow rounds have a smaller face.
fn beside_each_other(elements: &[Element]) {
    let narrow = elements.iter().any(|e| e.has("bar"));
    for class in ["axis", "kind"] {
        let heads: Vec<&Element> = elements.iter().filter(|e| e.has(class)).collect();
        let edges = |e: &Element| {
            let face = if narrow && class == "kind" { 9 } else { face(e) };
            let (x, long) = (e.number("x").unwrap(), e.text.chars().count() as i32 * face * 6 / 10);
            (2 * x - long, 2 * x + long)
        };
        let mut edges: Vec<(i32, i32)> = heads.into_iter().map(edges).collect();
        edges.sort_unstable();
        assert!(edges.windows(2).all(|pair| pair[0].1 <= pair[1].0), "{class}: {edges:?}");
    }
}

/// No box and no text reaches out of the picture. A character is taken to be 6 tenths of its face wide.
fn within_the_frame(elements: &[Element]) {
    let (width, height) =
        (elements[0].number("width").unwrap(), elements[0].number("height").unwrap());
    for element in &elements[1..] {
        let (x, y) = (element.number("x").unwrap_or(0), element.number("y").unwrap_or(0));
        assert!(x >= 0 && y >= 0 && y <= height, "{:?}", element.attributes);
        let (w, h) = (element.number("width").unwrap_or(0), element.number("height").unwrap_or(0));
        assert!(x + w <= width && y + h <= height, "{:?}", element.attributes);
        let anchored = element.attributes.get("text-anchor").map_or("start", String::as_str);
        if element.name == "text" && anchored == "start" {
            let long = element.text.chars().count() as i32 * face(element) * 6 / 10;
            assert!(x + long <= width, "{} at {x} of {width}", element.text);
        }
    }
}

#[test]
fn an_element_for_each_event() {
    let mut rng = Rng::new(0x5176);
    for k in 0..400 {
        let limits = if k % 4 == 0 { SMALL } else { TINY };
        let plain = match k % 3 {
            0 => gen::plain(Cycle::TwoRound, &mut rng, limits),
            1 => gen::with_marks(Cycle::TwoRound, &mut rng, limits, gen::MIXED),
            _ => gen::calm(Cycle::TwoRound, &mut rng, limits, gen::MAJORITY).plain,
        };
        hold(Cycle::TwoRound, &plain);
    }
    for _ in 0..6 {
        hold(Cycle::TwoRound, &gen::plain(Cycle::TwoRound, &mut rng, FULL));
    }
}

#[test]
fn an_element_for_each_event_of_six_rounds() {
    let mut rng = Rng::new(0x5166);
    let six = Cycle::SixRound;
    for k in 0..400 {
        let limits = if k % 4 == 0 { SMALL } else { TINY_SIX };
        let plain = match k % 3 {
            0 => gen::plain(six, &mut rng, limits),
            1 => gen::with_marks(six, &mut rng, limits, gen::ZERO),
            _ => gen::calm(six, &mut rng, limits, gen::ZERO).plain,
        };
        hold(six, &plain);
    }
    for _ in 0..6 {
        hold(six, &gen::plain(six, &mut rng, FULL));
    }
}

#[test]
fn sizes_at_which_the_picture_changes_its_scale() {
    let mut rng = Rng::new(0x512E);
    for (n, rounds) in [
        (12, 24),
        (12, 25),
        (13, 24),
        (32, 24),
        (1, 52),
        (1, 53),
        (32, 52),
        (32, 53),
        (1, 400),
        (32, 400),
        (32, 1),
        (1, 1),
    ] {
        for cycle in Cycle::ALL {
            hold(cycle, &gen::plain_of_size(cycle, &mut rng, Header { n, rounds }));
        }
    }
}

#[test]
fn nothing_from_elsewhere_and_a_title() {
    let svg = picture(&tell(&C2).unwrap());
    let elements = elements(&svg);
    let root = &elements[0].attributes;
    assert_eq!(root["role"], "img");
    assert_eq!(root["aria-labelledby"], "title desc");
    let named =
        |id: &str| elements.iter().find(|e| e.attributes.get("id").is_some_and(|i| i == id));
    assert_eq!(named("title").unwrap().text, "2 trucks, 2 rounds");
    assert!(named("desc").unwrap().text.contains("marks were not majority complete in round 1"));
    let known = ["svg", "title", "desc", "style", "g", "rect", "path", "text"];
    assert!(elements.iter().all(|element| known.contains(&element.name.as_str())));
    assert!(svg.contains("@media (prefers-color-scheme:dark)"));
    for foreign in ["href", "url(", "@import", "script", "onload"] {
        assert!(!svg.contains(foreign), "{foreign}");
    }
    // The name space is the only address.
    assert_eq!(svg.matches("://").count(), 1);
    assert_eq!(root["xmlns"], "http://www.w3.org/2000/svg");
}
