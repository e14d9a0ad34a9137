//! The words for refusals are those of the repository's README, whose table the C header is held against too.

use rajvokshul::Refusal;

/// The rows of the README's table: a number and what was wrong.
fn rows() -> Vec<(u8, &'static str)> {
    let table = include_str!("../../../README.md").lines().filter_map(|line| {
        let (number, words) = line.strip_prefix("| ")?.strip_suffix(" |")?.split_once(" | ")?;
        Some((number.parse().ok()?, words))
    });
    table.collect()
}

#[test]
fn the_readme_has_the_words_of_every_refusal() {
    let rows = rows();
    assert_eq!(rows.len(), 14);
    for (place, (number, words)) in rows.into_iter().enumerate() {
        let (refusal, named) = match Refusal::from_number(number) {
            Some(refusal) => (refusal, ""),
            None => (Refusal::OwnLoss { round: 12, truck: 3 }, " round 12 truck 3"),
        };
        assert_eq!(usize::from(number), place + 1);
        assert_eq!(refusal.number(), number);
        assert_eq!(refusal.reason(), words);
        assert_eq!(refusal.to_string(), format!("refused {number}{named}: {words}"));
    }
}

#[test]
fn no_other_number_is_a_refusal_by_itself() {
    // 6 names a round and a truck besides
    for number in [0, 6, 15, 255] {
        assert_eq!(Refusal::from_number(number), None);
    }
}
