//! The longest listing: 32 trucks that open with crusher 15 and decide it in round 400, having sent in every round before.

/// All are active in every proposal round, and marked in all of them but the last, so that they veto and run on. Nothing is
/// lost or stopped. Who decides in round 400 sends no veto in it.
fn recording() -> Vec<u8> {
    let mut words = vec![0; 400 * 35];
    for proposals in words.chunks_exact_mut(2 * 35) {
        proposals[1] = u32::MAX;
        proposals[2] = u32::MAX;
    }
    words[398 * 35 + 2] = 0;
    let mut bytes = vec![0; 56_018];
    let mut written = 0;
    assert_eq!(checks::write(32, 400, &[15; 32], &words, &mut bytes, &mut written), 0);
    assert_eq!(written, bytes.len());
    bytes
}

#[test]
fn takes_1761_bytes() {
    let bytes = recording();
    let mut expected = String::from("trucks 32 rounds 400\n");
    for i in 0..32 {
        expected += &format!("{i} opened 15 decided 15 round 400 sent 200 vetoes 199\n");
    }
    expected += "sent 6400 vetoes 6368\n";
    assert_eq!(expected.len(), 1761);
    assert_eq!(oracle::listing(&bytes), expected);
    let mut text = [0; 1761];
    let mut written = 0;
    assert_eq!(checks::list(&bytes, &mut text, &mut written), 0);
    assert_eq!((written, &text[..]), (1761, expected.as_bytes()));
}

#[test]
fn does_not_fit_in_1760() {
    let mut text = [7; 1760];
    let mut written = 77;
    assert_eq!(checks::list(&recording(), &mut text, &mut written), 9);
    assert!(written == 77 && text == [7; 1760]);
}
