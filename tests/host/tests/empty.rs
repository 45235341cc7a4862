//! planner_empty: the right size is filled with the empty mesh, any other is declined and kept.

use host::guarded::Guarded;
use host::planner;
use reference::table::{empty_mesh, WORDS};
use reference::trial::random::Random;
use reference::trial::tables::random_table;

const GUARD: u16 = 0xa5c3;

#[test]
fn the_right_size_is_filled_whatever_it_held() {
    let mut random = Random::new(0xe1);
    for round in 0..200 {
        let content = match round % 4 {
            0 => vec![0; WORDS],
            1 => vec![u16::MAX; WORDS],
            2 => (0..WORDS).map(|_| random.word()).collect(),
            _ => random_table(&mut random),
        };
        let mut lent = Guarded::new(&content, GUARD);
        assert_eq!(planner::empty(lent.slice_mut()), 0);
        assert_eq!(lent.slice(), empty_mesh());
        lent.assert_guards();
    }
}

#[test]
fn the_filled_words_are_the_documents() {
    let mut table = vec![1; 8_704];
    assert_eq!(planner::empty(&mut table), 0);
    assert!(table[..6_144].iter().all(|&word| word == 65_535), "no dart is live");
    assert!(table[6_144..7_168].iter().all(|&word| word == 0), "no edge is live");
    assert!(table[7_168..7_680].iter().all(|&word| word == 65_535), "no vertex is live");
    assert!(table[7_680..].iter().all(|&word| word == 0), "no edge has a length");
}

#[test]
fn every_other_size_is_declined_and_kept() {
    let mut random = Random::new(0xe2);
    let content: Vec<u16> = (0..2 * WORDS).map(|_| random.word()).collect();
    for size in (0..WORDS).chain(WORDS + 1..=2 * WORDS) {
        let mut lent = Guarded::new(&content[..size], GUARD);
        assert_eq!(planner::empty(lent.slice_mut()), -1, "{size} words");
        assert_eq!(lent.slice(), &content[..size]);
        lent.assert_guards();
    }
}

#[test]
fn no_words_at_null() {
    assert_eq!(planner::empty_null(), -1);
}
