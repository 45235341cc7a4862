//! The rule that an edit of an edge answers (document 02, request a), worked out by hand from document 01's "Edits".

use crate::*;
use reference::table::turns;
use Rule::{A, B1, B2, E};

/// Two vertices and an edge between them. Its walk is (0, 0), (1, k): one face, which passes by both darts.
fn bridge(k: i16) -> Vec<Edit> {
    vec![add(0), add(1), insert(0, around(0), around(1), k)]
}

/// A loop. Flat, its walks are (0, 0) and (1, 0): two faces. With one turn the walk is (0, 0), (0, 1): one face, which
/// passes by the same dart twice, and meets corner 0 with type 0 and corner 1 with type 1.
fn one_loop(k: i16) -> Vec<Edit> {
    vec![add(0), insert(0, around(0), around(0), k)]
}

/// What the last of these edits answers.
fn last(edits: &[Edit]) -> Result<Answer, Refusal> {
    let (change, before) = edits.split_last().unwrap();
    edit(&mut made(before), *change)
}

/// What an edit answers after these.
fn then(mut edits: Vec<Edit>, change: Edit) -> Result<Answer, Refusal> {
    edits.push(change);
    last(&edits)
}

#[test]
fn the_insertions_of_samples_2_to_5() {
    // Sample 2: two isolated vertices are two faces, whatever the turns are.
    assert_eq!(last(&bridge(0)), met(1, A));
    assert_eq!(last(&bridge(1)), met(1, A));
    // Sample 3: one corner, of type 0, taken twice: the turns alone decide.
    assert_eq!(last(&one_loop(0)), met(2, B1));
    assert_eq!(last(&one_loop(1)), met(1, B2));
    // Sample 4: types 0 and 1, turns 0: odd.
    assert_eq!(then(one_loop(1), insert(1, 0, 1, 0)), met(1, B2));
    // Sample 5: corners 0 and 1 of the flat loop are on its two faces; on the turned loop's one face 0, 1 and 1 add to an
    // even number, and so do 0, 1 and -1.
    assert_eq!(then(one_loop(0), insert(1, 0, 1, 0)), met(1, A));
    assert_eq!(then(one_loop(1), insert(1, 0, 1, 1)), met(2, B1));
    assert_eq!(then(one_loop(1), insert(1, 0, 1, -1)), met(2, B1));
}

#[test]
fn each_rule_of_a_deletion() {
    assert_eq!(then(one_loop(0), delete(0)), met(1, A));
    assert_eq!(then(bridge(0), delete(0)), met(2, B1));
    assert_eq!(then(bridge(1), delete(0)), met(2, B1));
    assert_eq!(then(one_loop(1), delete(0)), met(1, B2));
}

#[test]
fn each_rule_of_a_turn() {
    for odd in [1, -1, 3, -99] {
        assert_eq!(then(one_loop(0), turn(0, odd)), met(1, A));
        assert_eq!(then(one_loop(1), turn(0, odd)), met(2, B1));
        assert_eq!(then(bridge(0), turn(0, odd)), met(1, B2));
        assert_eq!(then(bridge(1), turn(0, odd)), met(1, B2));
    }
}

/// Wherever the sides are, and also where nothing is turned.
#[test]
fn a_turn_by_an_even_amount_is_e() {
    for even in [0, 2, -2, 98, -98] {
        assert_eq!(then(one_loop(0), turn(0, even)), met(2, E));
        assert_eq!(then(one_loop(1), turn(0, even)), met(1, E));
        assert_eq!(then(bridge(0), turn(0, even)), met(1, E));
        assert_eq!(then(bridge(1), turn(0, even)), met(1, E));
    }
    assert_eq!(then(one_loop(99), turn(0, -198)), met(1, E), "sample 6");
}

/// "turns would pass 99 either way" is tested for even amounts too.
#[test]
fn overturned_goes_before_e() {
    for (k, even) in [(99, 2), (98, 2), (0, 100), (0, -100), (-98, -2), (1, 32_766), (1, -32_768)] {
        let mut table = made(&one_loop(k));
        assert_eq!(edit(&mut table, turn(0, even)), Err(Refusal::Overturned), "{k} by {even}");
        assert_eq!(turns(&table, 0), i32::from(k));
    }
    assert_eq!(then(one_loop(97), turn(0, 2)), met(1, E), "99 is not past 99");
}

#[test]
fn vertices_have_no_rule() {
    assert_eq!(last(&[add(3)]), Ok(Answer { faces: 1, rule: None }));
    assert_eq!(last(&[add(3), add(4), remove(3)]), Ok(Answer { faces: 1, rule: None }));
}
