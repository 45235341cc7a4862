//! Runs of edits: each clause of the claim about whole runs, tried by counting on the table that the run left.

use crate::bands::boundary_circles;
use crate::*;
use reference::check::is_good;
use reference::counts::counts;
use reference::edit::{face_change, verdict};
use reference::faces::{face_count, Walk};
use reference::run::run;
use reference::table::*;
use reference::trace::corner_met;
use reference::trial::edits::{kind, random_edit, Window, WINDOWS};
use reference::trial::random::Random;
use reference::trial::tables::{random_mesh, random_table};
use reference::weave::{alternate, letters_along, plain};

/// The empty mesh or any good table.
fn a_start(random: &mut Random) -> Vec<u16> {
    if random.once_in(2) {
        empty_mesh()
    } else {
        random_table(random)
    }
}

/// A list of edits for a run from this table, drawn on the way so that most are accepted.
fn a_list(random: &mut Random, table: &[u16], window: Window, length: usize) -> Vec<Edit> {
    let growth = random.below(11);
    let mut now = table.to_vec();
    (0..length)
        .map(|_| {
            let change = random_edit(random, &now, window, growth);
            let _ = edit(&mut now, change);
            change
        })
        .collect()
}

#[test]
fn every_clause_after_a_run() {
    let mut random = Random::new(0x3d);
    let (mut accepted, mut declined) = (0, 0);
    for round in 0..400 {
        let mut table = a_start(&mut random);
        let length = random.below(60);
        let edits = a_list(&mut random, &table, WINDOWS[round % WINDOWS.len()], length);
        let run = run(&mut table, &edits);

        let mut faces = run.start_faces as i64;
        for (answer, change) in run.answers.iter().zip(&run.changes) {
            faces += change;
            match answer {
                Ok(answer) => assert_eq!(answer.faces as i64, faces, "the answer is what the rules call for"),
                Err(_) => assert_eq!(*change, 0),
            }
        }
        assert_eq!(faces, face_count(&table) as i64);
        accepted += run.answers.iter().filter(|a| a.is_ok()).count();
        declined += run.answers.iter().filter(|a| a.is_err()).count();

        assert!(is_good(&table));
        assert_eq!(boundary_circles(&table), face_count(&table));
        corners_once_and_edges_twice(&table);
        euler_numbers(&table);
        ribbons_alternate_exactly_if_they_turn_one_way(&table);
    }
    assert!(accepted > 5_000 && declined > 1_000, "{accepted} accepted, {declined} declined");
}

/// The listed walks meet every corner once and every live edge twice.
pub fn corners_once_and_edges_twice(table: &[u16]) {
    let (mut corners, mut sides, mut around) = (vec![0; DARTS], vec![0; EDGES], vec![0; VERTICES]);
    for walk in Faces::of(table).walks {
        match walk {
            Walk::Empty(v) => around[v as usize] += 1,
            Walk::Ribbon(steps) => {
                assert!(steps.len() <= 2 * live_edges(table).count(), "twice as many steps as edges");
                for s in steps {
                    corners[corner_met(table, s) as usize] += 1;
                    sides[s.edge() as usize] += 1;
                }
            }
        }
    }
    assert!(darts().all(|d| corners[d as usize] == i32::from(dart_is_live(table, d))));
    assert!(edges().all(|e| sides[e as usize] == 2 * i32::from(edge_is_live(table, e))));
    assert!(vertices().all(|v| around[v as usize] == i32::from(vertex_is_isolated(table, v))));
}

/// V-E+F is at most 2, even if the part is orientable, at most 1 if not; and the parts add up to the mesh.
pub fn euler_numbers(table: &[u16]) {
    let c = counts(table).unwrap();
    for part in &c.parts {
        if part.orientable {
            assert!(part.euler() <= 2 && part.euler() % 2 == 0, "{part:?}");
        } else {
            assert!(part.euler() <= 1, "{part:?}");
        }
    }
    assert_eq!(c.vertices, c.parts.iter().map(|p| p.vertices).sum::<usize>());
    assert_eq!(c.edges, c.parts.iter().map(|p| p.edges).sum::<usize>());
    assert_eq!(c.faces, c.parts.iter().map(|p| p.faces).sum::<usize>());
    assert_eq!(c.euler(), c.parts.iter().map(|p| p.euler()).sum::<i64>());
    assert_eq!(c.vertices, live_vertices(table).count());
}

/// "they turn the same way if their turns, zeros left out, are all positive or all negative"
pub fn ribbons_alternate_exactly_if_they_turn_one_way(table: &[u16]) {
    let mut all = true;
    for steps in ribbons(table) {
        let turns: Vec<i32> = steps.iter().map(|s| turns(table, s.edge())).filter(|&k| k != 0).collect();
        let one_way = turns.iter().all(|&k| k > 0) || turns.iter().all(|&k| k < 0);
        let letters = letters_along(table, &steps);
        assert_eq!(alternate(&letters), one_way);
        assert_eq!(letters.len() % 2, 0, "a walk closes at its starting type");
        all &= one_way;
    }
    assert_eq!(plain(table), Ok(all));
}

#[test]
fn the_empty_run() {
    let mut table = random_table(&mut Random::new(1));
    let before = table.clone();
    let run = run(&mut table, &[]);
    assert_eq!(table, before);
    assert!(run.answers.is_empty());
    assert_eq!(run.start_faces, boundary_circles(&table));
}

/// The letter that goes with a difference of two face counts.
fn letter(change: Edit, difference: i64) -> Option<Rule> {
    match change {
        Edit::AddVertex { .. } | Edit::RemoveVertex { .. } => None,
        Edit::TurnEdge { amount, .. } if amount % 2 == 0 => Some(Rule::E),
        _ if difference == -1 => Some(Rule::A),
        _ if difference == 1 => Some(Rule::B1),
        _ => Some(Rule::B2),
    }
}

#[test]
fn the_change_at_each_edit_is_the_rules_and_every_rule_comes_up() {
    let mut random = Random::new(0xed17);
    let mut seen = std::collections::BTreeMap::new();
    for round in 0..60 {
        let mut table = a_start(&mut random);
        let window = WINDOWS[round % WINDOWS.len()];
        let growth = random.below(11);
        for _ in 0..150 {
            let change = random_edit(&mut random, &table, window, growth);
            if verdict(&table, change).is_ok() {
                let called_for = face_change(&table, change);
                let before = boundary_circles(&table) as i64;
                let answer = edit(&mut table, change).unwrap();
                let difference = boundary_circles(&table) as i64 - before;
                assert_eq!(answer.faces as i64 - before, difference, "{change:?}");
                assert_eq!(called_for, difference, "{change:?}");
                assert_eq!(answer.rule, letter(change, difference), "{change:?}");
                *seen.entry((kind(change), answer.rule, difference)).or_insert(0) += 1;
            }
        }
    }
    let once = [("add", None, 1), ("remove", None, -1), ("turn", Some(Rule::E), 0)];
    let rules = [(Rule::A, -1), (Rule::B1, 1), (Rule::B2, 0)];
    let edges = ["insert", "delete", "turn"].iter().flat_map(|&k| rules.map(|(rule, change)| (k, Some(rule), change)));
    let cases: Vec<_> = once.into_iter().chain(edges).collect();
    for case in &cases {
        assert!(seen.get(case).is_some_and(|&times| times > 20), "{case:?} in {seen:?}");
    }
    assert_eq!(seen.len(), cases.len(), "and nothing else comes up");
}

#[test]
fn an_insertion_deleted_gives_the_table_back() {
    let mut random = Random::new(0xbac4);
    let mut tried = 0;
    for round in 0..200 {
        let mut table = random_table(&mut random);
        for _ in 0..20 {
            let change = random_edit(&mut random, &table, WINDOWS[round % WINDOWS.len()], 10);
            let Edit::InsertEdge { e, .. } = change else { continue };
            let before = table.clone();
            if edit(&mut table, change).is_ok() {
                edit(&mut table, delete(e)).unwrap();
                assert_eq!(table, before);
                tried += 1;
            }
        }
    }
    assert!(tried > 500, "{tried}");
}

/// Orientable a second way, on small meshes: try every marking of all the live vertices.
#[test]
fn orientable_by_trying_every_marking() {
    let mut random = Random::new(0x03);
    let mut seen = [0; 2];
    for _ in 0..1_500 {
        let (vertices, edges) = (1 + random.below(7), random.below(9));
        let table = random_mesh(&mut random, vertices, edges).written();
        let names: Vec<Vertex> = live_vertices(&table).collect();
        let agrees = |marks: usize, e: Edge| {
            let mark = |d: Dart| marks >> names.iter().position(|&v| v == leaves(&table, d)).unwrap() & 1;
            (turns(&table, e) % 2 == 0) == (mark(2 * e) == mark(2 * e + 1))
        };
        let markable = (0..1 << names.len()).any(|marks| live_edges(&table).all(|e| agrees(marks, e)));
        let parts = counts(&table).unwrap().parts;
        assert_eq!(parts.iter().all(|part| part.orientable), markable);
        seen[usize::from(markable)] += 1;
    }
    assert!(seen[0] > 200 && seen[1] > 200, "{seen:?}");
}

/// Parts a second way: give each vertex the smallest name that any neighbour has, until nothing changes.
#[test]
fn parts_by_smallest_names() {
    let mut random = Random::new(0x9a);
    for _ in 0..200 {
        let table = random_table(&mut random);
        let mut name: Vec<Vertex> = vertices().collect();
        loop {
            let before = name.clone();
            for d in live_darts(&table) {
                let (v, u) = (leaves(&table, d) as usize, leaves(&table, reverse(d)) as usize);
                name[v] = name[v].min(name[u]);
            }
            if name == before {
                break;
            }
        }
        let smallest: Vec<Vertex> = live_vertices(&table).filter(|&v| name[v as usize] == v).collect();
        let parts = counts(&table).unwrap().parts;
        assert_eq!(parts.iter().map(|p| p.smallest).collect::<Vec<_>>(), smallest);
        for part in parts {
            assert_eq!(part.vertices, live_vertices(&table).filter(|&v| name[v as usize] == part.smallest).count());
        }
    }
}
