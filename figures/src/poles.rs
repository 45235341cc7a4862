//! Pictures of one pole: the ends of strips at it (the darts that leave it), its corners, and a strip put into them.

use crate::plane::{arc, p, polar, P};
use crate::svg::{pen, Anchor, Pen, Picture, BLACK, GREY, LIGHT, WHITE};
use crate::tables::{add, around, edits, insert, lone, made, DOME};
use reference::faces::VERTEX_CORNER;
use reference::table::*;

const DART: Pen = pen(2.6, BLACK);
const NEW_DART: Pen = pen(5.0, BLACK);
const POLE: Pen = pen(1.6, BLACK);
const RADIUS: f64 = 14.0;

pub fn pole(picture: &mut Picture, at: P, v: Vertex) {
    picture.disc(at, RADIUS, WHITE, POLE);
    picture.bold_label(at, 13.0, &v.to_string());
}

/// A dart as an arrow that leaves its pole at an angle, its number past its tip.
fn dart(picture: &mut Picture, at: P, degrees: f64, length: f64, d: Dart, pen: Pen) {
    picture.arrow(&[polar(at, RADIUS, degrees), polar(at, length, degrees)], pen);
    picture.bold_label(polar(at, length + 21.0, degrees), 15.0, &d.to_string());
}

/// The darts of a pole at even angles, counterclockwise from the first, which leaves at a given angle.
fn even(table: &[u16], first: Dart, degrees: f64) -> Vec<(Dart, f64)> {
    let darts = around(table, first);
    let n = darts.len() as f64;
    darts.into_iter().enumerate().map(|(i, d)| (d, degrees + 360.0 * i as f64 / n)).collect()
}

/// The angle of a dart of the list, brought to within a full turn after `from`.
fn after(angles: &[(Dart, f64)], d: Dart, from: f64) -> f64 {
    let angle = angles.iter().find(|a| a.0 == d).expect("a dart of the pole").1;
    let rest = (angle - from).rem_euclid(360.0);
    from + if rest == 0.0 { 360.0 } else { rest }
}

type Neighbour = fn(&[u16], Dart) -> Dart;

pub fn ends() -> Picture {
    let edge = made(&[add(0), add(1), insert(3, lone(0), lone(1), 0)]);
    let dome = made(&edits(DOME));
    let [first, second] = darts_of(3);
    let angles = even(&dome, vertex_word(&dome, 0), 90.0);
    let mut picture = Picture::new(
        760.0,
        390.0,
        "The ends of a strip, and the ends at a pole",
        &format!(
            "Left: strip {} joins two poles; its first end is {first}, its second end {second}. Right: pole 0 of the dome with the {} ends \
             of strips at it. A solid arrow leads from each end counterclockwise to the next one, a dashed arrow clockwise to the \
             previous one.",
            edge_of(first),
            angles.len()
        ),
    );
    let (a, b) = (p(60.0, 150.0), p(270.0, 150.0));
    picture.line(a, b, pen(26.0, "#e4e4e4"));
    for (d, at, to) in [(first, a, b), (second, b, a)] {
        let way = (to - at).unit();
        picture.arrow(&[at + way * RADIUS, at + way * 78.0], DART);
        picture.bold_label(at + way * 52.0 - p(0.0, 28.0), 15.0, &d.to_string());
        pole(&mut picture, at, leaves(&edge, d));
    }
    picture.text(p(165.0, 60.0), Anchor::Middle, 15.0, "One strip, two ends");
    picture.text(
        p(165.0, 206.0),
        Anchor::Middle,
        13.0,
        &format!("strip {} has the ends {first} and {second}", edge_of(first)),
    );
    for (i, d) in [first, second].into_iter().enumerate() {
        let which = ["first", "second"][i];
        let words = format!("end {d} is its {which} end, at pole {}", leaves(&edge, d));
        picture.text(p(165.0, 230.0 + 22.0 * i as f64), Anchor::Middle, 13.0, &words);
    }
    let words = format!("opposite {first} is {}, opposite {second} is {}", reverse(first), reverse(second));
    picture.text(p(165.0, 274.0), Anchor::Middle, 13.0, &words);

    let centre = p(540.0, 165.0);
    let words = format!("Pole 0 of the dome, with its {} ends", angles.len());
    picture.text(p(540.0, 24.0), Anchor::Middle, 15.0, &words);
    for &(d, degrees) in &angles {
        dart(&mut picture, centre, degrees, 98.0, d, DART);
        let to = after(&angles, next(&dome, d), degrees);
        picture.arrow(&arc(centre, 74.0, degrees + 7.0, to - 13.0), pen(1.6, BLACK));
        let back = degrees - (360.0 - (after(&angles, previous(&dome, d), degrees) - degrees));
        picture.arrow(&arc(centre, 46.0, degrees - 9.0, back + 19.0), pen(1.6, GREY).dashed("5 3"));
    }
    pole(&mut picture, centre, 0);
    let y = 318.0;
    let columns = |i: usize| 500.0 + 36.0 * i as f64;
    let rows: [(&str, Neighbour); 3] = [("end", |_, d| d), ("next, solid", next), ("previous, dashed", previous)];
    for (row, (name, of)) in rows.iter().enumerate() {
        let y = y + 24.0 * row as f64;
        picture.text(p(480.0, y), Anchor::End, 13.0, name);
        for (i, &(d, _)) in angles.iter().enumerate() {
            picture.bold(p(columns(i), y), Anchor::Middle, 13.0, &of(&dome, d).to_string());
        }
    }
    picture.line(p(360.0, y + 7.0), p(665.0, y + 7.0), pen(1.0, LIGHT));
    picture
}

/// The corner that a dart names: an arc from the dart before it that ends at it.
fn corner_arc(
    picture: &mut Picture,
    table: &[u16],
    at: P,
    angles: &[(Dart, f64)],
    d: Dart,
    radius: f64,
    pen: Pen,
) -> f64 {
    let before = angles.iter().find(|a| a.0 == previous(table, d)).expect("the dart before").1;
    let to = after(angles, d, before);
    picture.arrow(&arc(at, radius, before + 8.0, to - 14.0), pen);
    (before + to) / 2.0
}

pub fn corners() -> Picture {
    let dome = made(&edits(DOME));
    let one = made(&[add(0), add(4), insert(0, lone(0), lone(4), 0)]);
    let isolated = made(&[add(7)]);
    let mut picture = Picture::new(
        780.0,
        350.0,
        "Corners and their names",
        &format!(
            "A corner has the number of the end at which it stops, counterclockwise. Left: pole 2 of the dome has {} ends and as many \
             corners. Middle: a pole with one end has one corner, all the way round. Right: a pole without strips has one corner, named \
             {VERTEX_CORNER} plus its number.",
            around(&dome, vertex_word(&dome, 2)).len()
        ),
    );
    let arcs = pen(1.8, BLACK);
    let centre = p(160.0, 160.0);
    picture.text(p(160.0, 26.0), Anchor::Middle, 15.0, "Pole 2 of the dome");
    let angles = even(&dome, vertex_word(&dome, 2), 0.0);
    for &(d, degrees) in &angles {
        dart(&mut picture, centre, degrees, 90.0, d, DART);
    }
    for &(d, _) in &angles {
        let middle = corner_arc(&mut picture, &dome, centre, &angles, d, 50.0, arcs);
        picture.label(polar(centre, 86.0, middle), 13.0, &format!("corner {d}"));
    }
    pole(&mut picture, centre, 2);
    for (i, &(d, _)) in angles.iter().enumerate() {
        let words = format!("corner {d} lies between {} and {d}", previous(&dome, d));
        picture.text(p(160.0, 290.0 + 20.0 * i as f64), Anchor::Middle, 13.0, &words);
    }

    let centre = p(440.0, 160.0);
    picture.text(p(440.0, 26.0), Anchor::Middle, 15.0, "A pole with one end");
    let d = vertex_word(&one, 4);
    let angles = even(&one, d, 0.0);
    dart(&mut picture, centre, 0.0, 80.0, d, DART);
    let middle = corner_arc(&mut picture, &one, centre, &angles, d, 46.0, arcs);
    picture.label(polar(centre, 86.0, middle), 13.0, &format!("corner {d}"));
    pole(&mut picture, centre, 4);
    picture.text(p(440.0, 290.0), Anchor::Middle, 13.0, &format!("corner {d} goes all the way"));
    picture.text(p(440.0, 310.0), Anchor::Middle, 13.0, &format!("from {} round to {d}", previous(&one, d)));

    let centre = p(660.0, 160.0);
    picture.text(p(660.0, 26.0), Anchor::Middle, 15.0, "A pole without strips");
    let v = isolated_vertices(&isolated).next().expect("a pole without strips");
    picture.path(&arc(centre, 46.0, 0.0, 360.0), arcs.dashed("6 4"));
    pole(&mut picture, centre, v);
    picture.label(centre - p(0.0, 64.0), 13.0, &format!("corner {}", lone(v)));
    picture.text(p(660.0, 290.0), Anchor::Middle, 13.0, &format!("pole {v} has one corner,"));
    picture.text(p(660.0, 310.0), Anchor::Middle, 13.0, &format!("named {VERTEX_CORNER} + {v} = {}", lone(v)));
    picture
}

pub fn placing() -> Picture {
    let start = [add(0), add(1), add(2), add(3), add(4)];
    let three = [insert(0, lone(0), lone(1), 0), insert(1, 0, lone(2), 0), insert(2, 0, lone(3), 0)];
    let base: Vec<_> = start.into_iter().chain(three).collect();
    let with = |c1: u16, c2: u16| made(&base.iter().copied().chain([insert(3, c1, c2, 0)]).collect::<Vec<_>>());
    let named = 2;
    let order = |table: &[u16]| around(table, 0).iter().map(|d| d.to_string()).collect::<Vec<_>>().join(", ");
    let (before, one, both) = (made(&base), with(named, lone(4)), with(named, named));
    let mut picture = Picture::new(
        790.0,
        355.0,
        "Where a new strip goes",
        &format!(
            "Left: a pole with the ends {}; corner {named} lies between {} and {named}. Middle: strip 3 put into corner {named} with \
             its first end alone; the order is {}. Right: both ends put into corner {named}; the order is {}.",
            order(&before),
            previous(&before, named),
            order(&one),
            order(&both)
        ),
    );
    let [first, second] = darts_of(3);
    // The old darts stay where they are; new ones share the corner evenly.
    let angles = |table: &[u16]| -> Vec<(Dart, f64)> {
        let old = even(&before, 0, 0.0);
        let new = around(table, 0).into_iter().filter(|&d| edge_of(d) == 3).count() as f64;
        let mut place = 0.0;
        let angle = |d: Dart| match old.iter().find(|a| a.0 == d) {
            Some(a) => a.1,
            None => {
                let from = old.iter().find(|a| a.0 == previous(&before, named)).expect("the old dart").1;
                place += 1.0;
                from + (after(&old, named, from) - from) * place / (new + 1.0)
            }
        };
        let darts = around(table, 0);
        let placed: Vec<f64> = darts.iter().copied().map(angle).collect();
        darts.into_iter().zip(placed).collect()
    };
    let record = |c1: u16, c2: u16| format!("IE 3 {c1} {c2} 0");
    let panels = [
        (130.0, &before, "Before".to_string(), String::new()),
        (390.0, &one, format!("One end into corner {named}"), record(named, lone(4))),
        (650.0, &both, format!("Both ends into corner {named}"), record(named, named)),
    ];
    for (x, table, title, typed) in panels {
        let centre = p(x, 190.0);
        picture.text(p(x, 26.0), Anchor::Middle, 15.0, &title);
        picture.typed(p(x, 50.0), Anchor::Middle, 14.0, &typed);
        let angles = angles(table);
        for &(d, degrees) in &angles {
            let pen = if edge_of(d) == 3 { NEW_DART } else { DART };
            dart(&mut picture, centre, degrees, 88.0, d, pen);
        }
        if typed.is_empty() {
            let middle = corner_arc(&mut picture, table, centre, &angles, named, 50.0, pen(1.8, BLACK));
            picture.label(polar(centre, 82.0, middle), 13.0, &format!("corner {named}"));
        }
        if around(table, 0).contains(&second) {
            let at = |d: Dart| angles.iter().find(|a| a.0 == d).expect("a dart of the pole").1;
            picture.path(&arc(centre, 96.0, at(first) + 4.0, at(second) - 4.0), pen(1.6, GREY).dashed("3 3"));
        }
        pole(&mut picture, centre, 0);
        picture.text(p(x, 318.0), Anchor::Middle, 14.0, &format!("counterclockwise: {}", order(table)));
    }
    picture.text(p(390.0, 340.0), Anchor::Middle, 12.0, "Thick: the ends of the new strip 3. Dotted: it is a loop.");
    picture
}
