//! Pictures for hosts: the table's six kinds of words, and the points of a float path and of a whole one.

use crate::plane::{p, P};
use crate::poles::pole;
use crate::strips::printed;
use crate::svg::{pen, Anchor, Picture, BLACK, GREY, LIGHT};
use crate::tables::{add, insert, insert_long, lone, made};
use reference::path::{float_path, LIFTS, POINTS};
use reference::table::*;
use reference::trace::{step, walk_from};
use reference::whole::{pieces_of, whole_path, Outputs};

/// A kind of word: where it begins, how many there are, and what they say.
const KINDS: [(usize, usize, &str); 6] = [
    (NEXT, DARTS, "for each dart, the next one"),
    (PREVIOUS, DARTS, "for each dart, the previous one"),
    (LEAVES, DARTS, "for each dart, the vertex it leaves"),
    (TURNS, EDGES, "for each edge, 0 or its turns plus 100"),
    (VERTEX, VERTICES, "for each vertex, its smallest dart"),
    (LENGTH, EDGES, "for each edge, 0 or its length"),
];

/// The length of the table's edge, in sixteenths of a millimetre.
const STRIP: u16 = 600 * 16;

pub fn table() -> Picture {
    let table = made(&[add(0), add(1), insert_long(0, lone(0), lone(1), 1, STRIP)]);
    let empty = empty_mesh();
    let mut picture = Picture::new(
        900.0,
        560.0,
        "The table, word by word",
        &format!(
            "Left: the {WORDS} words of a table, in six kinds, each with the word where it begins. Right: every word \
             that differs from the empty mesh, for two vertices joined by one edge with one turn, {} mm long.",
            STRIP / 16
        ),
    );
    // The whole table as a column, each kind as high as it is long.
    let (top, scale) = (60.0, 460.0 / WORDS as f64);
    picture.text(p(190.0, 30.0), Anchor::Middle, 15.0, &format!("{WORDS} words, six kinds"));
    let shades = ["#f4f4f4", "#e4e4e4"];
    for ((begin, count, what), shade) in KINDS.into_iter().zip(shades.into_iter().cycle()) {
        let y = top + scale * begin as f64;
        let high = scale * count as f64;
        picture.frame(p(70.0, y), 290.0, high, shade, pen(1.2, BLACK));
        picture.typed(p(62.0, y + 12.0), Anchor::End, 13.0, &begin.to_string());
        picture.text(p(215.0, y + high / 2.0 + 5.0), Anchor::Middle, 13.0, what);
    }
    picture.typed(p(62.0, top + scale * WORDS as f64 + 5.0), Anchor::End, 13.0, &WORDS.to_string());

    picture.text(p(655.0, 30.0), Anchor::Middle, 15.0, "Two vertices, one edge with one turn");
    let (a, b) = (p(545.0, 76.0), p(765.0, 76.0));
    picture.line(a, b, pen(9.0, "#e4e4e4"));
    for d in darts_of(0) {
        let (at, to) = if d == 0 { (a, b) } else { (b, a) };
        let way = (to - at).unit();
        picture.arrow(&[at + way * 16.0, at + way * 62.0], pen(2.0, BLACK));
        picture.bold_label(at + way * 42.0 - p(0.0, 16.0), 13.0, &d.to_string());
        pole(&mut picture, at, leaves(&table, d));
    }
    picture.label(a.between(b, 0.5) - p(0.0, 16.0), 12.0, &format!("edge 0, {} turn", turns(&table, 0)));

    let columns = [p(480.0, 0.0), p(560.0, 0.0), p(580.0, 0.0)];
    let mut y = 136.0;
    let header = [("word", Anchor::End), ("holds", Anchor::End), ("which says", Anchor::Start)];
    for (at, (words, anchor)) in columns.into_iter().zip(header) {
        picture.bold(at + p(0.0, y), anchor, 13.0, words);
    }
    picture.line(p(430.0, y + 8.0), p(880.0, y + 8.0), pen(1.2, GREY));
    for (i, (begin, count, _)) in KINDS.into_iter().enumerate() {
        for name in 0..count {
            let word = table[begin + name];
            if word == empty[begin + name] {
                continue;
            }
            y += 27.0;
            picture.typed(columns[0] + p(0.0, y), Anchor::End, 14.0, &(begin + name).to_string());
            picture.typed(columns[1] + p(0.0, y), Anchor::End, 14.0, &word.to_string());
            picture.text(columns[2] + p(0.0, y), Anchor::Start, 13.0, &says(i, name, word));
        }
        y += 6.0;
        picture.line(p(430.0, y + 5.0), p(880.0, y + 5.0), pen(1.0, LIGHT));
    }
    y += 34.0;
    let none = empty[NEXT];
    assert!(empty[..TURNS].iter().chain(&empty[VERTEX..LENGTH]).all(|&word| word == none));
    assert!(empty[TURNS..VERTEX].iter().chain(&empty[LENGTH..]).all(|&word| word == NO_EDGE));
    picture.text(
        p(430.0, y),
        Anchor::Start,
        13.0,
        &format!("Every other word of an edge is {NO_EDGE}, and every other word"),
    );
    picture.text(
        p(430.0, y + 20.0),
        Anchor::Start,
        13.0,
        &format!("of a dart or a vertex {none}: not live. An isolated vertex"),
    );
    picture.text(p(430.0, y + 40.0), Anchor::Start, 13.0, &format!("that is live has {ISOLATED}."));
    picture
}

fn says(kind: usize, name: usize, word: u16) -> String {
    match kind {
        0 => format!("the next dart after {name} is {word}"),
        1 => format!("the dart previous to {name} is {word}"),
        2 => format!("dart {name} leaves vertex {word}"),
        3 => format!("edge {name} is live, with {word} - {TURNS_PLUS} = {} turn", word as i32 - TURNS_PLUS),
        4 => format!("vertex {name} is live; its smallest dart is {word}"),
        _ => format!("edge {name} is {word} / 16 = {} mm long", word / 16),
    }
}

/// Sixteenths of a millimetre on the page, seen from the side: x to the right, z upward.
fn page(x: f64, z: f64) -> P {
    p(60.0 + x / 9_600.0 * 420.0, 300.0 - z / 9_600.0 * 420.0)
}

/// Where pole v is on the page.
fn end(points: &[i32], v: usize) -> P {
    page(points[3 * v] as f64, points[3 * v + 2] as f64)
}

/// Three words in millimetres.
fn millimetres(words: &[i32]) -> String {
    let each = words[..3].iter().map(|w| (w / 16).to_string()).collect::<Vec<_>>().join(", ");
    format!("({each}) mm")
}

/// Both poles with their places, that of the second so far aside, and the strip's lift.
fn draw_what_is_lent(picture: &mut Picture, points: &[i32], lifts: &[i32], aside: f64) {
    for (v, aside) in [(0, 0.0), (1, aside)] {
        pole(picture, end(points, v), v as Vertex);
        picture.text(end(points, v) + p(aside, 34.0), Anchor::Middle, 12.0, &millimetres(&points[3 * v..]));
    }
    picture.text(p(520.0, 96.0), Anchor::Start, 13.0, "lift of the strip:");
    picture.text(p(520.0, 116.0), Anchor::Start, 13.0, &millimetres(lifts));
}

pub fn path() -> Picture {
    let table = made(&[add(0), add(1), insert(0, lone(0), lone(1), 1)]);
    let (mut points, mut lifts) = (vec![0; POINTS], vec![0; LIFTS]);
    // In sixteenths of a millimetre: the ends lie 600 mm apart, one 160 mm above the other; the lift is 25 mm upward.
    points[..6].copy_from_slice(&[0, 0, 1_600, 9_600, 0, 4_160]);
    lifts[2] = 400;
    let walk = walk_from(&table, step(0, 0));
    let pieces = walk.len() + 1;
    let (mut words, mut floats) = (vec![0; pieces], vec![0.0; 3 * pieces]);
    float_path(&table, 0, 0, &points, &lifts, &mut words, &mut floats).expect("a path");
    let mut picture = Picture::new(
        760.0,
        430.0,
        "The pieces of a float path",
        &format!(
            "A strip with one turn between two poles, seen from the side. Its ribbon has {} steps. The step that goes over has its \
             point above the middle of the strip by the lift, the step that goes under has it below by as much; the last piece is \
             Close.",
            walk.len()
        ),
    );
    let names = ["Flat", "Over", "Under", "Close"];
    let at = |i: usize| page(16.0 * floats[3 * i] as f64, 16.0 * floats[3 * i + 2] as f64);
    picture.text(p(270.0, 30.0), Anchor::Middle, 15.0, "A strip with one turn, seen from the side");
    let end = |v: usize| end(&points, v);
    picture.line(end(0), end(1), pen(9.0, "#e4e4e4"));
    let middle = end(0).between(end(1), 0.5);
    for (i, s) in walk.iter().enumerate() {
        picture.line(middle, at(i), pen(1.4, GREY).dashed("3 3"));
        picture.path(
            &[end(leaves(&table, s.dart) as usize), at(i), end(leaves(&table, reverse(s.dart)) as usize)],
            pen(1.6, BLACK),
        );
        picture.disc(at(i), 5.0, BLACK, pen(0.0, BLACK));
        let side = if words[i] == 1 { p(-30.0, -16.0) } else { p(40.0, 18.0) };
        picture.bold_label(at(i) + side, 14.0, names[words[i] as usize]);
    }
    draw_what_is_lent(&mut picture, &points, &lifts, 0.0);
    let columns = [p(60.0, 0.0), p(190.0, 0.0), p(330.0, 0.0)];
    for (at, words) in columns.into_iter().zip(["step", "kinds[i]", "coords[3i], coords[3i+1], coords[3i+2]"]) {
        picture.bold(at + p(0.0, 340.0), Anchor::Start, 13.0, words);
    }
    for i in 0..pieces {
        let y = 364.0 + 22.0 * i as f64;
        let name = walk.get(i).map_or(String::new(), |&s| printed(&table, s));
        let coords = floats[3 * i..3 * i + 3].iter().map(|c| format!("{c:.3}")).collect::<Vec<_>>().join(", ");
        picture.typed(columns[0] + p(0.0, y), Anchor::Start, 13.0, &name);
        picture.typed(
            columns[1] + p(0.0, y),
            Anchor::Start,
            13.0,
            &format!("{} {}", words[i], names[words[i] as usize]),
        );
        picture.typed(columns[2] + p(0.0, y), Anchor::Start, 13.0, &coords);
    }
    picture
}

/// A strip with three turns, and the pieces of its whole path: every crossing is passed once over and once under.
pub fn rope() -> Picture {
    const ON_IT: i16 = 3;
    let table = made(&[add(0), add(1), insert(0, lone(0), lone(1), ON_IT)]);
    let (mut points, mut lifts) = (vec![0; POINTS], vec![0; LIFTS]);
    // In sixteenths of a millimetre: the ends lie 601 mm apart, one 160 mm above the other; the lift is 25 mm upward.
    points[..6].copy_from_slice(&[0, 0, 1_600, 9_616, 0, 4_160]);
    lifts[2] = 400;
    let walk = walk_from(&table, step(0, 0));
    let pieces = pieces_of(&table, &walk);
    let (mut kinds, mut coords, mut remainders) = (vec![0; pieces], vec![0; 3 * pieces], vec![0; 3 * pieces]);
    let out = Outputs { kinds: &mut kinds, coords: &mut coords, remainders: &mut remainders };
    whole_path(&table, 0, 0, &points, &lifts, out).expect("a path");
    let mut picture = Picture::new(
        760.0,
        520.0,
        "The pieces of a whole path",
        "A strip with three turns between two poles, seen from the side. Its crossings lie a sixth of the way along, halfway and \
         five sixths. Its ribbon goes along and comes back, so each crossing has a point above by the lift and one below by as \
         much, numbered in the order of travel; the last piece is Close.",
    );
    picture.text(p(270.0, 30.0), Anchor::Middle, 15.0, "A strip with three turns, seen from the side");
    let end = |v: usize| end(&points, v);
    picture.line(end(0), end(1), pen(9.0, "#e4e4e4"));
    let exact = |at: usize| f64::from(coords[at]) + f64::from(remainders[at]) / f64::from(2 * ON_IT);
    let at = |i: usize| page(exact(3 * i), exact(3 * i + 2));
    let along = ON_IT as usize;
    for i in 0..along {
        picture.line(at(i), at(2 * along - 1 - i), pen(1.4, GREY).dashed("3 3"));
    }
    for (from, met, to) in [(0, 0..along, 1), (1, along..2 * along, 0)] {
        let line: Vec<P> = [end(from)].into_iter().chain(met.map(at)).chain([end(to)]).collect();
        picture.path(&line, pen(1.6, BLACK));
    }
    for i in 0..2 * along {
        picture.disc(at(i), 5.0, BLACK, pen(0.0, BLACK));
        let side = if kinds[i] == 1 { p(0.0, -16.0) } else { p(0.0, 18.0) };
        picture.bold_label(at(i) + side, 14.0, &i.to_string());
    }
    draw_what_is_lent(&mut picture, &points, &lifts, 30.0);
    let columns = [p(40.0, 0.0), p(80.0, 0.0), p(190.0, 0.0), p(300.0, 0.0), p(520.0, 0.0)];
    let heads = ["i", "step", "kinds[i]", "coords[3i] to coords[3i+2]", "remainders, of 6"];
    for (at, words) in columns.into_iter().zip(heads) {
        picture.bold(at + p(0.0, 340.0), Anchor::Start, 13.0, words);
    }
    for i in 0..pieces {
        let step = if i % along == 0 { walk.get(i / along) } else { None };
        let cells = [
            i.to_string(),
            step.map_or(String::new(), |&s| printed(&table, s)),
            format!("{} {}", kinds[i], ["Flat", "Over", "Under", "Close"][kinds[i] as usize]),
            coords[3 * i..3 * i + 3].iter().map(i32::to_string).collect::<Vec<_>>().join(", "),
            remainders[3 * i..3 * i + 3].iter().map(u16::to_string).collect::<Vec<_>>().join(", "),
        ];
        for (at, words) in columns.into_iter().zip(cells) {
            picture.typed(at + p(0.0, 364.0 + 22.0 * i as f64), Anchor::Start, 13.0, &words);
        }
    }
    picture
}
