//! Pictures of whole shells: poles on the page, strips between them, and the ribbons that run along the strips' sides.
//!
//! A shell is drawn only if its poles lie so that "next" in the table is counterclockwise on the page.

use crate::plane::{p, polar, Curve, P};
use crate::poles::pole;
use crate::strips::printed;
use crate::svg::{pen, Anchor, Pen, Picture, BLACK, GREY, LIGHT};
use crate::tables::{add, around, edits, flat, insert, lone, made, pavilion, run_lines, DOME, TENT};
use reference::counts::counts;
use reference::edit::Edit;
use reference::faces::{corner, Corner, Faces, Walk};
use reference::length::cut_length;
use reference::table::*;
use reference::trace::{corner_met, Step};
use reference::weave::{alternate, letters_along, plain, step_letters, Letter};

/// A table whose poles have places on the page.
struct Shell {
    table: Vec<u16>,
    places: Vec<P>,
}

/// Half the distance of the two sides of a strip without turns.
const HALF: f64 = 16.0;
/// How far outside a pole a ribbon passes a corner of more than half a turn, at most.
const WIDEST: f64 = 46.0;
/// In a corner that is narrower than this a ribbon swings wider, so that it has no sharp bend.
const NARROW: f64 = 50.0;
const FRAME: Pen = pen(9.0, "#e4e4e4");
const RIBBON: Pen = pen(3.2, BLACK);

impl Shell {
    fn new(table: Vec<u16>, places: Vec<P>) -> Shell {
        let shell = Shell { table, places };
        for v in live_vertices(&shell.table).filter(|&v| !vertex_is_isolated(&shell.table, v)) {
            let first = vertex_word(&shell.table, v);
            let angles: Vec<f64> = around(&shell.table, first).iter().map(|&d| shell.after(first, d)).collect();
            assert!(angles.windows(2).all(|w| w[0] < w[1]), "pole {v} is drawn as the table has it");
        }
        shell
    }

    fn pole_of(&self, d: Dart) -> P {
        self.places[leaves(&self.table, d) as usize]
    }

    /// The direction in which a dart leaves its pole.
    fn way(&self, d: Dart) -> P {
        (self.pole_of(reverse(d)) - self.pole_of(d)).unit()
    }

    /// How far counterclockwise dart d leaves after dart `from`, in degrees.
    fn after(&self, from: Dart, d: Dart) -> f64 {
        (self.way(d).angle() - self.way(from).angle()).rem_euclid(360.0)
    }

    /// The corner that a dart names: how wide it is, and the angle at its middle.
    fn corner(&self, d: Dart) -> (f64, f64) {
        let before = previous(&self.table, d);
        let wide = if before == d { 360.0 } else { self.after(before, d) };
        (wide, self.way(before).angle() + wide / 2.0)
    }

    /// Where a step passes the middle of its strip, and in which direction.
    fn middle(&self, s: Step) -> (P, P) {
        let way = self.way(s.dart);
        let middle = self.pole_of(s.dart).between(self.pole_of(reverse(s.dart)), 0.5);
        let left = s.t == 1;
        match turns(&self.table, s.edge()).abs() {
            0 => (middle + way.left() * if left { HALF } else { -HALF }, way),
            1 => (middle, way.turned(if left { -42.0 } else { 42.0 })),
            k => panic!("strips with {k} turns are not drawn in shells"),
        }
    }

    /// The way from the middle of one step's strip to the middle of the next one's, around the corner that the second meets.
    fn bend(&self, from: Step, to: Step) -> Curve {
        let ((a, out), (b, into)) = (self.middle(from), self.middle(to));
        let at = self.pole_of(to.dart);
        let (wide, middle) = self.corner(corner_met(&self.table, to));
        let toward = polar(p(0.0, 0.0), 1.0, middle);
        let farther = (a - at).length().max((b - at).length());
        let along = |q: P, way: P| -> f64 {
            let reach = (q - at).length();
            let (so_far, gain) = ((q - at).x * toward.x + (q - at).y * toward.y, way.x * toward.x + way.y * toward.y);
            if wide > 180.0 {
                ((0.36 * reach).min(WIDEST) - so_far) / (0.75 * gain)
            } else if turns(&self.table, from.edge()) == 0 {
                0.82 * (reach - HALF / crate::plane::sine(wide / 2.0))
            } else if wide < NARROW {
                (0.33 * farther).min(0.8 * reach)
            } else {
                0.42 * reach
            }
        };
        Curve([a, a + out * along(a, out), b - into * along(b, -into), b])
    }

    fn under(&self, s: Step) -> bool {
        step_letters(&self.table, s).contains(&Letter::U)
    }

    /// The bends of a walk; bend i leads from step i to the one after it.
    fn bends(&self, steps: &[Step]) -> Vec<(Curve, Step, Step)> {
        let n = steps.len();
        (0..n).map(|i| (steps[i], steps[(i + 1) % n])).map(|(a, b)| (self.bend(a, b), a, b)).collect()
    }

    /// A ribbon, broken where it goes under, with an arrow's head in each bend.
    fn ribbon(&self, picture: &mut Picture, steps: &[Step], pen: Pen) {
        const GAP: f64 = 9.0;
        let gap = |s: Step| if self.under(s) { GAP } else { 0.0 };
        let mut piece: Vec<P> = Vec::new();
        let mut pieces: Vec<Vec<P>> = Vec::new();
        for (bend, a, b) in self.bends(steps) {
            if self.under(a) && !piece.is_empty() {
                pieces.push(std::mem::take(&mut piece));
            }
            piece.extend(bend.points(gap(a), gap(b)));
        }
        pieces.push(piece);
        // A walk that begins over: its last piece runs on into its first.
        if pieces.len() > 1 && !self.under(steps[0]) {
            let last = pieces.pop().expect("a piece");
            pieces[0].splice(0..0, last);
        }
        for piece in &pieces {
            picture.path(piece, pen);
        }
        for (bend, _, _) in self.bends(steps) {
            picture.head(bend.at(0.5), bend.heading(0.5), pen.width.min(3.2), pen.colour);
        }
    }

    fn frame(&self, picture: &mut Picture) {
        for e in live_edges(&self.table) {
            let [a, b] = darts_of(e).map(|d| self.pole_of(d));
            picture.line(a, b, FRAME);
        }
    }

    fn poles(&self, picture: &mut Picture) {
        for v in live_vertices(&self.table) {
            pole(picture, self.places[v as usize], v);
        }
    }

    /// Where a step's number stands: in the corner that it meets, between the pole and the ribbon, or outside if it is wide.
    fn corner_place(&self, from: Step, to: Step) -> P {
        let at = self.pole_of(to.dart);
        let (wide, middle) = self.corner(corner_met(&self.table, to));
        let reach = (self.bend(from, to).at(0.5) - at).length();
        polar(at, if wide > 180.0 { reach + 15.0 } else { reach * 0.5 + 8.0 }, middle)
    }

    /// The steps' numbers from 1 in their corners.
    fn numbers(&self, picture: &mut Picture, steps: &[Step]) {
        for (i, (_, from, to)) in self.bends(steps).into_iter().enumerate() {
            let number = (i + 1) % steps.len() + 1;
            picture.label(self.corner_place(from, to), 12.0, &number.to_string());
        }
    }
}

fn ribbons(table: &[u16]) -> Vec<Vec<Step>> {
    let walks = Faces::of(table).walks;
    let steps = |walk: &Walk| walk.steps().to_vec();
    walks.iter().map(steps).filter(|steps| !steps.is_empty()).collect()
}

/// Poles on a circle, counterclockwise from the top, around a first one in its centre.
fn wheel(centre: P, radius: f64, rim: usize) -> Vec<P> {
    let around = (0..rim).map(|i| polar(centre, radius, 90.0 + 360.0 * i as f64 / rim as f64));
    [centre].into_iter().chain(around).collect()
}

/// The steps of a walk as the job program prints them, numbered, in so many columns.
fn fields(picture: &mut Picture, table: &[u16], steps: &[Step], at: P, columns: usize, pitch: f64) {
    for (i, &s) in steps.iter().enumerate() {
        let q = at + p(pitch * (i % columns) as f64, 21.0 * (i / columns) as f64);
        picture.text(q, Anchor::End, 11.0, &(i + 1).to_string());
        picture.typed(q + p(6.0, 0.0), Anchor::Start, 13.0, &printed(table, s));
    }
}

/// "plain" or "mixed".
fn weave(table: &[u16]) -> &'static str {
    match plain(table).expect("a good table") {
        true => "plain",
        false => "mixed",
    }
}

/// The mesh line of a report and its first part's letter: "6 poles - 10 strips + 6 walks = 2, o".
fn sum(table: &[u16]) -> String {
    let c = counts(table).expect("a good table");
    let letter = if c.parts[0].orientable { 'o' } else { 'n' };
    let (poles, strips, walks) = (many(c.vertices, "pole"), many(c.edges, "strip"), many(c.faces, "walk"));
    format!("{poles} - {strips} + {walks} = {}, {letter}", c.euler())
}

fn many(n: usize, what: &str) -> String {
    format!("{n} {what}{}", if n == 1 { "" } else { "s" })
}

/// What a shell with one part becomes when every walk is closed by a panel.
fn shape(table: &[u16]) -> &'static str {
    let part = &counts(table).expect("a good table").parts[0];
    match (part.orientable, part.euler()) {
        (true, 2) => "closes as a ball",
        (true, 0) => "closes as a ring",
        (true, _) => "closes, with several holes through it",
        (false, _) => "one-sided: cannot close in space",
    }
}

pub fn dome_ends() -> Picture {
    let shell = Shell::new(made(&edits(DOME)), wheel(p(330.0, 290.0), 250.0, 5));
    let mut picture = Picture::new(
        660.0,
        570.0,
        "The dome's poles, strips and ends",
        "The dome of examples/dome.txt: pole 0 in the middle, poles 1 to 5 counterclockwise around it, ten strips. Each strip has \
         its number in a box at its middle, and the numbers of its two ends at the poles.",
    );
    shell.frame(&mut picture);
    for e in live_edges(&shell.table) {
        let [a, b] = darts_of(e);
        let middle = shell.pole_of(a).between(shell.pole_of(b), 0.5);
        picture.frame(middle - p(13.0, 11.0), 26.0, 22.0, "#fff", pen(1.0, GREY));
        picture.label(middle, 13.0, &e.to_string());
        for d in [a, b] {
            let (from, way) = (shell.pole_of(d), shell.way(d));
            picture.arrow(&[from + way * 16.0, from + way * 58.0], pen(2.0, BLACK));
            picture.bold_label(from + way * 44.0 - way.left() * 15.0, 13.0, &d.to_string());
        }
    }
    shell.poles(&mut picture);
    picture.text(
        p(330.0, 552.0),
        Anchor::Middle,
        13.0,
        "in boxes: strips; by the arrows: ends, on the side of the corner of that number",
    );
    picture
}

/// The dome drawn with its pole 0 at a point, its ribbons, and what a picture of it says.
fn woven_dome(centre: P, radius: f64) -> (Shell, Vec<Vec<Step>>, String) {
    let shell = Shell::new(made(&edits(DOME)), wheel(centre, radius, 5));
    let walks = ribbons(&shell.table);
    for e in live_edges(&shell.table) {
        let [a, b] = Faces::of(&shell.table).sides(e).map(|side| step_letters(&shell.table, side.step));
        assert!(a.len() == 1 && b.len() == 1 && a != b, "strip {e} is passed once over and once under");
    }
    let about = format!(
        "The dome of examples/dome.txt is woven of {} ribbon of {} steps. It passes every strip twice, once over and once under; \
         where it goes under it is drawn broken.",
        walks.len(),
        walks[0].len()
    );
    (shell, walks, about)
}

/// "1 ribbon, 20 steps, weave plain"
fn weave_words(table: &[u16], walks: &[Vec<Step>]) -> String {
    format!("{} ribbon, {} steps, weave {}", walks.len(), walks[0].len(), weave(table))
}

/// The dome as the README shows it, at two thirds of its size.
pub fn dome() -> Picture {
    let (shell, walks, about) = woven_dome(p(255.0, 243.0), 170.0);
    let mut picture = Picture::new(510.0, 505.0, "The dome and its ribbon", &about);
    shell.frame(&mut picture);
    for steps in &walks {
        shell.ribbon(&mut picture, steps, RIBBON);
    }
    shell.poles(&mut picture);
    picture.text(p(255.0, 488.0), Anchor::Middle, 20.0, &weave_words(&shell.table, &walks));
    picture
}

pub fn dome_steps() -> Picture {
    let (shell, walks, about) = woven_dome(p(330.0, 305.0), 215.0);
    let about = about + " The steps are numbered in the order of travel, and listed as the report has them.";
    let mut picture = Picture::new(660.0, 705.0, "The dome's ribbon, step by step", &about);
    shell.frame(&mut picture);
    for steps in &walks {
        shell.ribbon(&mut picture, steps, RIBBON);
        shell.numbers(&mut picture, steps);
        fields(&mut picture, &shell.table, steps, p(50.0, 632.0), 7, 88.0);
    }
    shell.poles(&mut picture);
    picture.text(p(330.0, 604.0), Anchor::Middle, 14.0, &weave_words(&shell.table, &walks));
    picture
}

pub fn closing() -> Picture {
    let shell = Shell::new(made(&flat(&edits(DOME))), wheel(p(230.0, 240.0), 165.0, 5));
    let walks = ribbons(&shell.table);
    let mut picture = Picture::new(
        760.0,
        500.0,
        "The dome's frame without turns, and small shells that do and do not close",
        &format!(
            "Left: the dome with no turns has {} walks, one around each opening and one around the rim. Right: five small shells with \
             poles - strips + walks, and whether they are orientable.",
            walks.len()
        ),
    );
    picture.text(p(230.0, 26.0), Anchor::Middle, 15.0, "The dome's frame, without turns");
    shell.frame(&mut picture);
    for (i, steps) in walks.iter().enumerate() {
        shell.ribbon(&mut picture, steps, pen(2.0, BLACK));
        let bends = shell.bends(steps);
        let rim = bends.iter().any(|(_, _, to)| shell.corner(corner_met(&shell.table, *to)).0 > 180.0);
        let middle = bends.iter().fold(p(0.0, 0.0), |q, (bend, _, _)| q + bend.at(0.0) * (1.0 / bends.len() as f64));
        let place = if rim { p(70.0, 100.0) } else { middle };
        picture.label(place, 13.0, &format!("walk {i}"));
    }
    shell.poles(&mut picture);
    picture.text(p(230.0, 455.0), Anchor::Middle, 14.0, &sum(&shell.table));
    picture.text(p(230.0, 477.0), Anchor::Middle, 14.0, shape(&shell.table));

    let loop_of = |k: i16| vec![add(0), insert(0, lone(0), lone(0), k)];
    let two = |k1: i16, k2: i16| [loop_of(k1), vec![insert(1, 0, 1, k2)]].concat();
    let small = [
        ("two poles, one strip", made(&[add(0), add(1), insert(0, lone(0), lone(1), 0)])),
        ("a loop, 0 turns", made(&loop_of(0))),
        ("a loop, 1 turn", made(&loop_of(1))),
        ("two crossed loops, 0 and 0 turns", made(&two(0, 0))),
        ("two crossed loops, 1 and 0 turns", made(&two(1, 0))),
    ];
    picture.text(p(600.0, 26.0), Anchor::Middle, 15.0, "Small shells");
    for (i, (name, table)) in small.iter().enumerate() {
        let y = 66.0 + 80.0 * i as f64;
        picture.bold(p(470.0, y), Anchor::Start, 13.0, name);
        picture.text(p(470.0, y + 20.0), Anchor::Start, 13.0, &sum(table));
        picture.text(p(470.0, y + 40.0), Anchor::Start, 13.0, shape(table));
        picture.line(p(470.0, y + 54.0), p(740.0, y + 54.0), pen(1.0, LIGHT));
    }
    picture
}

/// The poles that a declined insertion was to join, as its corner words name them.
fn missing_ends(table: &[u16], record: usize) -> [Vertex; 2] {
    let Edit::InsertEdge { c1, c2, .. } = edits(TENT)[record - 1] else { panic!("the record inserts an edge") };
    [c1, c2].map(|c| match corner(c).expect("not malformed") {
        Corner::Before(d) => leaves(table, d),
        Corner::Around(v) => v,
    })
}

pub fn tent() -> Picture {
    let (table, declined) = run_lines(TENT);
    let shell = Shell::new(table, wheel(p(330.0, 290.0), 205.0, 4));
    let walks = ribbons(&shell.table);
    let steps = &walks[0];
    let n = steps.len();
    let letters = letters_along(&shell.table, steps);
    // Every strip of the tent has one turn, of either hand, so letter i is step i's.
    assert!(n == letters.len() && !alternate(&letters));
    let odd = |i: usize| letters[i] == letters[(i + n - 1) % n] && letters[i] == letters[(i + 1) % n];
    let found: Vec<usize> = (0..n).filter(|&i| odd(i)).collect();
    let strip = steps[found[0]].edge();
    assert!(found.iter().all(|&i| steps[i].edge() == strip));
    let records: Vec<String> = declined.iter().map(|(record, number)| format!("no {record} {number}")).collect();
    let mut picture = Picture::new(
        660.0,
        650.0,
        "The tent with two mistakes",
        &format!(
            "The tent of examples/tent.txt. A strip along the rim is missing, because its record was declined ({}). The weave is {}: \
             three letters in a row are equal at steps {}, and the middle one of each three is on strip {strip}, which is turned the \
             other way.",
            records.join(", "),
            weave(&shell.table),
            found.iter().map(|i| (i + 1).to_string()).collect::<Vec<_>>().join(" and ")
        ),
    );
    shell.frame(&mut picture);
    let [a, b] = darts_of(strip).map(|d| shell.pole_of(d));
    picture.line(a, b, pen(26.0, LIGHT));
    shell.ribbon(&mut picture, steps, RIBBON);
    shell.numbers(&mut picture, steps);
    shell.poles(&mut picture);
    let way = (a.between(b, 0.5) - shell.places[0]).unit();
    let note = a.between(b, 0.5) + way * 62.0;
    picture.label(note - p(0.0, 9.0), 13.0, &format!("strip {strip}:"));
    picture.label(note + p(0.0, 9.0), 13.0, &format!("{} turn", turns(&shell.table, strip)));
    let [from, to] = missing_ends(&shell.table, declined[0].0).map(|v| shell.places[v as usize]);
    let missing = from.between(to, 0.5);
    picture.line(from, to, pen(1.4, GREY).dashed("3 5"));
    let out = missing + (missing - shell.places[0]).unit() * 52.0;
    picture.label(out - p(0.0, 9.0), 13.0, "no strip:");
    picture.typed(out + p(0.0, 14.0), Anchor::Middle, 13.0, &records.join(" "));
    picture.text(p(330.0, 578.0), Anchor::Middle, 14.0, &weave_words(&shell.table, &walks));
    for &i in &found {
        let q = p(50.0 + 88.0 * (i % 7) as f64, 608.0 + 21.0 * (i / 7) as f64);
        picture.frame(q + p(3.0, -14.0), 62.0, 19.0, "#e4e4e4", pen(1.0, BLACK));
    }
    fields(&mut picture, &shell.table, steps, p(50.0, 608.0), 7, 88.0);
    picture
}

/// The colours by which ribbons are told apart: four of Okabe and Ito's, which the colour-blind tell apart too, and which differ
/// in lightness when they are printed in grey.
const COLOURS: [(&str, &str); 4] =
    [("black", BLACK), ("blue", "#0072b2"), ("orange", "#e69f00"), ("purple", "#cc79a7")];

pub fn pavilion_ribbons() -> Picture {
    let centre = p(300.0, 300.0);
    let square = |radius: f64| (0..4).map(move |i| polar(centre, radius, 225.0 - 90.0 * i as f64));
    let shell = Shell::new(pavilion(), square(270.0).chain(square(105.0)).collect());
    let walks = ribbons(&shell.table);
    let inks: Vec<(&str, Pen)> = COLOURS.iter().map(|&(name, colour)| (name, pen(4.6, colour))).collect();
    assert_eq!(walks.len(), inks.len());
    let mut picture = Picture::new(
        880.0,
        600.0,
        "The pavilion and its ribbons",
        &format!(
            "The pavilion of examples/host.c seen from above: poles 0 to 3 below, drawn outside, poles 4 to 7 above them, drawn inside. \
             Its {} ribbons have a colour each, and are drawn broken where they go under; each goes over and under in turn.",
            walks.len()
        ),
    );
    shell.frame(&mut picture);
    for (steps, &(_, pen)) in walks.iter().zip(&inks) {
        shell.ribbon(&mut picture, steps, pen);
    }
    shell.poles(&mut picture);
    for (i, (steps, &(name, pen))) in walks.iter().zip(&inks).enumerate() {
        let outside = |to: Step| shell.corner(corner_met(&shell.table, to)).0 > 180.0;
        for (bend, _, to) in shell.bends(steps).into_iter().filter(|&(_, _, to)| outside(to)) {
            let at = bend.at(0.5);
            picture.label(at + (at - shell.pole_of(to.dart)).unit() * 40.0, 13.0, &format!("ribbon {i}"));
        }
        let y = 150.0 + 92.0 * i as f64;
        picture.line(p(630.0, y - 5.0), p(690.0, y - 5.0), pen);
        picture.bold(p(702.0, y), Anchor::Start, 14.0, &format!("ribbon {i}, {name}"));
        let length = cut_length(&shell.table, steps[0].dart, steps[0].t as u16).expect("a ribbon");
        let words = format!("{} steps, {}.{:04} mm", steps.len(), length / 16, length % 16 * 625);
        picture.text(p(630.0, y + 22.0), Anchor::Start, 13.0, &words);
        let strips: Vec<String> = steps.iter().map(|s| s.edge().to_string()).collect();
        picture.text(p(630.0, y + 42.0), Anchor::Start, 13.0, &format!("strips {}", strips.join(" ")));
    }
    picture.text(
        p(630.0, 90.0),
        Anchor::Start,
        14.0,
        &format!("{} ribbons, weave {}", walks.len(), weave(&shell.table)),
    );
    picture
}
