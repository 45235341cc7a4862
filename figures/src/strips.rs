//! Pictures of strips with their two sides: turns, letters, single steps, and the loop that was cut at half its length.

use crate::plane::{arc, direction, p, polar, sine, P};
use crate::poles::pole;
use crate::svg::{pen, Anchor, Pen, Picture, BLACK, GREY, LIGHT};
use crate::tables::{add, insert, insert_long, lone, made};
use reference::length::{cut_length, LAP, PER_OVER};
use reference::table::*;
use reference::trace::{corner_met, step, step_after, walk_from, Step};
use reference::weave::{count, letters_along, step_letters, Letter};

const BAND: &str = "#e8e8e8";
const BOLD: Pen = pen(3.4, BLACK);
const THIN: Pen = pen(1.6, GREY);

/// A strip laid out on the page: `at(x, left)` is the point x along it from its first end, and so far to the left of one who
/// comes from there.
struct Strip<'a> {
    length: f64,
    /// How far from either end the turns begin.
    lead: f64,
    /// Half the distance of the two sides.
    half: f64,
    at: &'a dyn Fn(f64, f64) -> P,
}

/// One side of a strip as a step travels it: in pieces, broken where it goes under, and the crossings with their letters.
struct Strand {
    pieces: Vec<Vec<P>>,
    crossings: Vec<(P, Letter)>,
}

const GAP: f64 = 7.0;

impl Strip<'_> {
    fn strand(&self, table: &[u16], s: Step) -> Strand {
        let letters = step_letters(table, s);
        let cell = (self.length - 2.0 * self.lead) / letters.len().max(1) as f64;
        let crossing = |i: usize| self.lead + cell * (i as f64 + 0.5);
        // With type 0 the ribbon runs on the right of one who travels along the dart, with type 1 on the left.
        let begin = if s.t == 0 { -self.half } else { self.half };
        let offset = |x: f64| {
            if letters.is_empty() {
                return begin;
            }
            let turned = ((x - self.lead) / cell).clamp(0.0, letters.len() as f64);
            let whole = turned.floor();
            let side = if whole as i64 % 2 == 0 { begin } else { -begin };
            side * sine(90.0 + 180.0 * (turned - whole))
        };
        let place = |x: f64| {
            if s.dart == darts_of(s.edge())[0] {
                (self.at)(x, offset(x))
            } else {
                (self.at)(self.length - x, -offset(x))
            }
        };
        let hidden = |x: f64| (0..letters.len()).any(|i| letters[i] == Letter::U && (x - crossing(i)).abs() < GAP);
        let pieces_long = (self.length / 1.5).ceil();
        let mut pieces = vec![Vec::new()];
        for i in 0..=pieces_long as usize {
            let x = self.length * i as f64 / pieces_long;
            match hidden(x) {
                true => pieces.push(Vec::new()),
                false => pieces.last_mut().expect("a piece").push(place(x)),
            }
        }
        pieces.retain(|piece| piece.len() > 1);
        Strand { pieces, crossings: letters.iter().enumerate().map(|(i, &l)| (place(crossing(i)), l)).collect() }
    }
}

fn put(picture: &mut Picture, strand: &Strand, pen: Pen) {
    for piece in &strand.pieces {
        picture.path(piece, pen);
    }
}

fn letter(l: Letter) -> &'static str {
    match l {
        Letter::O => "O",
        Letter::U => "U",
    }
}

/// A step as the job program prints it.
pub fn printed(table: &[u16], s: Step) -> String {
    let letters: String = step_letters(table, s).into_iter().map(letter).collect();
    format!("{}/{}:{letters}", s.dart, s.t)
}

fn one_edge(k: i16) -> Vec<u16> {
    made(&[add(0), add(1), insert(0, lone(0), lone(1), k)])
}

fn turns_words(k: i32) -> String {
    format!("{k} turn{}", if k.abs() == 1 { "" } else { "s" })
}

/// The straight strip between two poles that stand side by side.
fn straight(a: P, b: P) -> impl Fn(f64, f64) -> P {
    let way = (b - a).unit();
    move |x, left| a + way * x + way.left() * left
}

/// A straight strip of one edge, with a step on it in bold and the other side thin.
fn travelled(picture: &mut Picture, table: &[u16], a: P, b: P, s: Step) -> Strand {
    const MARGIN: f64 = 23.0;
    const CELL: f64 = 70.0;
    let way = (b - a).unit();
    let at = straight(a + way * MARGIN, b - way * MARGIN);
    let length = (b - a).length() - 2.0 * MARGIN;
    let crossings = turns(table, s.edge()).abs() as f64;
    let strip = Strip { length, lead: ((length - CELL * crossings) / 2.0).max(4.0), half: 11.0, at: &at };
    picture.line(a, b, pen(28.0, BAND));
    let (strand, other) = (strip.strand(table, s), strip.strand(table, step(s.dart, 1 - s.t)));
    put(picture, &other, THIN);
    put(picture, &strand, BOLD);
    strand
}

pub fn strips() -> Picture {
    let mut picture = Picture::new(
        800.0,
        380.0,
        "Strips and their turns",
        "Four strips between two poles, with 0, 1, 2 and -1 turns. The two sides of a strip cross once for each turn. With a \
         positive number the side that rises from lower left to upper right lies on top; with a negative one, the other.",
    );
    for (i, k) in [0, 1, 2, -1].into_iter().enumerate() {
        let y = 60.0 + 92.0 * i as f64;
        let table = one_edge(k);
        let (a, b) = (p(60.0, y), p(330.0, y));
        travelled(&mut picture, &table, a, b, step(0, 0));
        for d in darts_of(0) {
            pole(&mut picture, if d == 0 { a } else { b }, leaves(&table, d));
        }
        let letters = step_letters(&table, step(0, 0));
        let times = ["do not cross", "cross once", "cross twice"][letters.len()];
        picture.bold(p(390.0, y - 6.0), Anchor::Start, 15.0, &turns_words(turns(&table, 0)));
        let hand = if letters.first() == Some(&Letter::U) { ", the other one on top" } else { "" };
        picture.text(p(390.0, y + 16.0), Anchor::Start, 14.0, &format!("its two sides {times}{hand}"));
    }
    picture
}

pub fn crossings() -> Picture {
    let mut picture = Picture::new(
        870.0,
        400.0,
        "Crossings and their letters",
        "Strips of 1, 2 and -1 turns, each travelled from end 0 and from end 1, with type 0 and with type 1. The side that is \
         travelled is bold; O where it goes over, U where it goes under. The letters depend on the turns and on the type, and are \
         the same from both ends.",
    );
    let columns = [step(0, 0), step(0, 1), step(1, 0), step(1, 1)];
    for (c, s) in columns.into_iter().enumerate() {
        let x = 100.0 + 196.0 * c as f64;
        picture.bold(p(x + 73.0, 28.0), Anchor::Middle, 14.0, &format!("from end {}, type {}", s.dart, s.t));
        let side = if s.t == 0 { "right" } else { "left" };
        picture.text(p(x + 73.0, 48.0), Anchor::Middle, 12.0, &format!("begins on the {side}"));
    }
    for (row, k) in [1, 2, -1].into_iter().enumerate() {
        let table = one_edge(k);
        let y = 116.0 + 112.0 * row as f64;
        picture.bold(p(16.0, y + 5.0), Anchor::Start, 14.0, &turns_words(turns(&table, 0)));
        for (c, s) in columns.into_iter().enumerate() {
            let x = 100.0 + 196.0 * c as f64;
            let (a, b) = (p(x, y), p(x + 146.0, y));
            assert_eq!(step_letters(&table, s), step_letters(&table, step(reverse(s.dart), s.t)), "the hand stays");
            let strand = travelled(&mut picture, &table, a, b, s);
            let last = strand.pieces.last().expect("a piece");
            let n = last.len();
            picture.head(last[n - 1], (last[n - 1] - last[n - 2]).unit(), 3.4, BLACK);
            for d in darts_of(0) {
                pole(&mut picture, if d == 0 { a } else { b }, leaves(&table, d));
            }
            for &(at, l) in &strand.crossings {
                picture.bold_label(at - p(0.0, 26.0), 15.0, letter(l));
            }
            picture.typed(p(x + 73.0, y + 40.0), Anchor::Middle, 14.0, &printed(&table, s));
        }
    }
    picture
}

/// Two poles with three darts each; edge 0, with so many turns, joins them.
fn two_forks(k: i16) -> Vec<u16> {
    let poles: Vec<_> = (0..6).map(add).collect();
    let strips = [
        insert(0, lone(0), lone(1), k),
        insert(1, 1, lone(2), 0),
        insert(2, 1, lone(3), 0),
        insert(3, 0, lone(4), 0),
        insert(4, 0, lone(5), 0),
    ];
    made(&[poles, strips.to_vec()].concat())
}

/// The rounded way around a pole, from along one dart into another; the corner between them is on one side of the first.
fn around_pole(at: P, from: P, to: P, left: bool, half: f64, reach: f64) -> Vec<P> {
    let toward = |d: P, left: bool| if left { d.left() } else { -d.left() };
    let middle = (from + to).unit();
    let sine_of_half = (from - to).length() / 2.0;
    let apex = at + middle * (half / sine_of_half);
    let (a, b) = (at + from * reach + toward(from, left) * half, at + to * reach + toward(to, !left) * half);
    (0..=20).map(|i| i as f64 / 20.0).map(|r| a.between(apex, r).between(apex.between(b, r), r)).collect()
}

pub fn steps() -> Picture {
    let mut picture = Picture::new(
        820.0,
        565.0,
        "One step of a walk",
        "Four steps from end 0, with type 0 and type 1, along a strip without a turn and along one with a turn. Each picture says which \
         corner the step meets and which step comes next.",
    );
    for (column, k) in [0, 1].into_iter().enumerate() {
        for t in [0, 1] {
            one_step(&mut picture, p(410.0 * column as f64, 280.0 * t as f64), &two_forks(k), step(0, t));
        }
    }
    picture.line(p(410.0, 20.0), p(410.0, 540.0), pen(1.0, LIGHT));
    picture.line(p(20.0, 280.0), p(800.0, 280.0), pen(1.0, LIGHT));
    picture
}

fn one_step(picture: &mut Picture, corner: P, table: &[u16], s: Step) {
    const HALF: f64 = 16.0;
    const REACH: f64 = 40.0;
    const STUB: f64 = 82.0;
    let (a, b) = (corner + p(110.0, 128.0), corner + p(300.0, 128.0));
    let pole_of = |d: Dart| if leaves(table, d) == 0 { a } else { b };
    let angle = |d: Dart| -> f64 {
        let first = if leaves(table, d) == 0 { (0, 0.0) } else { (1, 180.0) };
        let place = crate::tables::around(table, first.0).iter().position(|&x| x == d).expect("a dart of the pole");
        first.1 + 120.0 * place as f64
    };
    let shown: Vec<Dart> = live_darts(table).filter(|&d| leaves(table, d) < 2).collect();
    picture.line(a, b, pen(2.0 * HALF + 6.0, BAND));
    for &d in &shown {
        if edge_of(d) != 0 {
            let way = direction(angle(d));
            picture.line(pole_of(d), pole_of(d) + way * STUB, pen(2.0 * HALF + 6.0, BAND));
        }
    }
    let next_step = step_after(table, s);
    let met = corner_met(table, s);
    let at = straight(a + p(REACH, 0.0), b - p(REACH, 0.0));
    let strip = Strip { length: (b - a).length() - 2.0 * REACH, lead: 16.0, half: HALF, at: &at };
    put(picture, &strip.strand(table, step(s.dart, 1 - s.t)), THIN);
    put(picture, &strip.strand(table, s), BOLD);
    // The way out of the corner that the step meets: its other dart is the one before the corner's name, or that name.
    let other = if met == s.dart { previous(table, met) } else { met };
    let mut way_out = around_pole(a, direction(angle(s.dart)), direction(angle(other)), s.t == 1, HALF, REACH);
    way_out.truncate(way_out.len() / 2 + 1);
    picture.path(&way_out, BOLD);
    picture.disc(way_out[way_out.len() - 1], 4.5, BLACK, pen(0.0, BLACK));
    let (back, on) = (direction(angle(reverse(s.dart))), direction(angle(next_step.dart)));
    let mut way_in = around_pole(b, back, on, next_step.t == 0, HALF, REACH);
    let end = way_in[way_in.len() - 1];
    way_in.push(end + on * (STUB - REACH - 4.0));
    picture.arrow(&way_in, BOLD);
    for v in [0, 1] {
        pole(picture, if v == 0 { a } else { b }, v);
    }
    for &d in &shown {
        let where_to = pole_of(d) + direction(angle(d)) * if edge_of(d) == 0 { 29.0 } else { STUB + 14.0 };
        picture.bold_label(where_to, 13.0, &d.to_string());
    }
    let k = turns(table, 0);
    picture.text(
        corner + p(205.0, 22.0),
        Anchor::Middle,
        15.0,
        &format!("step {}/{} along a strip with {}", s.dart, s.t, turns_words(k)),
    );
    let side = if s.t == 0 { "right" } else { "left" };
    let words = format!("meets corner {met}, begins on the {side}");
    picture.text(corner + p(205.0, 244.0), Anchor::Middle, 13.0, &words);
    let arrived = reverse(s.dart);
    let (rule, on) = if next_step.t == 0 {
        ("the next end after", next(table, arrived))
    } else {
        ("the end previous to", previous(table, arrived))
    };
    assert_eq!(next_step.dart, on);
    let words = format!("then {}/{}: {rule} {}", next_step.dart, next_step.t, arrived);
    picture.text(corner + p(205.0, 264.0), Anchor::Middle, 13.0, &words);
}

/// The length of the loop's strip in the picture, in sixteenths of a millimetre.
const LOOP_LENGTH: u16 = 600 * 16;

/// What the saw takes for these steps of the loop, in sixteenths of a millimetre: strip, over-allowance, lap.
fn sawn(table: &[u16], steps: &[Step]) -> [u32; 3] {
    [steps.len() as u32 * u32::from(LOOP_LENGTH), PER_OVER * count(&letters_along(table, steps), Letter::O), LAP]
}

/// Sixteenths as millimetres; nothing is rounded.
fn millimetres(sixteenths: u32) -> f64 {
    f64::from(sixteenths) / 16.0
}

/// "600 + 0.5 + 20 = 620.5 mm"
fn sum(parts: [u32; 3]) -> String {
    let [strip, allowance, lap] = parts.map(millimetres);
    format!("{strip} + {allowance} + {lap} = {} mm", millimetres(parts.iter().sum()))
}

pub fn half_length() -> Picture {
    let table = made(&[add(0), insert_long(0, lone(0), lone(0), 1, LOOP_LENGTH)]);
    let walk = walk_from(&table, step(0, 0));
    let whole = sawn(&table, &walk);
    assert_eq!(cut_length(&table, 0, 0), Ok(whole.iter().sum()), "its parts add up to the cut length");
    // The mistake: to stop at the starting dart, whatever the type.
    let stopped =
        1 + walk[1..].iter().position(|s| s.dart == walk[0].dart).expect("the dart again, with the other type");
    let half = sawn(&table, &walk[..stopped]);
    assert_eq!(2 * half[0], whole[0], "half of the strip is missing");
    let mut picture = Picture::new(
        800.0,
        482.0,
        "The ribbon that was cut at half its length",
        &format!(
            "A loop with one turn, its strip {} mm long. Left, wrong: the walk is stopped when it comes to its strip again; it is on \
             the other side, and the ribbon is cut with {} mm of strip. Right: the walk goes on to its strip and side; the ribbon has \
             {} mm of strip. With half a millimetre for the O and the lap of {} mm the saw takes {} and {} mm.",
            LOOP_LENGTH / 16,
            millimetres(half[0]),
            millimetres(whole[0]),
            millimetres(LAP),
            millimetres(half.iter().sum()),
            millimetres(whole.iter().sum())
        ),
    );
    let strip_words = format!("A loop with {}, its strip {} mm long", turns_words(turns(&table, 0)), LOOP_LENGTH / 16);
    picture.text(p(400.0, 26.0), Anchor::Middle, 15.0, &strip_words);
    let styles = [BOLD, pen(5.0, BLACK).double(2.2)];
    for (right, x) in [(false, 200.0), (true, 600.0)] {
        let (centre, radius) = (p(x, 212.0), 110.0);
        let length = 2.0 * std::f64::consts::PI * radius;
        let at = |along: f64, left: f64| polar(centre, radius - left, 270.0 + 360.0 * along / length);
        let strip = Strip { length, lead: 0.36 * length, half: 24.0, at: &at };
        picture.path(&arc(centre, radius, 0.0, 365.0), pen(58.0, BAND));
        for (i, &s) in walk.iter().enumerate().rev() {
            let strand = strip.strand(&table, s);
            let pen = if right || i < stopped { styles[i] } else { pen(1.6, GREY).dashed("2 4") };
            put(&mut picture, &strand, pen);
            if right || i < stopped {
                let middle = &strand.pieces[0];
                let n = middle.len() * (if strand.pieces.len() > 1 { 3 } else { 1 }) / 5;
                picture.head(middle[n], (middle[n + 1] - middle[n]).unit(), 4.0, BLACK);
            }
        }
        pole(&mut picture, at(0.0, 0.0), 0);
        let all = if right { &walk[..] } else { &walk[..stopped] };
        if !right {
            let strand = strip.strand(&table, walk[0]);
            let (first, last) = (strand.pieces[0][0], *strand.pieces.last().and_then(|l| l.last()).expect("its end"));
            for q in [first, last] {
                picture.disc(q, 5.0, BLACK, pen(0.0, BLACK));
            }
            picture.label(first + p(0.0, 22.0), 13.0, "begins here");
            picture.line(last - p(0.0, 8.0), last - p(0.0, 56.0), pen(1.0, GREY));
            picture.label(last - p(0.0, 84.0), 13.0, "is back at its strip,");
            picture.label(last - p(0.0, 66.0), 13.0, "but on the other side");
        }
        let (title, by, parts) = if right {
            ("Right", "closed by strip and side", whole)
        } else {
            ("Wrong", "closed by the strip alone", half)
        };
        picture.bold(p(x, 60.0), Anchor::Middle, 15.0, &format!("{title}: {by}"));
        let fields: Vec<String> = all.iter().map(|&s| printed(&table, s)).collect();
        picture.typed(p(x, 400.0), Anchor::Middle, 15.0, &fields.join("  "));
        let letters: Vec<&str> = letters_along(&table, all).into_iter().map(letter).collect();
        let steps = format!("{} step{}", all.len(), if all.len() == 1 { "" } else { "s" });
        picture.text(p(x, 424.0), Anchor::Middle, 14.0, &format!("{steps}, letters {}", letters.join(" ")));
        picture.text(p(x, 446.0), Anchor::Middle, 13.0, &format!("strip, over, lap: {}", sum(parts)));
    }
    picture.text(p(600.0, 468.0), Anchor::Middle, 12.0, "solid: step 0/0; double: step 0/1");
    picture
}
