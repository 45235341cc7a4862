//! The heads of the specs on a small tree: nothing is found where all is well, and each kind of fault is found.

use ties::heads::faults;
use ties::small::{Small, Trial};

const WALK: &str = "crates/tracing/specs/Walk.antt";
const DEEP: &str = "crates/tracing/specs/laws/Deep.antt";
const NO_HEAD: &str = "lines, and no head that says what it is about and lists its names";

const FILES: [(&str, &str); 4] = [
    (
        WALK,
        "-- Walks, which end.\n-- They are long.\n\
         --     walk, onward     the steps;     of it;     Step     one of them\n\
         --     Step-.., -back   what holds of a step;     size, lone\n\
         --                      and more of that\n\
         --     walk .. inner    the rest\n\n\
         pub walk : ℕ\nonward : ℕ\npub record Step : Type 0 where\n  pub size : ℕ\n\npub Step-back : ℕ\npub lone : ℕ\n\
         module _ (t : ℕ) where\n  inner : ℕ\n  inner = local\n    where\n      local : ℕ\n      local = 0\n",
    ),
    (DEEP, "use Other.{walk}\npub deep : ℕ\n"),
    ("crates/tracing/specs/Lib.antt", "pub module specs.Walk\n"),
    ("crates/tracing/specs/laws.antt", "pub module specs.laws.Deep\n"),
];

const TRIAL: Trial = Trial { files: &FILES, faults };

/// The tree with the file made longer than 60 lines.
fn long(name: &str, path: &str) -> Small {
    let small = TRIAL.whole(name);
    let text = small.tree().read(path).unwrap();
    small.add(path, &(text + &"more = 1\n".repeat(60)))
}

#[test]
fn nothing_where_all_is_well() {
    TRIAL.well("heads");
    TRIAL.found(&long("long", WALK), &[]);
    // These have no names of their own.
    TRIAL.found(&long("lib", "crates/tracing/specs/Lib.antt"), &[]);
    TRIAL.found(&long("laws", "crates/tracing/specs/laws.antt"), &[]);
}

#[test]
fn a_long_file_without_a_head() {
    TRIAL.found(&long("none", DEEP), &[&format!("specs/laws/Deep.antt: 62 {NO_HEAD}")]);
    for place in ["proofs/laws/Deep.antt", "proofs/Theorems.antt"] {
        let moved = TRIAL.whole("moved").remove(DEEP).add(&format!("crates/tracing/{place}"), &"more = 1\n".repeat(61));
        TRIAL.found(&moved, &[&format!("{place}: 61 {NO_HEAD}")]);
    }
    let about = long("about", WALK).change(WALK, "-- Walks, which end.\n-- They are long.\n", "");
    TRIAL.found(&about, &[NO_HEAD]);
    let first = long("after", WALK).change(WALK, "-- Walks, which end.\n", "\n-- Walks, which end.\n");
    TRIAL.found(&first, &[NO_HEAD]);
    let one = "-- What it is about.\n--     deep     a law\n";
    let few = TRIAL.whole("few").add(DEEP, &format!("{one}pub deep : ℕ\n{}", "more = 1\n".repeat(58)));
    TRIAL.found(&few, &[NO_HEAD]);
    let short = TRIAL.whole("short").add(DEEP, &format!("{one}pub deep : ℕ\n{}", "more = 1\n".repeat(57)));
    TRIAL.found(&short, &[]);
}

#[test]
fn a_name_that_is_not_declared() {
    TRIAL.after("listed", WALK, "walk, onward ", "walk, on ", &["specs/Walk.antt:3: it declares no `on`"]);
    TRIAL.after("gone", WALK, "\nonward : ℕ", "", &["Walk.antt:3: it declares no `onward`"]);
    TRIAL.after("pair", WALK, "Step     one", "Stop     one", &["Walk.antt:3: it declares no `Stop`"]);
    TRIAL.after("trailing", WALK, "size, lone\n", "size, last\n", &["Walk.antt:4: it declares no `last`"]);
    TRIAL.after("front", WALK, "Step-..,", "Stop-..,", &["Walk.antt:4: it declares no `Stop-..`"]);
    TRIAL.after("end", WALK, "-back   what", "-front   what", &["Walk.antt:4: it declares no `-front`"]);
    TRIAL.after("range", WALK, "walk .. inner", "walk .. outer", &["Walk.antt:6: it declares no `outer`"]);
    TRIAL.after("local", WALK, "walk .. inner", "walk, local", &["Walk.antt:6: it declares no `local`"]);
    TRIAL.after("field", WALK, "  pub size : ℕ\n", "", &["Walk.antt:4: it declares no `size`"]);
    // What another file declares is not passed on by using it.
    let used = TRIAL.whole("used").change(DEEP, "use Other", "-- About it.\n--     walk     a walk\nuse Other");
    TRIAL.found(&used, &["specs/laws/Deep.antt:2: it declares no `walk`"]);
}

#[test]
fn a_file_of_laws_in_two_halves() {
    let half = "-- About it.\n--     far     a law;     deep     what it speaks of\npub far : ℕ\n";
    let halves = |name: &str, path: &str| TRIAL.whole(name).add(&format!("crates/tracing/proofs/laws/{path}"), half);
    TRIAL.found(&halves("halves", "Deep.antt"), &[]);
    TRIAL.found(&halves("halves-gone", "Deep.antt").remove(DEEP), &["proofs/laws/Deep.antt:2: it declares no `deep`"]);
    TRIAL.found(&halves("halves-other", "Far.antt"), &["proofs/laws/Far.antt:2: it declares no `deep`"]);
    // A file of the first room has no other half.
    let lemmas = TRIAL.whole("no-half").add("crates/tracing/proofs/Walk.antt", "pub gone : ℕ\n");
    TRIAL.found(&lemmas.change(WALK, "size, lone\n", "size, gone\n"), &["Walk.antt:4: it declares no `gone`"]);
}

#[test]
fn a_line_that_cannot_be_read() {
    let one_blank = "`walk, onward the steps;` is no list of names";
    TRIAL.after("one-blank", WALK, "walk, onward     the", "walk, onward the", &[one_blank]);
    TRIAL.after("meaning", WALK, "inner    the rest", "inner", &["Walk.antt:6: no meaning of `walk .. inner`"]);
}
