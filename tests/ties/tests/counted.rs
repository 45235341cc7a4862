//! That the check counts each word that it reads, on a small tree: nothing is found where all is well, and each kind of fault is found.

use ties::counted::faults;
use ties::small::Trial;

const BELOW: &str = "crates/table/src/block.rt";
const READ: &str = "crates/table/src/read.rt";
const PARTS: &str = "crates/check_table/src/dart.rt";
const WHOLE: &str = "crates/check_table/src/whole.rt";
const COUNTED: &str = "crates/check_counted/src/whole.rt";

const LIBRARY: &str = "crates/table/src/lib.rt";

const FILES: [(&str, &str); 6] = [
    (LIBRARY, "// The table.\n#![tactic(auto)]\n\npub mod block;\npub mod read;\n"),
    (
        BELOW,
        "use crate::layout::EDGE;\nuse crate::read::{Counter, Uncounted, read};\n\npub const BLOCK: usize = 32;\n\n\
         pub fn is_dead(t: &[u16], b: usize) -> bool\n    ensures { Dead t b }\n{\n    is_dead_with(t, b, &mut Uncounted)\n}\n\n\
         pub fn is_dead_with<C: Counter>(t: &[u16], b: usize, reads: &mut C) -> bool\n    ensures { Dead t b }\n{\n\
         \x20   read(t, EDGE + BLOCK * b, reads) == 0\n}\n\nfn for_the_trace(t: &[u16]) -> u16 {\n    t[7]\n}\n",
    ),
    (
        READ,
        "pub trait Counter {\n    fn count(&mut self)\n        ensures { more };\n}\n\npub struct Uncounted;\n\nimpl Counter for Uncounted {\n\
         \x20   fn count(&mut self) {}\n}\n\nimpl Counter for usize {\n    fn count(&mut self) {\n        *self += 1;\n    }\n}\n\n\
         pub fn read<C: Counter>(t: &[u16], i: usize, reads: &mut C) -> u16\n    ensures { result ≡ at t i }\n{\n    reads.count();\n    t[i]\n}\n",
    ),
    (
        PARTS,
        "use table::layout::EDGE;\nuse table::read::{Counter, read};\n\npub fn linked<C: Counter>(t: &[u16; WORDS], d: usize, reads: &mut C) -> bool\n\
         \x20   ensures { Linked t d }\n{\n    // Back again.\n    read(t, read(t, d, reads) as usize, reads) as usize == d\n}\n",
    ),
    (
        WHOLE,
        "use crate::dart::linked;\nuse table::answer::Refusal;\nuse table::block::is_dead_with;\nuse table::read::{Counter, Uncounted};\n\n\
         pub fn is_good(t: &[u16]) -> bool\n    ensures { result ≡ good t }\n{\n    is_good_with(t, &mut Uncounted)\n}\n\n\
         pub fn check(t: &[u16]) -> Result<u32, Refusal>\n    ensures { result ≡ check_of t }\n{\n    check_with(t, &mut Uncounted)\n}\n\n\
         fn is_good_with<C: Counter>(t: &[u16], reads: &mut C) -> bool\n    ensures { result ≡ good t }\n{\n\
         \x20   match t.as_array() {\n        Some(t) => keeps_rules(t, reads),\n        None => false,\n    }\n}\n\n\
         fn keeps_rules<C: Counter>(t: &[u16; WORDS], reads: &mut C) -> bool\n    ensures { result ≡ good t }\n{\n\
         \x20   if is_dead_with(t, 1, reads) {\n        return true;\n    }\n\
         \x20   linked(t, 2 * (63 + 1), reads)\n}\n\n\
         pub fn check_with<C: Counter>(t: &[u16], reads: &mut C) -> Result<u32, Refusal>\n    ensures { result ≡ check_of t }\n{\n\
         \x20   if is_good_with(t, reads) {\n        return Ok(0);\n    }\n    Err(Refusal::Torn)\n}\n",
    ),
    (
        COUNTED,
        "use check_table::whole::check_with;\nuse table::answer::Refusal;\n\npub struct Checked {\n    pub answer: Result<u32, Refusal>,\n    pub reads: usize,\n}\n\n\
         pub fn counted_check(t: &[u16]) -> Checked\n    ensures { result.reads ≤ 9 }\n{\n    let mut reads: usize = 0;\n\
         \x20   let answer = check_with(t, &mut reads);\n    Checked { answer, reads }\n}\n",
    ),
];

const TRIAL: Trial = Trial { files: &FILES, faults };

#[test]
fn nothing_where_all_is_well() {
    TRIAL.well("well");
}

#[test]
fn a_read_past_the_count() {
    let bracket = ["linked has a bracket", "linked uses `t` in `t[read(t, d, reads) as usize] as usize == d`"];
    TRIAL.after("past", PARTS, "read(t, read(t, d, reads) as usize, reads)", "t[read(t, d, reads) as usize]", &bracket);
    TRIAL.after(
        "below",
        BELOW,
        "read(t, EDGE + BLOCK * b, reads)",
        "t[EDGE + BLOCK * b]",
        &["is_dead_with has a bracket", "is_dead_with uses `t` in `t[EDGE + BLOCK * b] == 0`"],
    );
    TRIAL.after("twice", READ, "    t[i]", "    t[i] | t[i]", &["read is not `reads.count(); t[i]`"]);
    TRIAL.after("never", READ, "    reads.count();\n", "", &["read is not `reads.count(); t[i]`"]);
    // An array of the check's own.
    TRIAL.after(
        "array",
        WHOLE,
        "linked(t, 2 * (63 + 1), reads)",
        "[linked(t, 128, reads); 1] == [true]",
        &["keeps_rules has a bracket"],
    );
}

#[test]
fn a_call_without_the_table_or_its_count() {
    let not_lent =
        |function: &str, call: &str| format!("{function} does not lend its table first and its count last in `{call}`");
    TRIAL.after(
        "no-count",
        PARTS,
        "read(t, d, reads)",
        "read(t, d, &mut Uncounted)",
        &[
            &not_lent("linked", "read(t, d, &mut Uncounted)"),
            "linked uses `t` in `read(t, read(t, d, &mut Uncounted) as usize, reads)",
        ],
    );
    TRIAL.after(
        "another-count",
        WHOLE,
        "is_dead_with(t, 1, reads)",
        "is_dead_with(t, 1, &mut (*reads).clone())",
        &[
            "keeps_rules calls `.clone`",
            &not_lent("keeps_rules", "is_dead_with(t, 1, &mut (*reads).clone())"),
            "keeps_rules uses `t` in",
            "keeps_rules uses `reads` in",
        ],
    );
    // The table by another reference to it.
    TRIAL.after(
        "borrowed",
        WHOLE,
        "    linked(t, 2 *",
        "    read(&*t, 0, &mut Uncounted);\n    linked(t, 2 *",
        &[
            &not_lent("keeps_rules", "read(&*t, 0, &mut Uncounted)"),
            "keeps_rules uses `t` in `read(&*t, 0, &mut Uncounted);`",
        ],
    );
    // A copy of it.
    TRIAL.after(
        "copy",
        WHOLE,
        "    linked(t, 2 * (63 + 1), reads)",
        "    let Some(u) = Some(*t) else {\n        return false;\n    };\n    linked(&u, 128, reads)",
        &[
            &not_lent("keeps_rules", "linked(&u, 128, reads)"),
            "keeps_rules uses `t` in `let Some(u) = Some(*t) else {`",
            "keeps_rules uses `reads` in `linked(&u, 128, reads)`",
        ],
    );
    // Under another name, before its size is told.
    TRIAL.after(
        "sized",
        WHOLE,
        "Some(t) => keeps_rules(t, reads)",
        "Some(u) => linked(u, 0, &mut Uncounted) && keeps_rules(u, reads)",
        &["is_good_with is not `match t.as_array() {"],
    );
    TRIAL.after(
        "own",
        WHOLE,
        "if is_good_with(t, reads)",
        "if is_good(t)",
        &["check_with calls `is_good`", "check_with uses `t` in `if is_good(t) {`"],
    );
    // The function for those that keep no count.
    TRIAL.after(
        "uncounted",
        WHOLE,
        "is_dead_with(t, 1, reads)",
        "is_dead(t, 1)",
        &["keeps_rules calls `is_dead`", "keeps_rules uses `t` in `if is_dead(t, 1) {`"],
    );
    TRIAL.after(
        "less",
        PARTS,
        "d: usize, reads: &mut C",
        "d: usize, reads: C",
        &["linked is not lent `reads: &mut C`"],
    );
    TRIAL.after(
        "none",
        PARTS,
        "    read(t, read",
        "    reads.reset();\n    read(t, read",
        &["linked calls `reads.reset`", "linked uses `reads` in `reads.reset();`"],
    );
    // A count without a read.
    TRIAL.after(
        "count",
        PARTS,
        "    read(t, read",
        "    Counter::count(reads);\n    read(t, read",
        &[
            "linked has a path in `Counter::count(reads);`",
            "linked calls `Counter::count`",
            "linked uses `reads` in `Counter::count(reads);`",
        ],
    );
    TRIAL.after(
        "hidden",
        WHOLE,
        "    if is_dead_with",
        "    let (reads, _n) = (&mut Uncounted, 0u8);\n    if is_dead_with",
        &["keeps_rules uses `reads` in `let (reads, _n) = (&mut Uncounted, 0u8);`"],
    );
    // Another count of the same name.
    TRIAL.after(
        "shadow",
        PARTS,
        "    read(t, read",
        "    let reads = &mut Uncounted;\n    read(t, read",
        &["linked uses `reads` in `let reads = &mut Uncounted;`"],
    );
    // A call that is laid out over several lines is one all the same.
    TRIAL.after(
        "lines-of-a-call",
        WHOLE,
        "is_dead_with(t, 1, reads)",
        "is_dead_with(\n        t,\n        1,\n        reads,\n    )",
        &[],
    );
}

#[test]
fn another_signature() {
    let counts = ["linked is not lent `reads: &mut C` last", "linked is lent `reads: &mut C`"];
    TRIAL.after("two-counts", PARTS, "d: usize, reads: &mut C", "reads: &mut C, d: &C", &counts);
    let function = ["linked is not lent `reads: &mut C` last", "dart.rt has 2 functions, of which 1 are looked at"];
    TRIAL.after("function-lent", PARTS, "d: usize, reads", "d: fn(&[u16]) -> u16, reads", &function);
    TRIAL.after("of-a-kind", PARTS, "d: usize,", "d: D,", &["linked is lent `d: D`"]);
    let later = ["linked is not lent `t: &[u16]` first", "linked is lent `t: &[u16; WORDS]`"];
    TRIAL.after("later", PARTS, "t: &[u16; WORDS], d: usize,", "d: usize, t: &[u16; WORDS],", &later);
}

#[test]
fn what_hides_a_text() {
    let string = "    read(t, d, { let _s = b\", reads)\"; &mut none });\n    read(t, read";
    TRIAL.after("string", PARTS, "    read(t, read", string, &["dart.rt may hide something in `read(t, d, { let _s"]);
    let comment = "    read(t, d, &mut none /*, reads)*/);\n    read(t, read";
    TRIAL.after(
        "comment",
        PARTS,
        "    read(t, read",
        comment,
        &["dart.rt may hide something in `read(t, d, &mut none /*"],
    );
    TRIAL.after("letter", PARTS, "usize == d", "usize == b'a' as usize", &["linked has a character"]);
    let closure = "    let linked = |a: &C| 7;\n    linked(t, 2 *";
    let named = ["keeps_rules has a closure", "keeps_rules does not call `linked` in `let linked = |a: &C| 7;`"];
    TRIAL.after("closure", WHOLE, "    linked(t, 2 *", closure, &named);
    let other = "    let linked = peek;\n    linked(t, 2 *";
    let named = ["keeps_rules does not call `linked` in `let linked = peek;`"];
    TRIAL.after("given", WHOLE, "    linked(t, 2 *", other, &named);
    let marks = "    let _marks = table::empty::MARKS;\n    linked(t, 2 *";
    let path = "keeps_rules has a path in `let _marks = table::empty::MARKS;`";
    TRIAL.after("marks", WHOLE, "    linked(t, 2 *", marks, &[path, path]);
    let apart = "    read(t, w. read(t, d, reads) as usize, reads) as usize == d";
    let of_another = ["linked calls `read` of something"];
    TRIAL.after("apart", PARTS, "    read(t, read(t, d, reads) as usize, reads) as usize == d", apart, &of_another);
    let within = "    fn peek(d: usize) -> u16 {\n        0\n    }\n    linked(t, 2 *";
    let found = ["keeps_rules calls `peek`", "whole.rt has 6 functions, of which 5 are looked at"];
    TRIAL.after("within", WHOLE, "    linked(t, 2 *", within, &found);
}

#[test]
fn a_function_of_the_same_name() {
    let below = "fn read(t: &[u16], i: usize, reads: &mut usize) -> u16 {\n    t[i]\n}\n\npub fn is_dead_with";
    let twice = ["two functions of the check are named read"];
    TRIAL.after("read-below", BELOW, "pub fn is_dead_with", below, &twice);
    let decoy =
        "impl Uncounted {\n    fn read(self) -> u16 {\n        reads.count();\n        t[i]\n    }\n}\n\npub fn read<";
    TRIAL.after("decoy", READ, "pub fn read<", decoy, &twice);
    let other = "fn check_with(t: &[u16], reads: &mut usize) -> u32 {\n    7\n}\n\npub fn counted_check";
    let found =
        ["two functions of the check are named check_with", "has the function check_with, which is not looked at"];
    TRIAL.after("check-again", COUNTED, "pub fn counted_check", other, &found);
    let peek = "as usize == d\n}\n\nfn peek(t: &[u16]) -> u16 { 0 }\n";
    TRIAL.after("one-line", PARTS, "as usize == d\n}\n", peek, &["dart.rt has 2 functions, of which 1 are looked at"]);
}

#[test]
fn what_is_not_read() {
    let more = "use table::layout::EDGE;\nghost use table::specs::X; use table::words::read;\n";
    let used = "dart.rt uses what is not looked at in `ghost use table::specs::X; use table::words::read;`";
    TRIAL.after("ghost", PARTS, "use table::layout::EDGE;\n", more, &[used, used]);
    let comment = "/* // */ use table::words::peek;\nuse table::layout::EDGE;\n";
    let found = ["dart.rt may hide something in `/* // */ use table::words::peek;`"];
    TRIAL.after("before-use", PARTS, "use table::layout::EDGE;\n", comment, &found);
    let early = "as usize == d\n}\n    let _m = t[3];\n}\n";
    let found = ["dart.rt goes on after a body with `let _m = t[3];`"];
    TRIAL.after("early", PARTS, "as usize == d\n}\n", early, &found);
    let generics = "<#[x(t: &[u16], reads: &mut C)] C: Counter>(t: &[u16; WORDS], d: usize, reads";
    let found = ["linked is not generic in C: Counter alone"];
    TRIAL.after("generics", PARTS, "<C: Counter>(t: &[u16; WORDS], d: usize, reads", generics, &found);
    TRIAL.after(
        "alias-module",
        LIBRARY,
        "pub mod read;",
        "pub mod reads;\npub use crate::reads as read;",
        &["table/src/lib.rt has no `pub mod read;`", "table/src/lib.rt has `pub use crate::reads as read;`"],
    );
}

#[test]
fn an_item_of_its_own() {
    let item = |text: &str| format!("{text}\n\npub fn linked<");
    let cases = [
        ("static", "static SEEN: u16 = 0;"),
        ("const-within", "pub(crate) const SEEN: u16 = 0;"),
        ("alias", "type Table = u16;"),
        ("tuple", "struct linked(u16);"),
    ];
    for (name, text) in cases {
        TRIAL.after(name, PARTS, "pub fn linked<", &item(text), &[&format!("dart.rt has an item of its own: {text}")]);
    }
    let use_within = "pub(crate) use table::words::peek as read;";
    let found = ["dart.rt uses what is not looked at in `pub(crate) use table::words::peek as read;`"];
    TRIAL.after("use-within", PARTS, "pub fn linked<", &item(use_within), &found);
}

#[test]
fn a_call_that_is_another() {
    TRIAL.after(
        "good",
        WHOLE,
        "    is_good_with(t, &mut",
        "    !is_good_with(t, &mut",
        &["is_good is not `is_good_with(t, &mut Uncounted)`"],
    );
    TRIAL.after(
        "check",
        WHOLE,
        "    check_with(t, &mut",
        "    t[0];\n    check_with(t, &mut",
        &["check is not `check_with(t, &mut Uncounted)`"],
    );
    TRIAL.after(
        "counted",
        COUNTED,
        "let answer = check_with(t, &mut reads);",
        "let answer = check_with(t, &mut reads);\n    let more = t[0];",
        &["counted_check is not `let mut reads: usize = 0;"],
    );
}

#[test]
fn a_missing_function() {
    TRIAL.after(
        "renamed",
        COUNTED,
        "fn counted_check",
        "fn counting_check",
        &["has no function counted_check", "has the function counting_check, which is not looked at"],
    );
    TRIAL.found(&TRIAL.whole("no-read").remove(READ), &["crates/table/src/read.rt has no function read"]);
    TRIAL.found(&TRIAL.whole("no-below").remove(BELOW), &["crates/table/src/block.rt has no function is_dead_with"]);
    TRIAL.found(
        &TRIAL.whole("no-check").remove(PARTS).remove(WHOLE),
        &[
            "crates/check_table/src has no function",
            "has no function is_good",
            "has no function check",
            "has no function is_good_with",
            "uses `check_table::whole::check_with`",
        ],
    );
}

#[test]
fn another_callee() {
    // A helper beside is_dead_with that marks in an array of its own, or reads.
    TRIAL.after("helper", BELOW, "reads) == 0", "reads) == mark(b)", &["is_dead_with calls `mark`"]);
    let used = |function: &str, line: &str| ["t", "reads"].map(|word| format!("{function} uses `{word}` in `{line}`"));
    let [table, count] = used("is_dead_with", "read(t, EDGE + BLOCK * b, reads) == linked(t, b, reads)");
    let upward = ["is_dead_with calls `linked`", &table, &count];
    TRIAL.after("upward", BELOW, "reads) == 0", "reads) == linked(t, b, reads)", &upward);
    let [table, count] = used("keeps_rules", "if table::block::peek(t, reads) {");
    let path = "keeps_rules has a path in `if table::block::peek(t, reads) {`";
    let by_path = [path, path, "keeps_rules calls `table::block::peek`", &table, &count];
    TRIAL.after("by-path", WHOLE, "is_dead_with(t, 1, reads)", "table::block::peek(t, reads)", &by_path);
    TRIAL.after(
        "method",
        WHOLE,
        "if is_dead_with(t, 1, reads)",
        "if t.first() == 1",
        &["keeps_rules calls `t.first`", "keeps_rules uses `t` in `if t.first() == 1 {`"],
    );
    let [table, count] = used("keeps_rules", "if peek::<C>(t, reads) {");
    let path = "keeps_rules has a path in `if peek::<C>(t, reads) {`";
    let of_a_kind = [path, "keeps_rules calls `peek::<C>`", &table, &count];
    TRIAL.after("kind", WHOLE, "is_dead_with(t, 1, reads)", "peek::<C>(t, reads)", &of_a_kind);
    TRIAL.after("macro", WHOLE, "if is_dead_with(t, 1, reads)", "if !seen!(1)", &["keeps_rules calls `seen!`"]);
}

#[test]
fn a_name_twice() {
    // The one that is not looked at could be the one that is called.
    let other = "crates/check_table/src/other.rt";
    let again = "fn linked<C: Counter>(t: &[u16], d: usize, reads: &mut C) -> bool {\n    read(t, d, reads) == 0\n}\n";
    TRIAL.found(&TRIAL.whole("named-twice").add(other, again), &["two functions of the check are named linked"]);
}

#[test]
fn another_import() {
    TRIAL.after(
        "function",
        PARTS,
        "use table::layout::EDGE;",
        "use table::block::is_dead;",
        &["crates/check_table/src/dart.rt uses `table::block::is_dead`"],
    );
    TRIAL.after(
        "another-read",
        PARTS,
        "use table::read::{Counter, read};",
        "use table::read::Counter;\nuse table::words::read;",
        &["dart.rt uses `table::words::read`"],
    );
    TRIAL.after(
        "as",
        PARTS,
        "{Counter, read}",
        "{Counter, peek as read}",
        &["dart.rt uses `table::read::peek as read`"],
    );
    TRIAL.after("many", WHOLE, "::is_dead_with;", "::*;", &["crates/check_table/src/whole.rt uses `table::block::*`"]);
    TRIAL.after(
        "below-import",
        BELOW,
        "use crate::layout::EDGE;",
        "use crate::marks::EDGE;",
        &["crates/table/src/block.rt uses `crate::marks::EDGE`"],
    );
    TRIAL.after(
        "counted-import",
        COUNTED,
        "use table::answer::Refusal;",
        "use table::answers::Refusal;",
        &["crates/check_counted/src/whole.rt uses `table::answers::Refusal`"],
    );
    TRIAL.after(
        "constant-of",
        PARTS,
        "use table::layout::EDGE;",
        "use table::other::EDGE;",
        &["uses `table::other::EDGE`"],
    );
    TRIAL.after(
        "constant",
        PARTS,
        "use table::layout::EDGE;",
        "const EDGE: usize = 16;",
        &["an item of its own: const EDGE"],
    );
    // In a list, which may go over several lines.
    let lines = "use table::{\n    block::BLOCK,\n    layout::{\n        EDGE, // the words\n        EDGES as LENGTH,\n    },\n};";
    TRIAL.after("lines", PARTS, "use table::layout::EDGE;", lines, &["uses `table::layout::EDGES as LENGTH`"]);
    TRIAL.after("listed-all", WHOLE, "::is_dead_with;", "::{is_dead_with, *};", &["whole.rt uses `table::block::*`"]);
    TRIAL.after(
        "passed-on",
        PARTS,
        "use table::layout::EDGE;",
        "pub use table::{block::peek};",
        &["dart.rt uses `table::block::peek`"],
    );
    let all = "use table::block::{BLOCK, DART_BLOCK};\nuse table::layout::{\n    EDGE,\n    LENGTH,\n};";
    TRIAL.after("all-right", PARTS, "use table::layout::EDGE;", all, &[]);
}

#[test]
fn another_use_of_the_table() {
    TRIAL.after("length", WHOLE, "t.as_array()", "t.first_chunk()", &["is_good_with is not `match t.as_array() {"]);
    TRIAL.after(
        "kept",
        WHOLE,
        "    if is_dead_with",
        "    let u = Some(t);\n    if is_dead_with",
        &["keeps_rules uses `t` in `let u = Some(t);`"],
    );
    TRIAL.after(
        "taken",
        WHOLE,
        "    if is_dead_with",
        "    let u = t;\n    if is_dead_with",
        &["keeps_rules uses `t` in `let u = t;`"],
    );
    TRIAL.after("slice", PARTS, "d: usize,", "d: &[u8],", &["linked is lent `d: &[u8]`"]);
}
