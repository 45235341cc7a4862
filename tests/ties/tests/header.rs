//! `tests/header` on a small tree: nothing is found where all is well, and each kind of difference is found.

use ties::matching::faults;
use ties::small::Trial;

const HEADER: &str = "include/planner.h";
const EXPORTS: &str = "crates/planner/src/lib.rt";
const TALLY: &str = "crates/reader/src/tally.rt";
const LENGTH: &str = "crates/lengths/src/length.rt";

const LAYOUT: &str = "crates/table/src/layout.rt";

const RECORDS: &str = "crates/records/src/records.rt";

const ROWS: &str = "crates/prices/src/rows.rt";

const FILES: [(&str, &str); 7] = [
    (
        HEADER,
        "/* int64_t planner_no(int x); */\n#include <stdint.h>\n#ifdef __cplusplus\nextern \"C\" {\n#endif\n#define A 1\n#define B(x) \\\n    (x)\n\
         /* #define PLANNER_LAP 5 */\n#define PLANNER_OVER_ALLOWANCE 8 /* each */\n#define PLANNER_LAP 320\n\
         #define PLANNER_METRE 16000 /* started */\n#define PLANNER_ROW_WORDS 4\n\
         #define PLANNER_TABLE_WORDS 8704\n#define PLANNER_LENGTH_AT 7680 /* for each edge */\n\
         #define PLANNER_MARK_AV 0x4156\n#define PLANNER_MARK_RV 0x5256\n#define PLANNER_MARK_IE 0x4945\n\
         #define PLANNER_MARK_IL 0x494C\n#define PLANNER_MARK_DE 0x4445\n#define PLANNER_MARK_TW 0x5457\n\
         int64_t planner_insert(uint16_t *table, size_t words, uint16_t e, uint16_t c1, uint16_t c2, int16_t k, uint16_t length);\n\
         int64_t planner_path(const uint16_t *table, size_t words, uint16_t dart, uint16_t type, const int32_t *points,\n\
         \x20                    size_t n_points, float *out, size_t out_words);\n\
         struct planner_tally {\n    uint32_t steps, overs;\n    uint16_t start_type;\n};\n\
         int64_t planner_step(struct planner_tally *tally, const struct planner_tally *from);\n\
         #ifdef __cplusplus\n}\n#endif\n",
    ),
    (
        EXPORTS,
        "use reader::tally::Tally;\nuse table::answer::code;\n// pub extern \"C\" fn planner_no(x: i16) -> i64\n\n\
         #[unsafe(no_mangle)]\npub extern \"C\" fn planner_insert(t: &mut [u16], e: u16, c1: u16, c2: u16, k: i16, strip: u16) -> i64\n\
         \x20   ensures { result ≡ insert t.old e c1 c2 k strip }\n{\n    code(insert(t, e, c1, c2, k, strip))\n}\n\n\
         #[unsafe(no_mangle)]\npub extern \"C\" fn planner_path(\n    t: &[u16],\n    dart: u16,\n    kind: u16,\n    points: &[i32],\n\
         \x20   out: &mut [f32],\n) -> i64\n    ensures { result ≡ path }\n{\n    0\n}\n\n\
         #[unsafe(no_mangle)]\npub extern \"C\" fn planner_step(tally: &mut Tally, from: &Tally) -> i64\n    ensures { result ≡ 0 }\n{\n    0\n}\n\n\
         fn own(x: u16) -> bool {\n    true\n}\n",
    ),
    (TALLY, "// A tally.\n#[repr(C)]\npub struct Tally {\n    pub steps: u32,\n    // over\n    pub overs: u32,\n    pub start_kind: u16,\n}\n"),
    (
        LENGTH,
        "// pub const LAP: u32 = 5;\npub const OVER_ALLOWANCE: u32 = 8;\n\n// once\npub const LAP: u32 = 320; // sixteenths\n",
    ),
    (ROWS, "pub const METRE: u32 = 16000;\n\npub const ROW: usize = 4;\n"),
    (
        RECORDS,
        "pub const MARK_AV: u16 = 0x4156;\npub const MARK_RV: u16 = 0x5256;\npub const MARK_IE: u16 = 0x4945;\n\
         pub const MARK_IL: u16 = 0x494C;\npub const MARK_DE: u16 = 17477;\npub const MARK_TW: u16 = 0x5457;\n",
    ),
    (LAYOUT, "pub const WORDS: usize = 8704;\n\n// Where lengths begin.\npub const LENGTH: usize = 7680;\n"),
];

const TRIAL: Trial = Trial { files: &FILES, faults };

#[test]
fn nothing_where_both_are_alike() {
    TRIAL.well("alike");
}

#[test]
fn exchanged_arguments() {
    let expected = [
        "planner_insert: argument 4 is `uint16_t c2`, not `uint16_t c1`",
        "planner_insert: argument 5 is `uint16_t c1`, not `uint16_t c2`",
    ];
    TRIAL.after("corners", HEADER, "uint16_t c1, uint16_t c2", "uint16_t c2, uint16_t c1", &expected);
    let other_way =
        ["argument 4 is `uint16_t c1`, not `uint16_t c2`", "argument 5 is `uint16_t c2`, not `uint16_t c1`"];
    TRIAL.after("declared", EXPORTS, "e: u16, c1: u16, c2: u16", "e: u16, c2: u16, c1: u16", &other_way);
    TRIAL.after(
        "step",
        EXPORTS,
        "dart: u16,\n    kind: u16",
        "kind: u16,\n    dart: u16",
        &[
            "planner_path: argument 3 is `uint16_t dart`, not `uint16_t type`",
            "planner_path: argument 4 is `uint16_t type`, not `uint16_t dart`",
        ],
    );
}

#[test]
fn a_changed_type() {
    TRIAL.after("signed", HEADER, "int16_t k", "uint16_t k", &["argument 6 is `uint16_t k`, not `int16_t k`"]);
    TRIAL.after("wide", EXPORTS, "e: u16", "e: u32", &["argument 3 is `uint16_t e`, not `uint32_t e`"]);
    TRIAL.after(
        "constant",
        HEADER,
        "(uint16_t *table",
        "(const uint16_t *table",
        &["`const uint16_t * table`, not `uint16_t * table`"],
    );
    TRIAL.after("written", EXPORTS, "points: &[i32]", "points: &mut [i32]", &["not `int32_t * points`"]);
    TRIAL.after("float", EXPORTS, "out: &mut [f32]", "out: &mut [f64]", &["not `double * out`"]);
    TRIAL.after(
        "record",
        EXPORTS,
        "from: &Tally",
        "from: Tally",
        &["argument 2 is `const struct planner_tally * from`, not"],
    );
    TRIAL.after(
        "answer",
        HEADER,
        "int64_t planner_step",
        "int32_t planner_step",
        &["planner_step: answers int32_t in the header, i64"],
    );
    TRIAL.after(
        "unknown",
        EXPORTS,
        "e: u16",
        "e: Option<u16>",
        &[
            "planner_insert: cannot read the type of `e: Option<u16>`",
            "planner_insert: 7 arguments in the header, 6 in the sources",
            "argument 3",
            "argument 4",
            "argument 5",
            "argument 6",
        ],
    );
}

/// `Standing` of the sources, a reader without the table, is `struct planner_reader` in C.
#[test]
fn a_record_of_another_name() {
    TRIAL.after(
        "standing",
        EXPORTS,
        "from: &Tally",
        "from: &Standing",
        &[
            "argument 2 is `const struct planner_tally * from`, not `const struct planner_reader * from`",
            "include/planner.h: struct planner_reader is missing",
        ],
    );
}

#[test]
fn another_name() {
    TRIAL.after("pointer", HEADER, "*points", "*lifts", &["argument 5 is `const int32_t * lifts`, not"]);
    TRIAL.after(
        "size",
        HEADER,
        "n_points",
        "n_lifts",
        &["argument 6 is `size_t n_lifts`, not `size_t n_points or points_words or"],
    );
    TRIAL.after(
        "table-size",
        HEADER,
        "(uint16_t *table, size_t words",
        "(uint16_t *table, size_t n",
        &["argument 2 is `size_t n`"],
    );
}

#[test]
fn an_argument_more() {
    TRIAL.after(
        "more",
        HEADER,
        "uint16_t length)",
        "uint16_t length, int16_t l)",
        &["planner_insert: 8 arguments in the header, 7 in the sources"],
    );
}

#[test]
fn a_function_on_one_side_alone() {
    let prototype = "int64_t planner_step(struct planner_tally *tally, const struct planner_tally *from);\n";
    TRIAL.after(
        "header",
        HEADER,
        prototype,
        "",
        &["include/planner.h: planner_step is missing", "no exported function is lent a struct"],
    );
    TRIAL.after("twice", HEADER, prototype, &prototype.repeat(2), &["planner_step is declared twice"]);
    TRIAL.after(
        "exports",
        EXPORTS,
        "fn planner_insert",
        "fn planner_inserts",
        &["include/planner.h: planner_inserts is missing", "lib.rt: planner_insert is missing"],
    );
    TRIAL.after(
        "mangled",
        EXPORTS,
        "#[unsafe(no_mangle)]\npub extern \"C\" fn planner_step",
        "pub extern \"C\" fn planner_step",
        &["planner_step is not exported"],
    );
    let old = "#[no_mangle]\npub extern \"C\" fn planner_step";
    let marked = "#[unsafe(no_mangle)]\npub extern \"C\" fn planner_step";
    TRIAL.after("mangled-otherwise", EXPORTS, marked, old, &["planner_step is not exported"]);
    let beside = "#[unsafe(no_mangle)]\n#[tactic(auto)]\npub extern \"C\" fn planner_step";
    TRIAL.after("attributes", EXPORTS, marked, beside, &[]);
}

#[test]
fn fields_of_a_record() {
    let exchanged =
        ["field 1 is `uint32_t overs`, not `uint32_t steps`", "field 2 is `uint32_t steps`, not `uint32_t overs`"];
    TRIAL.after("fields", HEADER, "steps, overs", "overs, steps", &exchanged);
    TRIAL.after(
        "field-type",
        TALLY,
        "start_kind: u16",
        "start_kind: u32",
        &["field 3 is `uint16_t start_type`, not `uint32_t start_type`"],
    );
    TRIAL.after(
        "field-more",
        TALLY,
        "pub overs: u32,",
        "pub overs: u32,\n    pub unders: u32,",
        &["3 fields in the header, 4 in", "field 3"],
    );
    TRIAL.after("layout", TALLY, "#[repr(C)]\n", "", &["struct Tally is not #[repr(C)]"]);
    TRIAL.after("derived", TALLY, "#[repr(C)]\n", "#[repr(C)]\n#[derive(Clone, Copy)]\n", &[]);
    TRIAL.after("derived-first", TALLY, "#[repr(C)]\n", "#[derive(Clone, Copy)]\n#[repr(C)]\n", &[]);
    let listed = "use reader::{place::Place, tally::{Tally, Count}};";
    TRIAL.after("listed", EXPORTS, "use reader::tally::Tally;", listed, &[]);
    let lines = "use reader::tally::{\n    Count,\n    Tally,\n};";
    TRIAL.after("listed-lines", EXPORTS, "use reader::tally::Tally;", lines, &[]);
    let elsewhere = "use reader::place::{Tally, Place};";
    let not_there = ["crates/reader/src/place.rt: struct Tally is not there"];
    TRIAL.after("listed-elsewhere", EXPORTS, "use reader::tally::Tally;", elsewhere, &not_there);
    TRIAL.after("struct", TALLY, "pub struct Tally", "pub struct Tallies", &["tally.rt: struct Tally is not there"]);
    TRIAL.after(
        "record-gone",
        HEADER,
        "struct planner_tally {",
        "struct planner_tale {",
        &["include/planner.h: struct planner_tally is missing", "no exported function is lent a struct planner_tale"],
    );
}

#[test]
fn numbers() {
    TRIAL.after(
        "lap",
        HEADER,
        "PLANNER_LAP 320",
        "PLANNER_LAP 20",
        &["include/planner.h: PLANNER_LAP is 20, LAP of crates/lengths/src/length.rt is 320"],
    );
    TRIAL.after(
        "allowance",
        LENGTH,
        "OVER_ALLOWANCE: u32 = 8",
        "OVER_ALLOWANCE: u32 = 16",
        &["PLANNER_OVER_ALLOWANCE is 8, OVER_ALLOWANCE of crates/lengths/src/length.rt is 16"],
    );
    TRIAL.after(
        "metre",
        ROWS,
        "METRE: u32 = 16000",
        "METRE: u32 = 1000",
        &["PLANNER_METRE is 16000, METRE of crates/prices/src/rows.rt is 1000"],
    );
    TRIAL.after(
        "table",
        HEADER,
        "PLANNER_TABLE_WORDS 8704",
        "PLANNER_TABLE_WORDS 7680",
        &["PLANNER_TABLE_WORDS is 7680, WORDS of crates/table/src/layout.rt is 8704"],
    );
    TRIAL.after(
        "lengths",
        LAYOUT,
        "LENGTH: usize = 7680",
        "LENGTH: usize = 7168",
        &["PLANNER_LENGTH_AT is 7680, LENGTH of crates/table/src/layout.rt is 7168"],
    );
    TRIAL.after(
        "mark",
        HEADER,
        "PLANNER_MARK_IL 0x494C",
        "PLANNER_MARK_IL 0x4949",
        &["PLANNER_MARK_IL is 18761, MARK_IL of crates/records/src/records.rt is 18764"],
    );
    let undefined = ["include/planner.h: the number PLANNER_LAP is missing"];
    TRIAL.after("undefined", HEADER, "#define PLANNER_LAP 320\n", "", &undefined);
    TRIAL.after("longer-name", HEADER, "PLANNER_LAP 320", "PLANNER_LAPS 320", &undefined);
    let undeclared = ["crates/lengths/src/length.rt: the constant LAP is missing"];
    TRIAL.after("undeclared", LENGTH, "pub const LAP: u32 = 320; ", "", &undeclared);
    TRIAL.after("of-its-own", LENGTH, "pub const LAP: u32 = 320;", "const LAP: u32 = 320;", &undeclared);
    let without = ["the constant OVER_ALLOWANCE is missing", "the constant LAP is missing"];
    TRIAL.found(&TRIAL.whole("no-lengths").remove(LENGTH), &without);
}

#[test]
fn what_cannot_be_read() {
    TRIAL.after("typedef", HEADER, "#define A 1\n", "typedef int number;\n", &["cannot read `typedef int number;`"]);
    TRIAL.after("unnamed", HEADER, "uint16_t e,", "uint16_t,", &["cannot read", "planner_insert is missing"]);
}
