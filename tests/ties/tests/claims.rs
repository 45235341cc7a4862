//! The claims on a small tree: nothing is found where all is well, and each kind of fault is found.

use ties::claims::faults;
use ties::small::Trial;

const INDEX: &str = "docs/CLAIMS.md";
const CLAIMS: &str = "docs/claims/table.md";
const GOOD: &str = "crates/table/specs/Good.antt";
const WHOLE: &str = "crates/table/src/whole.rt";
const INTERFACE: &str = "crates/planner/src/lib.rt";

const FILES: [(&str, &str); 10] = [
    (
        INDEX,
        "# Claims\n\nAbout it.\n\n- [claims/table.md](claims/table.md): the table\n\n\
         ## How to read them\n\n`anything/Goes` here, *and here*.\n\n\
         ```text\n**a block**\n- says it: nothing\n```\n\n## The C interface\n\n\
         The contract (`crates/planner/src/lib.rt`) of `planner_check`, for crate `table`.\n\n\
         **`planner_check`**\n- answer: `code_of (check_of t\n  out)`\n- slice at exit: `checked t ..`, lent as `&[u16]`\n\
         - rules out: *planner/another_call*\n\n## In which order to read the definitions\n\n\
         1. `crates/table/specs/Good.antt`: `Good`, then `Passing.antt`;\n2. `crates/planner/src/lib.rt`.\n",
    ),
    (
        CLAIMS,
        "# The table\n\nWhat it is about.\n\n\
         **\"a sentence that\ngoes on\"**: and more\n- says it: `table/Good` `Good` (as it says), `.size`,\n  `good_case`\n\
         - said with: `table/Good` `.turns`\n\n\
         **one**\n- says it: `table/Good`: `Shape`, `flat` and `helper`, by `inner`; contracts of `check`, `empty`\n  (`table/src/whole.rt`)\n\
         - rules out: *table/wrong_number*; another\n\n\
         **two**\n- ruled out by: `table/Passing` `passed_on` as `Good t` has it; *table/wrong_size*\n\n\
         A remark on this, by `good_case`.\n\n- An item of another list.\n",
    ),
    (
        GOOD,
        "-- comment : no\npub record Good (t : List) : Type 0 where\n  -- a remark\n  pub size : length t ≡ words\n  pub turns : (e : ℕ)\n      → e < edges\n\n\
         data Shape : Type 0 where\n  flat : Shape\n\nabbrev helper : ℕ\nhelper = 1\n\nmodule _ (t : List) where\n\
         \x20 pub inner : ℕ\n  inner = local\n    where\n      local : ℕ\n      local = 0\n\nunfoldable pub good_case : Type 0\n",
    ),
    ("crates/table/specs/Passing.antt", "use M.{unseen}\npub use M.{first,\n    passed_on}\n"),
    ("crates/table/specs/laws/Deep.antt", "pub deep : ℕ\n"),
    (
        WHOLE,
        "ghost use Rattle.table.specs.laws.Deep.{deep};\n// fn gone() {\npub fn check(t: &[u16]) -> bool\n    ensures { result }\n{\n    true\n}\n\n\
         fn empty(t: &[u16]) -> bool\n    requires { deep }\n    ensures { result }\n{\n    true\n}\n\nfn silent() -> bool {\n    true\n}\n",
    ),
    ("crates/table/must-fail/each_function.edit", "wrong: wrong_number\nfile: src/whole.rt\n\nwrong: wrong_size\nfile: src/whole.rt\n"),
    ("crates/planner/must-fail/another_call.edit", "wrong: another_call\nfile: src/lib.rt\n"),
    (
        "crates/planner/src/lib.rt",
        "#[unsafe(no_mangle)]\npub extern \"C\" fn planner_check(t: &[u16], out: &mut [u16]) -> i64\n\
         \x20   ensures { (result ≡ code_of (check_of t.now out.old))\n\
         \x20       × (out.new ≡ checked t.now out.old) }\n{\n    code(check(t))\n}\n",
    ),
    ("include/planner.h", "int64_t planner_check(const uint16_t *table, size_t words, uint16_t *out, size_t n_out);\n"),
];

const TRIAL: Trial = Trial { files: &FILES, faults };

#[test]
fn nothing_where_all_is_well() {
    TRIAL.well("well");
}

#[test]
fn a_name_that_its_file_does_not_declare() {
    TRIAL.after("name", GOOD, "unfoldable pub good_case", "unfoldable pub good_cases", &["declares no `good_case`"]);
    TRIAL.after("inner", GOOD, "  pub inner", "  inner", &["declares no `inner`"]);
    TRIAL.after("elsewhere", CLAIMS, "`passed_on` as", "`flat` as", &["declares no `flat` (table/Good does)"]);
    TRIAL.after("local", CLAIMS, "`inner`;", "`inner`, `local`;", &["table/Good declares no `local`"]);
    TRIAL.after("comment", CLAIMS, "`inner`;", "`inner`, `comment`;", &["table/Good declares no `comment`"]);
    TRIAL.after("constructor", GOOD, "  flat :", "  round :", &["declares no `flat`"]);
    TRIAL.after(
        "next-line",
        CLAIMS,
        "\n  `good_case`",
        "\n  `best_case`, `good_case`",
        &["table.md:8: table/Good declares no `best_"],
    );
}

#[test]
fn a_name_that_is_used_and_not_passed_on() {
    TRIAL.after("used", CLAIMS, "`passed_on` as", "`unseen` as", &["table/Passing declares no `unseen`"]);
}

#[test]
fn a_field_that_no_record_has() {
    TRIAL.after(
        "field",
        GOOD,
        "pub turns",
        "pub turn",
        &["table.md:9: table/Good has no record with the field `.turns`"],
    );
    TRIAL.after("dot", CLAIMS, "`.size`,", "`size`,", &["declares no `size` (a field is cited with"]);
    TRIAL.after("no-file", CLAIMS, "by `good_case`", "by `.size`", &["`.size` stands after no file"]);
}

#[test]
fn a_file_that_is_not_there() {
    TRIAL.after(
        "file",
        CLAIMS,
        "`table/Passing`",
        "`table/Passings`",
        &["there is no crates/table/specs/Passings.antt"],
    );
    TRIAL.after("crate", INDEX, "crate `table`", "crate `tables`", &["there is no crate `tables`"]);
    TRIAL.after(
        "source",
        CLAIMS,
        "table/src/whole",
        "table/src/half",
        &[
            "there is no crates/table/src/half.rt",
            "the contract of `check` is cited without its file",
            "the contract of `empty` is cited without its file",
        ],
    );
}

#[test]
fn theorems() {
    // They are cited alike whether they stand in specs/ or in proofs/.
    let cited =
        |name: &str| TRIAL.whole(name).change(CLAIMS, "`table/Passing` `passed_on`", "`table/Theorems` `holds`");
    let there = "pub holds : ℕ\n";
    TRIAL.found(&cited("theorems-specs").add("crates/table/specs/Theorems.antt", there), &[]);
    let in_proofs = "crates/table/proofs/Theorems.antt";
    TRIAL.found(&cited("theorems-proofs").add(in_proofs, there), &[]);
    let by_path = cited("theorems-path").add(in_proofs, there);
    TRIAL.found(&by_path.change(INDEX, "`Passing.antt`", "`crates/table/proofs/Theorems.antt`: `holds`"), &[]);
    TRIAL.found(&cited("theorem-gone").add(in_proofs, "pub held : ℕ\n"), &["table/Theorems declares no `holds`"]);
    TRIAL.found(&cited("theorems-gone"), &["there is no crates/table/specs/Theorems.antt"]);
    // Nothing else of proofs/ is cited so.
    TRIAL.after("lemma", CLAIMS, "`table/Passing` `passed_on`", "`table/Lemma`", &["no crates/table/specs/Lemma.antt"]);
}

#[test]
fn a_law() {
    TRIAL.after("law-file", CLAIMS, "`table/Passing` `passed_on`", "`table/Deep`", &["specs/Deep.antt (it is a law)"]);
    TRIAL.after(
        "law-name",
        CLAIMS,
        "`inner`;",
        "`inner`, `deep`;",
        &["table/Good declares no `deep` (table/laws/Deep does)"],
    );
    let moved = TRIAL.whole("law-moved").remove("crates/table/specs/laws/Deep.antt");
    let moved = moved.add("crates/table/proofs/laws/Deep.antt", "pub deep : ℕ\n");
    let cited = moved.change(CLAIMS, "`table/Passing` `passed_on`", "`table/Deep`").change(
        CLAIMS,
        "`inner`;",
        "`inner`, `deep`;",
    );
    TRIAL.found(&cited, &["declares no `deep` (table/laws/Deep does)", "specs/Deep.antt (it is a law)"]);
    TRIAL.after("law", CLAIMS, "`table/Passing` `passed_on`", "`table/laws/Deep`", &["cites a law"]);
    TRIAL.after("law-path", INDEX, "`Passing.antt`", "`crates/table/specs/laws/Deep.antt`", &["cites a law"]);
}

#[test]
fn a_contract_that_is_not_there() {
    TRIAL.after("function", CLAIMS, "`check`, `empty`", "`check`, `gone`", &["whole.rt has no function `gone`"]);
    TRIAL.after(
        "silent",
        CLAIMS,
        "`check`, `empty`",
        "`check`, `silent`",
        &["`silent` of crates/table/src/whole.rt promises"],
    );
    TRIAL.after(
        "unfiled",
        CLAIMS,
        "\n  (`table/src/whole.rt`)",
        "",
        &["the contract of `check` is cited without its file", "the contract of `empty` is cited without its file"],
    );
}

#[test]
fn a_contract_that_names_a_law() {
    let asks = "requires { deep }\n    ensures { result";
    let named = "table.md:12: the contract of `empty` names `deep`, which stands in laws/";
    TRIAL.after("promise", WHOLE, asks, "ensures { deep result", &[named]);
    TRIAL.after("second-line", WHOLE, asks, "requires { result }\n    ensures { result\n        × deep", &[named]);
    TRIAL.after("asked-last", WHOLE, asks, "ensures { result }\n    requires { deep", &[]);
    let path = "ensures { Rattle.table.specs.laws.Other.far result";
    TRIAL.after("path", WHOLE, asks, path, &["the contract of `empty` has a path into laws/"]);
    TRIAL.after("clause-name", WHOLE, asks, "requires low { result }\n    ensures high { deep result", &[named]);
    TRIAL.after("asked-by-name", WHOLE, asks, "ensures high { result }\n    requires low { deep", &[]);
    let in_proofs = TRIAL.whole("in-proofs").change(WHOLE, "specs.laws.Deep", "proofs.laws.Deep");
    TRIAL.found(&in_proofs.change(WHOLE, asks, "ensures { deep result"), &[named]);
    let uncited = TRIAL.whole("uncited").change(WHOLE, asks, "ensures { deep result");
    TRIAL.found(&uncited.change(CLAIMS, "`check`, `empty`", "`check`"), &[]);
}

#[test]
fn a_name_on_its_own() {
    TRIAL.after(
        "alone",
        CLAIMS,
        "by `good_case`",
        "by `nowhere`",
        &["`nowhere` stands after no file, here or elsewhere"],
    );
    TRIAL.after(
        "words-between",
        CLAIMS,
        "`flat` and `helper`",
        "`flat` with `helper`",
        &["`helper` stands after no file", "`inner` stands after no file"],
    );
    // Its file stands in another document.
    TRIAL.after(
        "other-document",
        INDEX,
        "for crate `table`",
        "by `good_case`",
        &["CLAIMS.md:18: `good_case` stands after"],
    );
}

#[test]
fn what_cannot_be_read() {
    TRIAL.after("unreadable", CLAIMS, "by `good_case`", "by `+ 1`", &["cannot read `+ 1`"]);
    TRIAL.after("italics", CLAIMS, "*table/wrong_number*", "*table/wrong_number* *so*", &["cannot read *so*"]);
    TRIAL.after("open", CLAIMS, "by `good_case`", "by `good_case", &["table.md:19: a ` is not closed"]);
    TRIAL.after("bold", CLAIMS, "**one**", "**one", &["table.md:11: a ** is not closed"]);
}

#[test]
fn a_must_fail_edit() {
    TRIAL.after(
        "edit",
        CLAIMS,
        "*table/wrong_number*",
        "*table/wrong*",
        &["no wrong program *table/wrong*", "wrong_number is not named"],
    );
    let more = TRIAL.whole("unnamed").add("crates/table/must-fail/another.edit", "wrong: another\n");
    TRIAL.found(&more, &["the wrong program table/another is not named"]);
    let edit = "crates/table/must-fail/each_function.edit";
    TRIAL.after("gone", edit, "wrong: wrong_number\n", "", &["there is no wrong program *table/wrong_number*"]);
    TRIAL.after(
        "file-name",
        CLAIMS,
        "*table/wrong_size*",
        "*table/each_function*",
        &["no wrong program *table/each", "wrong_size is not named"],
    );
    let less = TRIAL.whole("call").remove("crates/planner/must-fail/another_call.edit");
    TRIAL.found(&less, &["there is no wrong program *planner/another_call*"]);
}

#[test]
fn the_entries_of_the_c_interface() {
    let header = "include/planner.h";
    TRIAL.after(
        "entry",
        header,
        "int64_t",
        "int64_t planner_plain(const uint16_t *t, size_t words);\nint64_t",
        &["planner_plain of the header has no entry"],
    );
    TRIAL.after(
        "expression",
        INDEX,
        "`code_of (check_of t\n  out)`",
        "`code_of (check_of\n  t)`",
        &["CLAIMS.md:21: `code_of (check_of t)` is not in the contract"],
    );
    TRIAL.after(
        "head",
        INDEX,
        "`checked t ..`",
        "`check t ..`",
        &["`check t ..` is not in the contract of planner_check"],
    );
    // What the call leaves is not what it was lent, and a field of that is its field.
    let exit = ["`checked t ..` is not in the contract of planner_check"];
    TRIAL.after("exit", INTERFACE, "checked t.now out.old", "checked t.new out.old", &exit);
    TRIAL.after("written", INTERFACE, "checked t.now out.old", "checked t.old out.old", &exit);
    let field =
        TRIAL.whole("field-of").change(INTERFACE, "checked t.now out.old", "(checked t.now out.old.words).left");
    TRIAL.found(&field.change(INDEX, "`checked t ..`", "`(checked t out.words).left`"), &[]);
    TRIAL.after(
        "renamed",
        header,
        "planner_check",
        "planner_checks",
        &[
            "planner_checks of the header has no entry",
            "include/planner.h has no planner_check",
            "include/planner.h has no planner_check",
        ],
    );
    TRIAL.after("no-answer", INDEX, "- answer: `code_of (check_of t\n  out)`\n", "", &["it has no item \"answer\""]);
    let nothing_ruled_out = TRIAL.whole("no-rules").change(INDEX, "- rules out: *planner/another_call*\n", "");
    TRIAL.found(&nothing_ruled_out, &["CLAIMS.md:20: it has no item \"rules out\"", "another_call is not named"]);
}

#[test]
fn the_form_of_an_entry() {
    let wrong_reading = "- ruled out by: `table/Passing` `passed_on` as `Good t` has it; ";
    TRIAL.after("unsaid", CLAIMS, wrong_reading, "- rules out: ", &["table.md:16: it has no item \"says it\""]);
    TRIAL.after("key", CLAIMS, "- said with:", "- meant by:", &["table.md:9: \"meant by\" has no place here"]);
    TRIAL.after("twice", CLAIMS, "- said with:", "- says it:", &["table.md:9: \"says it\" has no place here"]);
    let order = "- rules out: so\n- said with:";
    TRIAL.after("order", CLAIMS, "- said with:", order, &["table.md:10: \"said with\" has no place here"]);
    let both = "; another\n- ruled out by: `table/Good`\n";
    TRIAL.after("both", CLAIMS, "; another\n", both, &["table.md:15: \"ruled out by\" has no place here"]);
    TRIAL.after(
        "empty",
        CLAIMS,
        "- said with: `table/Good` `.turns`",
        "- rules out:",
        &["\"rules out\" holds nothing"],
    );
    TRIAL.after("words", CLAIMS, "`table/Good` `.turns`", "what there is", &["\"said with\" holds nothing"]);
    TRIAL.after("indented", CLAIMS, "\n  `good_case`", "\n`good_case`", &["a line of \"says it\" is not indented"]);
    let apart = ["table.md:18: an item that stands below no sentence", "table.md:16: it has no item \"says it\""];
    TRIAL.after("apart", CLAIMS, "**two**\n", "**two**\n\n", &apart);
    let bare = ["table.md:12: an item that stands below no", "table.md:14: an item that stands below no"];
    TRIAL.after("bare", CLAIMS, "**one**", "one", &bare);
}

#[test]
fn the_files_of_the_claims() {
    let other = TRIAL.whole("unlisted").add("docs/claims/other.md", "# Other\n\nAbout `table/Bad`.\n");
    TRIAL.found(&other, &["docs/claims/other.md is not listed", "other.md:3: there is no crates/table/specs/Bad.antt"]);
    let gone = TRIAL.whole("file-gone").remove(CLAIMS);
    let unnamed = ["there is no docs/claims/table.md", "table/wrong_number is not", "table/wrong_size is not"];
    TRIAL.found(&gone, &unnamed);
    TRIAL.after("no-about", CLAIMS, "What it is about.\n\n", "", &["table.md:1: it does not begin with a head"]);
    TRIAL.after("no-head", CLAIMS, "# The table\n\n", "", &["table.md:1: it does not begin with a head"]);
    TRIAL.found(&TRIAL.whole("no-index").remove(INDEX), &["docs/CLAIMS.md is not there"]);
}

#[test]
fn the_reading_order() {
    TRIAL.after(
        "order-file",
        INDEX,
        "`Passing.antt`",
        "`Missing.antt`",
        &["CLAIMS.md:28: there is no crates/table/specs/Missing.antt"],
    );
    TRIAL.after("order-name", INDEX, "`Good`, then", "`Best`, then", &["CLAIMS.md:28: table/Good declares no `Best`"]);
    TRIAL.after("order-gone", INDEX, "## In which order", "## In what order", &["no numbered reading order"]);
}
