//! The two rooms of the specs on a small tree: nothing is found where all is well, and each kind of fault is found.

use ties::rooms::faults;
use ties::small::Trial;

const GOOD: &str = "crates/table/specs/Good.antt";
const CHECK: &str = "crates/table/specs/Check.antt";
const WHOLE: &str = "crates/table/src/whole.rt";

const FILES: [(&str, &str); 5] = [
    (
        GOOD,
        "-- the laws stand in specs.laws.Deep\nuse Rattle.table.specs.Layout.{words}\n\
         pub record Good : Type 0 where\n  pub laws : t.laws words -- by laws.Deep\n",
    ),
    (CHECK, "use Rattle.table.specs.laws.Decided.{good_dec}\n"),
    ("crates/table/specs/Theorems.antt", "use Rattle.table.specs.laws.Deep as deep\n"),
    ("crates/table/specs/laws/Deep.antt", "use Rattle.table.specs.laws.Decided.{good_dec}\n"),
    (
        WHOLE,
        "ghost use Rattle.table.specs.laws.Deep.{Deep, Far as Away};\nghost use Rattle.table.specs.Good.{Good};\n\n\
         pub fn check(t: &[u16]) -> bool\n    ensures { Good result Deeper }\n{\n    true\n}\n\n\
         pub fn inner(t: &[u16]) -> bool\n    requires { Deep }\n    ensures { Away }\n{\n    true\n}\n\n\
         fn own(t: &[u16]) -> bool\n    ensures { Deep }\n{\n    true\n}\n",
    ),
];

const TRIAL: Trial = Trial { files: &FILES, faults };

#[test]
fn nothing_where_all_is_well() {
    TRIAL.well("rooms");
}

#[test]
fn a_definition_that_names_a_law() {
    TRIAL.after("law", GOOD, "specs.Layout.", "specs.laws.Layout.", &["table/Good names a law"]);
    TRIAL.after("whole", GOOD, "specs.Layout.{words}", "specs.laws as why", &["table/Good names a law"]);
    TRIAL.after("listed", GOOD, "Layout.{words}", "{laws}", &["table/Good names a law"]);
    TRIAL.after("lines", GOOD, "Layout.{words}", "{\n  Layout,\n  laws as why,\n}", &["table/Good names a law"]);
    TRIAL.after("long-list", GOOD, "Layout.{words}", "Layout.{\n  words,\n  darts,\n}", &[]);
    TRIAL.after("on", GOOD, "use Rattle.table.specs.Layout", "pub use Rattle.table.specs.laws.Layout", &["names"]);
    TRIAL.after("path", GOOD, "  pub laws : ", "  pub far : specs.laws.Deep.", &["table/Good names a law:   pub far"]);
    TRIAL.after("theorem", GOOD, "specs.Layout.", "specs.Theorems.", &["table/Good names a law"]);
    TRIAL.after("field", GOOD, "t.laws ", "t.laws.Deep ", &["table/Good names a law"]);
    TRIAL.after("fields", GOOD, "t.laws ", "(t.laws.deep).laws ", &[]);
    let of_proofs = "Rattle.table.proofs.Layout.";
    TRIAL.after("proofs", GOOD, "Rattle.table.specs.Layout.", of_proofs, &["table/Good names a law"]);
    let deep = "Rattle.table.proofs.laws.Deep.";
    TRIAL.after("proofs-laws", GOOD, "Rattle.table.specs.Layout.", deep, &["table/Good names a law"]);
    TRIAL.after("proofs-path", GOOD, "t.laws ", "Rattle.table.proofs.layout.t ", &["table/Good names a law"]);
    // Words of the library, whose proofs declare them.
    TRIAL.after("library", GOOD, "Rattle.table.specs.Layout.", "Rattle.std.proofs.Math.", &[]);
}

#[test]
fn a_definition_read_off_another_proof() {
    TRIAL.after("other", CHECK, "laws.Decided", "laws.Deep", &["table/Check names a law"]);
    TRIAL.after("more", CHECK, "{good_dec}", "{good_dec, deep}", &["table/Check names a law"]);
    TRIAL.after("passed", CHECK, "use Rattle", "pub use Rattle", &["table/Check names a law"]);
    let second = TRIAL.whole("second").add("crates/table/specs/Again.antt", FILES[1].1);
    TRIAL.found(&second, &["table/Again names a law"]);
}

#[test]
fn a_public_contract_that_names_a_law() {
    TRIAL.after("contract", WHOLE, "Good result Deeper", "Good result Deep", &["the contract of check names `Deep`"]);
    TRIAL.after("alias", WHOLE, "Good result Deeper", "Good (Away)", &["the contract of check names `Away`"]);
    let lines = "laws.Deep.{\n  Deep,\n  Far as Away,\n}";
    let long = TRIAL.whole("contract-lines").change(WHOLE, "laws.Deep.{Deep, Far as Away}", lines);
    TRIAL.found(&long.change(WHOLE, "Good result Deeper", "Good (Away)"), &["the contract of check names `Away`"]);
    let path = "Good Rattle.table.specs.laws.Deep.Deep result";
    TRIAL.after("contract-path", WHOLE, "Good result Deeper", path, &["names `Deep`", "check has a path into laws/"]);
    let module = "ghost use Rattle.table.specs.laws.Rest as rest;\nghost use Rattle.table.specs.laws.Deep";
    let whole = TRIAL.whole("contract-module").change(WHOLE, "ghost use Rattle.table.specs.laws.Deep", module);
    TRIAL
        .found(&whole.change(WHOLE, "Good result Deeper", "rest.good result"), &["the contract of check names `rest`"]);
}
