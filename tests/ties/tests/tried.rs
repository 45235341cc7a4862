//! Whether wrong programs are tried, on a small tree: nothing is found where all is well, and a function without one is.

use ties::small::Trial;
use ties::tried::faults;

const SUMS: &str = "crates/sums/src/sums.rt";
const EDIT: &str = "crates/sums/must-fail/two_for_one.edit";

const FILES: [(&str, &str); 2] = [
    (
        SUMS,
        "pub fn one() -> u16\n    ensures { result ≡ 1 }\n{\n    1 + 0\n}\n\n\
         pub fn inner(n: u16) -> u16\n    requires { n < 9 }\n    ensures { result ≡ n }\n{\n    n\n}\n\n\
         fn own() -> u16\n    ensures { result ≡ 7 }\n{\n    7\n}\n",
    ),
    (
        EDIT,
        "wrong: two_for_one\nrefused: fn sums::sums::one returns\nfile: src/sums.rt\nold:     1 + 0\nnew:     2 + 0\n",
    ),
];

const UNTRIED: [&str; 1] = ["no wrong program changes the body of one"];

const TRIAL: Trial = Trial { files: &FILES, faults };

#[test]
fn nothing_where_all_is_well() {
    TRIAL.well("tried");
}

#[test]
fn a_function_without_an_edit() {
    TRIAL.found(&TRIAL.whole("untried").remove(EDIT), &UNTRIED);
    TRIAL.after("public", SUMS, "fn own()", "pub fn own()", &["the body of own"]);
    TRIAL.after("named-clause", SUMS, "requires { n < 9 }", "requires low { n < 9 }", &[]);
    TRIAL.after("named-promise", SUMS, "requires { n < 9 }", "ensures low { n < 9 }", &["the body of inner"]);
    // Neither a remark nor a name of the contract asks anything of a caller.
    let remark = "pub fn own() -> u16 /* requires { nothing } */";
    TRIAL.after("remark", SUMS, "fn own() -> u16", remark, &["the body of own"]);
    TRIAL.after(
        "lines-of-remark",
        SUMS,
        "fn own()",
        "pub fn own() /*\n    requires { nothing }\n*/",
        &["the body of own"],
    );
    let named =
        TRIAL.whole("named").change(SUMS, "fn own()", "pub fn own()").change(SUMS, "result ≡ 7", "result ≡ requires 7");
    TRIAL.found(&named, &["the body of own"]);
}

#[test]
fn an_edit_elsewhere() {
    TRIAL.after("statement", EDIT, "old:     1 + 0", "old:     ensures { result ≡ 1 }", &UNTRIED);
    TRIAL.after("callee", EDIT, "old:     1 + 0", "old:     7", &UNTRIED);
    TRIAL.after("file", EDIT, "src/sums.rt", "src/other.rt", &UNTRIED);
}
