//! What the prover said of the wrong programs, on a small tree: nothing is found where all is well, and each kind of fault is found.

use ties::refused::faults;
use ties::small::Trial;

const SUMS: &str = "crates/sums/src/sums.rt";
const PROOF: &str = "crates/sums/proofs/sums/two/Answers.antt";
const LAWS: &str = "crates/sums/proofs/laws/Twice.antt";
const BUNDLE: &str = "crates/sums/must-fail/each_function.edit";
const BOUND: &str = "crates/sums/must-fail/nine_allowed.edit";
const LAW: &str = "crates/sums/must-fail/thrice.edit";
const LOG: &str = "target/must-fail/sums/each_function/.log";
const BOUND_LOG: &str = "target/must-fail/sums/nine_allowed/.log";
const LAW_LOG: &str = "target/must-fail/sums/thrice/.log";

/// The source.
macro_rules! sums {
    ($one:literal, $two:literal, $three:literal, $most:literal) => {
        concat!(
            "pub const MOST: u16 = ",
            $most,
            ";\n\npub fn one() -> u16\n    ensures { result ≡ 1 }\n{\n    ",
            $one,
            "\n}\n\npub fn two(n: u16) -> u16\n    ensures { result ≡ 2 * n }\n{\n    ",
            $two,
            "\n}\n\nfn three() -> u16\n    ensures { result ≡ 3 }\n{\n    ",
            $three,
            "\n}\n"
        )
    };
}

/// The files, each below its path and its size: the law, the proof and the source.
macro_rules! sources {
    ($law_size:literal, $law:literal, $size:literal, $proof:literal, $source_size:literal, $source:expr) => {
        concat!(
            "== proofs/laws/Twice.antt ",
            $law_size,
            "\n",
            $law,
            "\n== proofs/sums/two/Answers.antt ",
            $size,
            "\n",
            $proof,
            "\n== src/sums.rt ",
            $source_size,
            "\n",
            $source,
            "\n"
        )
    };
}

const FILES: [(&str, &str); 12] = [
    (SUMS, sums!("1 + 0", "n + n", "one() + 2", "8")),
    (PROOF, "returns c = search rules\nspec = returns\n"),
    (LAWS, "pub twice : n + n ≡ 2 * n\n"),
    (
        BUNDLE,
        "wrong: two_for_one\n# Without a proof file.\nrefused: fn sums::sums::one returns\nfile: src/sums.rt\nold: 1 + 0\nnew: 2 + 0\n\n\
         wrong: once_for_twice\nrefused: proofs/sums/two/Answers.antt returns\nfile: src/sums.rt\nold: n + n\nnew: n + 0\n\
         file: proofs/sums/two/Answers.antt\nold: search rules\nnew: search (rules, arith)\n",
    ),
    (
        BOUND,
        "wrong: nine_allowed\nrefused: proofs/sums/two/Answers.antt returns\nfile: src/sums.rt\nold: = 8;\nnew: = 9;\n",
    ),
    (
        LAW,
        "wrong: thrice\nrefused: proofs/laws/Twice.antt twice\nfile: proofs/laws/Twice.antt\nold: 2 * n\nnew: 3 * n\n",
    ),
    (
        "target/must-fail/sums/each_function/.sources",
        sources!(
            "28",
            "pub twice : n + n ≡ 2 * n\n",
            "49",
            "returns c = search (rules, arith)\nspec = returns\n",
            "229",
            sums!("2 + 0", "n + 0", "one() + 2", "8")
        ),
    ),
    (
        LOG,
        "./proofs/sums/two/Answers.antt:1:13: error: `returns`: computed as far as they go, the two types differ only where one has `n`\n\
         \x20 (expected) and the other has `0` (found)\n\
         ./proofs/sums/two/Answers.antt:1:13: note: the two sides may simply be different\n\
         ./proofs/sums/two/Answers.antt:2:8: error: 1 declaration that depends on `returns`, which was rejected, was not checked: spec\n\
         note: src/sums.rt:6:5: it is not proved that what the function ensures holds when it returns (`returns`); the facts known there allow values\n\
         fn sums::sums::one: no proof: expected answers in ./proofs/sums/one/Answers.antt; `search` did not prove `bound`, `returns`\n\
         fn sums::sums::two: not proved\nfn sums::sums::three: no proof: it calls `sums::sums::one`, which is not proved\nlogic=not-proved\n",
    ),
    (
        "target/must-fail/sums/nine_allowed/.sources",
        sources!(
            "28",
            "pub twice : n + n ≡ 2 * n\n",
            "40",
            "returns c = search rules\nspec = returns\n",
            "229",
            sums!("1 + 0", "n + n", "one() + 2", "9")
        ),
    ),
    (
        BOUND_LOG,
        "./proofs/sums/two/Answers.antt:1:13: error: `returns`: `omega`: the goal does not follow from what it read. \
         All of that holds, and the goal fails, at `n` = 9.\n\
         fn sums::sums::two: not proved\nfn sums::sums::three: not proved\nlogic=not-proved\n",
    ),
    (
        "target/must-fail/sums/thrice/.sources",
        sources!(
            "28",
            "pub twice : n + n ≡ 3 * n\n",
            "40",
            "returns c = search rules\nspec = returns\n",
            "229",
            sums!("1 + 0", "n + n", "one() + 2", "8")
        ),
    ),
    (
        LAW_LOG,
        "./proofs/laws/Twice.antt:1:5: error: `twice`: expected type `3 * n`, but this has type `2 * n`\n\
         ./proofs/sums/two/Answers.antt:1:1: error: 2 declarations that depend on `twice`, which was not admitted, were not checked: returns, spec\n\
         fn sums::sums::two: not proved\nlogic=not-proved\n",
    ),
];

const TRIAL: Trial = Trial { files: &FILES, faults };

const NO_FACT: [&str; 1] =
    ["each_function.edit: once_for_twice: no fact is refused at proofs/sums/two/Answers.antt returns"];

#[test]
fn nothing_where_all_is_well() {
    TRIAL.well("refused");
}

#[test]
fn a_right_program_among_the_wrong_ones() {
    // The prover has nothing to say of it.
    let proved = "fn sums::sums::two: proved\n";
    let right = TRIAL.whole("right").change(LOG, "fn sums::sums::two: not proved\n", proved);
    let spec = "./proofs/sums/two/Answers.antt:2:8: error: 1 declaration that depends on `returns`, which was rejected, was not checked: spec\n";
    TRIAL.found(
        &right.change(LOG, ":1:13: error: `returns`: comp", ":1:13: note: comp").change(LOG, spec, ""),
        &NO_FACT,
    );
    let closed = "fn sums::sums::one: proved\n";
    let open = "fn sums::sums::one: no proof: expected answers in ./proofs/sums/one/Answers.antt; `search` did not prove `bound`, `returns`\n";
    let proved = ["two_for_one: no fact is refused at fn sums::sums::one returns"];
    TRIAL.after("right-search", LOG, open, closed, &proved);
    let other = TRIAL.whole("other-need").change(LOG, "`bound`, `returns`", "`bound` and `again`");
    TRIAL.found(&other.change(LOG, "returns (`returns`);", "returns (`again`);"), &proved);
}

#[test]
fn a_need_that_the_search_left_open() {
    // Of a function of which another need is answered, a note says it alone.
    let open =
        "no proof: expected answers in ./proofs/sums/one/Answers.antt; `search` did not prove `bound`, `returns`";
    let fault = ["two_for_one: no fact is refused at fn sums::sums::one returns"];
    for (name, verdict) in [("open", "not proved"), ("open-follows", "not proved; it calls `x`, which is not proved")] {
        TRIAL.after(name, LOG, open, verdict, &[]);
    }
    let noted = |name: &str| TRIAL.whole(name).change(LOG, open, "not proved");
    // In the line that declares the next function, and above the first.
    TRIAL.found(&noted("open-next").change(LOG, "sums.rt:6:5:", "sums.rt:9:1:"), &fault);
    TRIAL.found(&noted("open-last").change(LOG, "sums.rt:6:5:", "sums.rt:7:2:"), &[]);
    TRIAL.found(&noted("open-first").change(LOG, "sums.rt:6:5:", "sums.rt:3:1:"), &[]);
    TRIAL.found(&noted("open-above").change(LOG, "sums.rt:6:5:", "sums.rt:2:1:"), &fault);
    TRIAL.found(&noted("open-file").change(LOG, "src/sums.rt:6:5:", "src/adds.rt:6:5:"), &fault);
    TRIAL.found(&noted("open-other").change(LOG, "returns (`returns`);", "returns (`bound`);"), &fault);
    TRIAL.found(&noted("open-said").change(LOG, "it is not proved that", "it may not be that"), &fault);
    // The note alone says nothing of a function that is proved.
    TRIAL.after("open-proved", LOG, open, "proved", &fault);
    TRIAL.after("both", LOG, "`bound`, `returns`", "`bound` and `returns`", &[]);
}

#[test]
fn a_law() {
    let own = "refused: proofs/laws/Twice.antt twice";
    let fault = ["thrice: no fact is refused at proofs/laws/Twice.antt half"];
    TRIAL.after("law", LAW, own, "refused: proofs/laws/Twice.antt half", &fault);
    let follows = ["thrice: no fact is refused at proofs/sums/two/Answers.antt returns"];
    TRIAL.after("law-follows", LAW, own, "refused: proofs/sums/two/Answers.antt returns", &follows);
    // A lemma of a function's own is no statement.
    let lemma = TRIAL.whole("lemma").add("crates/sums/proofs/laws/two/Answers.antt", "2 * n\n");
    let other =
        ["each_function is not this", "nine_allowed is not this", "thrice: it changes neither code nor a statement"];
    TRIAL.found(&lemma.change(LAW, "file: proofs/laws/Twice.antt", "file: proofs/laws/two/Answers.antt"), &other);
    for path in ["proofs/Theorems.antt", "specs/laws/Twice.antt"] {
        let theorems = TRIAL.whole("theorems").add(&format!("crates/sums/{path}"), "pub twice : n + n ≡ 2 * n\n");
        let of_others = "is not this edit of these sources";
        let none = "thrice: no fact is refused at";
        let moved = theorems.change(LAW, "file: proofs/laws/Twice.antt", &format!("file: {path}"));
        TRIAL.found(
            &moved.change(LAW, own, &format!("refused: {path} twice")),
            &[of_others, of_others, of_others, none],
        );
    }
}

#[test]
fn a_need_that_only_another_wrong_program_breaks() {
    let own = "refused: proofs/sums/two/Answers.antt returns";
    let other = "refused: fn sums::sums::one returns";
    let fault = ["once_for_twice: it changes sums::sums::two, and `fn sums::sums::one returns` is not of its proof"];
    TRIAL.after("other-function", BUNDLE, own, other, &fault);
    // `spec` only follows.
    let spec = "refused: proofs/sums/two/Answers.antt spec";
    TRIAL.after("follows", BUNDLE, own, spec, &["no fact is refused at proofs/sums/two/Answers.antt spec"]);
    // What is said of another function's proof is not said of this one.
    TRIAL.after(
        "elsewhere",
        LOG,
        "./proofs/sums/two/Answers.antt:1:13: error",
        "./proofs/sums/one/Answers.antt:1:13: error",
        &NO_FACT,
    );
}

#[test]
fn an_error_of_shape() {
    let fact = "computed as far as they go, the two types differ only where one has `n`\n  (expected)";
    for (name, shape) in [
        ("named", "`goal.returns`: module `Rattle.sums.proofs.sums.two.Goals` has no `returns` that can be named from here\n "),
        ("field", "the record has no field `two`\n "),
        ("scope", "`two` is not in scope\n "),
        ("dimension", "a dimension (`0`, `1` or an interval variable) is expected here\n "),
        ("places", "expected type `Lts.View.In-Else-n`, but this has type `Lts.View.In-Then-n`\n  (expected)"),
        ("reworded", "the types `n` and `0` do not agree\n "),
    ] {
        let of_shape = "proofs/sums/two/Answers.antt returns is refused for its shape: ";
        TRIAL.after(name, LOG, fact, shape, &[NO_FACT[0], of_shape]);
    }
    // Beside a fact it is a fault too, and so is an error of no declaration.
    let spec = "1 declaration that depends on `returns`, which was rejected, was not checked: spec";
    let of_shape = "proofs/sums/two/Answers.antt spec is refused for its shape: too many arguments";
    TRIAL.after("beside", LOG, spec, "`spec`: too many arguments", &[of_shape]);
    TRIAL.after("unnamed", LOG, spec, "too many arguments", &["is refused for its shape: too many arguments"]);
    TRIAL.after("unread", LOG, spec, "declarations were not checked", &["its shape: declarations were not checked"]);
    let code = "error[mismatched-types]: src/sums.rt:6:5: expected u16\nfn sums::sums::two: not proved";
    TRIAL.after("code", LOG, "fn sums::sums::two: not proved", code, &["is refused for its shape: [mismatched-types]"]);
    let code = "src/sums.rt:6:5: error[mismatched-types]: expected u16\nfn sums::sums::two: not proved";
    TRIAL.after("code-at", LOG, "fn sums::sums::two: not proved", code, &["src/sums.rt  is refused for its shape"]);
}

#[test]
fn a_reworded_line() {
    TRIAL.after("error", LOG, "1:13: error: `returns`", "1:13: failure: `returns`", &NO_FACT);
    TRIAL.after("verdict", LOG, "logic=not-proved", "logic=refuted", &["did not say that it is not proved"]);
    let says_nothing = ["two_for_one: no fact is refused at fn sums::sums::one returns"];
    TRIAL.after("search", LOG, "`search` did not prove", "`search` leaves open", &says_nothing);
    TRIAL.after(
        "follows-otherwise",
        LOG,
        "no proof: it calls",
        "no proof: due to",
        &["nothing is said of sums::sums::three"],
    );
    TRIAL.after(
        "said-otherwise",
        LOG,
        "no proof: it calls",
        "not covered; due to",
        &["nothing is said of sums::sums::three"],
    );
    TRIAL.after("unproved", LOG, "two: not proved", "two: unproved", &[]);
    let three = "fn sums::sums::three: no proof: it calls `sums::sums::one`, which is not proved";
    TRIAL.after("not-said", LOG, three, "fn sums::sums::three: no holes", &["nothing is said of sums::sums::three"]);
}

#[test]
fn a_function_that_no_wrong_program_changes() {
    let besides = ["each_function.edit: sums::sums::three fails too, and no wrong program changes it"];
    let follows = "no proof: it calls `sums::sums::one`, which is not proved";
    TRIAL.after("besides", LOG, follows, "not proved", &besides);
    let open = "no proof: expected answers in ./proofs/sums/three/Answers.antt; `search` did not prove `returns`";
    TRIAL.after("besides-open", LOG, follows, open, &besides);
    TRIAL.after("proved", LOG, follows, "proved", &[]);
    let several = "not proved; it calls `sums::sums::one` and `sums::sums::two`, which are not proved";
    TRIAL.after("follows-several", LOG, follows, several, &[]);
    let by_hand = "not proved; the borrow checker does not cover this function yet: /a/sums.rt:1:2: a reference";
    TRIAL.after("by-hand", LOG, follows, by_hand, &besides);
    // It calls a function that is not proved, and its own proof is refused besides.
    let own = "error: `returns`: expected type `0`, but this has type `1`\nfn sums::sums::one: no proof";
    let at = "./proofs/sums/three/Answers.antt:1:1: ";
    TRIAL.after("own-too", LOG, "fn sums::sums::one: no proof", &format!("{at}{own}"), &besides);
}

#[test]
fn a_log_that_is_missing_or_of_other_sources() {
    let missing = ["each_function.edit: there is no target/must-fail/sums/each_function/.log"];
    TRIAL.found(&TRIAL.whole("missing").remove(LOG), &missing);
    let of_others = "is not this edit of these sources";
    TRIAL.after("source", SUMS, "one() + 2", "one() + 2 + 0", &[of_others, of_others, of_others]);
    TRIAL.after("proof", PROOF, "spec = returns", "spec = returns!", &[of_others, of_others, of_others]);
    TRIAL.after("edit", BOUND, "new: = 9;", "new: = 10;", &[of_others]);
    TRIAL.found(&TRIAL.whole("more").add("crates/sums/src/more.rt", "\n"), &[of_others, of_others, of_others]);
    TRIAL.found(
        &TRIAL.whole("no-sources").remove("target/must-fail/sums/thrice/.sources"),
        &["thrice is not this edit of these sources; tests/try-edits tries it again"],
    );
    TRIAL.found(
        &TRIAL.whole("less").remove(PROOF),
        &[
            "there is no proofs/sums/two/Answers.antt",
            "once_for_twice: there is no proofs/sums/two/Answers.antt",
            of_others,
            of_others,
        ],
    );
}

#[test]
fn a_section_that_is_not_whole() {
    let place = "refused: fn sums::sums::one returns\n";
    TRIAL.after("no-place", BUNDLE, place, "", &["two_for_one: 0 lines `refused: PLACE NEED`, not 1"]);
    let again = "refused: fn sums::sums::one returns\nrefused: fn sums::sums::one bound\n";
    TRIAL.after("two-places", BUNDLE, place, again, &["two_for_one: 2 lines `refused: PLACE NEED`, not 1"]);
    TRIAL.after("half", BUNDLE, place, "refused: returns\n", &["cannot read `refused: returns`", "0 lines `refused"]);
    TRIAL.after(
        "no-name",
        BOUND,
        "wrong: nine_allowed\n",
        "",
        &[
            "cannot read `refused: ",
            "cannot read `file: ",
            "cannot read `old: ",
            "cannot read `new: ",
            "no line `wrong: NAME`",
        ],
    );
    TRIAL.after("no-new", BOUND, "new: = 9;\n", "", &["cannot read `old: = 8;`", "neither code nor a statement"]);
    TRIAL.after(
        "no-file",
        BOUND,
        "file: src/sums.rt\n",
        "",
        &["cannot read `new: = 9;`", "cannot read `old: = 8;`", "neither code nor"],
    );
    TRIAL.after("stray", BOUND, "old: = 8;", "otherwise: = 8;\nold: = 8;", &["cannot read `otherwise: = 8;`"]);
    TRIAL.after(
        "proof-alone",
        BOUND,
        "file: src/sums.rt\nold: = 8;\nnew: = 9;",
        "file: proofs/sums/two/Answers.antt\nold: spec\nnew: spec2",
        &["neither code nor a statement"],
    );
    // A text that another section puts there.
    TRIAL.after(
        "leaning",
        BUNDLE,
        "old: n + n\nnew: n + 0",
        "old: 2 + 0\nnew: n + 0",
        &["once_for_twice: `2 + 0` stands in src/sums.rt 0 times"],
    );
}

#[test]
fn sections_that_may_not_share_a_file() {
    let several = "wrong: nine_allowed\n";
    let more = "wrong: three_for_one\nrefused: proofs/sums/three/Proof.antt returns\nfile: src/sums.rt\nold: one() + 2\nnew: one() + 3\n\nwrong: nine_allowed\n";
    // A constant is read by any function.
    TRIAL.after(
        "constant",
        BOUND,
        several,
        more,
        &["name of one", "nine_allowed: it changes more than a body, and is not alone"],
    );
    // A contract is what callers go by.
    TRIAL.after(
        "contract",
        BUNDLE,
        "old: 1 + 0\nnew: 2 + 0",
        "old: result ≡ 1\nnew: result ≡ 2",
        &["two_for_one: it changes more than a body, and is not alone"],
    );
    // Two of one function: one may hide the other.
    TRIAL.after(
        "twice",
        BUNDLE,
        "old: 1 + 0\nnew: 2 + 0",
        "old: n + n\nnew: n * n",
        &[
            "once_for_twice: a second wrong program of sums::sums::two",
            "`n + n` stands in src/sums.rt 0 times",
            "two_for_one: it changes sums::sums::two, and",
        ],
    );
    // Another function's proof.
    TRIAL.after(
        "proofs",
        BUNDLE,
        "old: n + n\nnew: n + 0",
        "old: one() + 2\nnew: one() + 3",
        &["once_for_twice: it changes more than a body, and is not alone"],
    );
}

#[test]
fn names() {
    TRIAL.after("one", BOUND, "wrong: nine_allowed", "wrong: ten_allowed", &["its one wrong program is ten_allowed"]);
    TRIAL.after(
        "same",
        BUNDLE,
        "wrong: two_for_one",
        "wrong: nine_allowed",
        &["crates/sums/must-fail: two wrong programs are named nine_allowed"],
    );
}
