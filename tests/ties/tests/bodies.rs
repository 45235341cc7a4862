//! The functions of a source: those of an impl under its name, and none that has no body of lines of its own; and what they ask of who calls them.

use ties::rattle::functions;

const SOURCE: &str = "pub trait Counter {\n    ghost shows: { Self };\n\n    fn count(&mut self)\n        ensures { more };\n\n\
    \x20   fn twice(&mut self) {\n        self.count();\n        self.count();\n    }\n}\n\npub struct Uncounted;\n\n\
    impl Counter for Uncounted {\n    fn count(&mut self) {}\n}\n\nimpl Counter for usize {\n    fn count(&mut self) {\n        *self += 1;\n    }\n}\n\n\
    pub fn read(i: usize) -> u16\n    ensures { r }\n{\n    i as u16\n}\n";

#[test]
fn paths_and_bodies() {
    let found: Vec<(String, String)> = functions(SOURCE).into_iter().map(|one| (one.path(), one.body)).collect();
    let expected = [
        ("twice", "        self.count();\n        self.count();\n"),
        ("UsizeCounter::count", "        *self += 1;\n"),
        ("read", "    i as u16\n"),
    ];
    let expected = expected.map(|(path, body)| (path.to_string(), body.to_string()));
    assert_eq!(found, expected);
}

#[test]
fn what_is_asked() {
    let asks = |declared: &str| functions(&format!("{declared}\n{{\n    0\n}}\n"))[0].asks();
    assert!(!asks("pub fn f(t: &[u16]) -> u16\n    ensures { r }"));
    assert!(asks("pub fn f(t: &[u16]) -> u16\n    requires { p }\n    ensures { r }"));
    // Of what length a slice is can be asked by its type.
    assert!(asks("pub fn f(t: &[u16; WORDS]) -> u16\n    ensures { r }"));
}
