//! How the functions of a source are named, also those within an impl.

use ties::rattle::functions;

const SOURCE: &str = "pub fn one() -> u16 {\n    1\n}\n\nimpl<'a, T: Copy> Iterator for Steps<'a, T> {\n    type Item = u16;\n\n    \
     fn next(&mut self) -> Option<u16>\n        requires { 1 ≡ 1 }\n    {\n        if true {\n            return None;\n        }\n        None\n    }\n\n    \
     fn size_hint(&self) -> usize {\n        0\n    }\n}\n\nimpl TryFrom<u8> for Kind {\n    fn try_from(n: u8) -> Kind {\n        Kind::One\n    }\n}\n\n\
     impl Kind {\n    pub fn two(self) -> u16 {\n        2\n    }\n}\n\nimpl Rank for &u8 {\n    fn rank(&self) -> u8 {\n        3\n    }\n}\n\nfn last() {\n}\n";

#[test]
fn names_within_an_impl() {
    let names: Vec<String> = functions(SOURCE).iter().map(|function| function.path()).collect();
    let within = [
        "one",
        "StepsIterator::next",
        "StepsIterator::size_hint",
        "KindTryFromU8::try_from",
        "Kind::two",
        "RefU8Rank::rank",
        "last",
    ];
    assert_eq!(names, within);
}

#[test]
fn bodies_within_an_impl() {
    let found = functions(SOURCE);
    assert_eq!(found[1].body, "        if true {\n            return None;\n        }\n        None\n");
    assert_eq!(found[2].body, "        0\n");
    assert_eq!(found[1].lines, 8..=15);
}
