//! include/planner.h against the exported signatures of crates/planner/src/lib.rt: contracts name arguments, and C goes by
//! their places, so names, order and types have to be the same in both, and so the fields of the records that are lent.
//! And the numbers that a host works with as the sources do.
//!
//! In C a slice `x` is a pointer `x` and then its size, `n_x`, `x_words` or `x_bytes`. A struct `Name` of the sources is
//! `struct planner_name`. Four names differ, and keep the documents' words in the header: the table's slice is `t` in the
//! sources (where `table` is a crate), `table` and its size `words` in C; `kind` of a step is `type` in C; `strip`, the length of
//! an edge, is `length` in C, since `length` in a contract is a list's; `Standing`, a reader without the table, is `struct
//! planner_reader` in C, since `Reader` of the sources holds the table too.

use crate::header::{self, Header};
use crate::rattle::{self, Function};
use crate::tree::Tree;
use std::collections::BTreeSet;

const HEADER: &str = "include/planner.h";
const EXPORTS: &str = "crates/planner/src/lib.rt";

/// Numbers of the header, each with the source and the constant that it is.
const NUMBERS: [(&str, &str, &str); 12] = [
    ("PLANNER_TABLE_WORDS", "crates/table/src/layout.rt", "WORDS"),
    ("PLANNER_LENGTH_AT", "crates/table/src/layout.rt", "LENGTH"),
    ("PLANNER_OVER_ALLOWANCE", "crates/lengths/src/length.rt", "OVER_ALLOWANCE"),
    ("PLANNER_LAP", "crates/lengths/src/length.rt", "LAP"),
    ("PLANNER_METRE", "crates/prices/src/rows.rt", "METRE"),
    ("PLANNER_ROW_WORDS", "crates/prices/src/rows.rt", "ROW"),
    ("PLANNER_MARK_AV", "crates/records/src/records.rt", "MARK_AV"),
    ("PLANNER_MARK_RV", "crates/records/src/records.rt", "MARK_RV"),
    ("PLANNER_MARK_IE", "crates/records/src/records.rt", "MARK_IE"),
    ("PLANNER_MARK_IL", "crates/records/src/records.rt", "MARK_IL"),
    ("PLANNER_MARK_DE", "crates/records/src/records.rt", "MARK_DE"),
    ("PLANNER_MARK_TW", "crates/records/src/records.rt", "MARK_TW"),
];

/// One line for each difference.
pub fn faults(tree: &Tree) -> Vec<String> {
    let (Some(header), Some(source)) = (tree.read(HEADER), tree.read(EXPORTS)) else {
        return vec![format!("{HEADER} or {EXPORTS} is not there")];
    };
    let other_numbers = numbers_apart(tree, &header);
    let header = header::read(&header);
    let functions = rattle::functions(&source);
    let mut faults: Vec<String> = header.unread.iter().map(|item| format!("{HEADER}: cannot read `{item}`")).collect();
    faults.extend(functions_apart(&header, &functions));
    let mut lent = BTreeSet::new();
    for function in &functions {
        if let Some(prototype) = header.prototypes.iter().find(|prototype| prototype.name == function.name) {
            faults.extend(compare_function(prototype, function, &mut lent));
        }
    }
    for name in &lent {
        faults.extend(compare_record(tree, &source, &header, name));
    }
    for record in &header.records {
        if !lent.iter().any(|name| record_name(name) == record.name) {
            faults.push(format!("{HEADER}: no exported function is lent a struct {}", record.name));
        }
    }
    faults.extend(other_numbers);
    faults
}

/// Numbers that are missing or differ.
fn numbers_apart(tree: &Tree, header: &str) -> Vec<String> {
    let compared = NUMBERS.iter().filter_map(|(name, path, constant)| {
        let declared = tree.read(path).and_then(|text| rattle::constant(&text, constant));
        match (header::number(header, name), declared) {
            (None, _) => Some(format!("{HEADER}: the number {name} is missing")),
            (_, None) => Some(format!("{path}: the constant {constant} is missing")),
            (Some(given), Some(wanted)) => {
                (given != wanted).then(|| format!("{HEADER}: {name} is {given}, {constant} of {path} is {wanted}"))
            }
        }
    });
    compared.collect()
}

/// Functions that stand on one side alone, or are not exported.
fn functions_apart(header: &Header, functions: &[Function]) -> Vec<String> {
    let mut faults = Vec::new();
    for function in functions.iter().filter(|function| function.name.starts_with("planner_")) {
        if !function.exported {
            faults
                .push(format!("{EXPORTS}: {} is not exported by #[unsafe(no_mangle)] and extern \"C\"", function.name));
        }
        match header.prototypes.iter().filter(|prototype| prototype.name == function.name).count() {
            0 => faults.push(format!("{HEADER}: {} is missing", function.name)),
            1 => {}
            _ => faults.push(format!("{HEADER}: {} is declared twice", function.name)),
        }
    }
    for prototype in &header.prototypes {
        if !functions.iter().any(|function| function.name == prototype.name) {
            faults.push(format!("{EXPORTS}: {} is missing", prototype.name));
        }
    }
    faults
}

fn compare_function(prototype: &header::Prototype, function: &Function, lent: &mut BTreeSet<String>) -> Vec<String> {
    let name = &function.name;
    let mut faults = Vec::new();
    let mut expected = Vec::new();
    for (argument, kind) in &function.arguments {
        match in_c(argument, kind, lent) {
            Some(arguments) => expected.extend(arguments),
            None => faults.push(format!("{EXPORTS}: {name}: cannot read the type of `{argument}: {kind}`")),
        }
    }
    if number(&function.answer) != Some(prototype.answer.as_str()) {
        faults.push(format!("{name}: answers {} in the header, {} in the sources", prototype.answer, function.answer));
    }
    let given = &prototype.arguments;
    if given.len() != expected.len() {
        faults.push(format!("{name}: {} arguments in the header, {} in the sources", given.len(), expected.len()));
    }
    for (i, ((kind, argument), wanted)) in given.iter().zip(&expected).enumerate() {
        if *kind != wanted.kind || !wanted.names.contains(argument) {
            let wanted = format!("{} {}", wanted.kind, wanted.names.join(" or "));
            faults.push(format!("{name}: argument {} is `{kind} {argument}`, not `{wanted}`", i + 1));
        }
    }
    faults
}

/// What an argument has to be in C: its type, and the names it may have there.
struct Wanted {
    kind: String,
    names: Vec<String>,
}

fn in_c(argument: &str, kind: &str, lent: &mut BTreeSet<String>) -> Option<Vec<Wanted>> {
    let pointer_name = if argument == "t" { "table".to_string() } else { name_in_c(argument) };
    let (constant, lent_kind) = match (kind.strip_prefix("&mut "), kind.strip_prefix('&')) {
        (Some(kind), _) => ("", kind),
        (None, Some(kind)) => ("const ", kind),
        (None, None) => return Some(vec![Wanted { kind: value(kind, lent)?, names: vec![name_in_c(argument)] }]),
    };
    let elements = lent_kind.strip_prefix('[').and_then(|kind| kind.strip_suffix(']'));
    let element = value(elements.unwrap_or(lent_kind), lent)?;
    let mut wanted = vec![Wanted { kind: format!("{constant}{element} *"), names: vec![pointer_name.clone()] }];
    if elements.is_some() {
        wanted.push(Wanted { kind: "size_t".to_string(), names: size_names(&pointer_name) });
    }
    Some(wanted)
}

fn size_names(pointer: &str) -> Vec<String> {
    match pointer {
        "table" => vec!["words".to_string()],
        _ => vec![format!("n_{pointer}"), format!("{pointer}_words"), format!("{pointer}_bytes")],
    }
}

/// `kind` of a step is `type` in C, as in `start_kind`.
fn name_in_c(name: &str) -> String {
    let part_in_c = |part| match part {
        "kind" => "type",
        "strip" => "length",
        part => part,
    };
    name.split('_').map(part_in_c).collect::<Vec<_>>().join("_")
}

/// A number's type in C.
fn number(kind: &str) -> Option<&'static str> {
    Some(match kind {
        "u8" => "uint8_t",
        "u16" => "uint16_t",
        "u32" => "uint32_t",
        "u64" => "uint64_t",
        "i8" => "int8_t",
        "i16" => "int16_t",
        "i32" => "int32_t",
        "i64" => "int64_t",
        "f32" => "float",
        "f64" => "double",
        "usize" => "size_t",
        _ => return None,
    })
}

/// The type in C of a number or a record; a record is noted as lent.
fn value(kind: &str, lent: &mut BTreeSet<String>) -> Option<String> {
    if let Some(number) = number(kind) {
        return Some(number.to_string());
    }
    let plain = kind.starts_with(|c: char| c.is_ascii_uppercase()) && kind.chars().all(char::is_alphanumeric);
    plain.then(|| {
        lent.insert(kind.to_string());
        format!("struct {}", record_name(kind))
    })
}

fn record_name(name: &str) -> String {
    match name {
        "Standing" => "planner_reader".to_string(),
        _ => format!("planner_{}", name.to_lowercase()),
    }
}

/// A lent record: its fields in the header against those of the struct, which must be laid out as C does.
fn compare_record(tree: &Tree, source: &str, header: &Header, name: &str) -> Vec<String> {
    let in_header = record_name(name);
    let Some(record) = header.records.iter().find(|record| record.name == in_header) else {
        return vec![format!("{HEADER}: struct {in_header} is missing")];
    };
    let path = rattle::used_from(source, name).and_then(|from| {
        let (first, rest) = from.split_once("::")?;
        Some(format!("crates/{first}/src/{}.rt", rest.replace("::", "/")))
    });
    let text = path.as_ref().map_or(Some(source.to_string()), |path| tree.read(path));
    let path = path.unwrap_or(EXPORTS.to_string());
    let Some(found) = text.and_then(|text| rattle::structs(&text).into_iter().find(|found| found.name == name)) else {
        return vec![format!("{path}: struct {name} is not there")];
    };
    let mut faults = Vec::new();
    if !found.repr_c {
        faults.push(format!("{path}: struct {name} is not #[repr(C)]"));
    }
    if record.fields.len() != found.fields.len() {
        let (given, wanted) = (record.fields.len(), found.fields.len());
        faults.push(format!("struct {in_header}: {given} fields in the header, {wanted} in the sources"));
    }
    for (i, ((kind, field), (wanted, wanted_kind))) in record.fields.iter().zip(&found.fields).enumerate() {
        let (wanted, wanted_kind) = (name_in_c(wanted), number(wanted_kind).unwrap_or("no number"));
        if *field != wanted || kind != wanted_kind {
            faults
                .push(format!("struct {in_header}: field {} is `{kind} {field}`, not `{wanted_kind} {wanted}`", i + 1));
        }
    }
    faults
}
