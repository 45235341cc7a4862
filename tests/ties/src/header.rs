//! The prototypes, records and numbers of include/planner.h. It reads the plain C that the header is written in, and names what it
//! cannot read.

pub struct Prototype {
    pub name: String,
    pub answer: String,
    /// Each argument's type and name, as `const uint16_t *` and `table`.
    pub arguments: Vec<(String, String)>,
}

pub struct Record {
    pub name: String,
    /// Each field's type and name.
    pub fields: Vec<(String, String)>,
}

#[derive(Default)]
pub struct Header {
    pub prototypes: Vec<Prototype>,
    pub records: Vec<Record>,
    /// What was not understood.
    pub unread: Vec<String>,
}

/// The text without what stands between /* and */.
pub fn without_comments(text: &str) -> String {
    let mut rest = text;
    let mut kept = String::new();
    while let Some((before, comment)) = rest.split_once("/*") {
        kept.push_str(before);
        rest = comment.split_once("*/").map_or("", |(_, after)| after);
    }
    kept.push_str(rest);
    kept
}

/// A number as C and the sources write it, in decimal or from 0x on in hexadecimal.
pub fn value(text: &str) -> Option<u64> {
    match text.strip_prefix("0x") {
        Some(digits) => u64::from_str_radix(digits, 16).ok(),
        None => text.parse().ok(),
    }
}

/// What `#define name number` gives a name.
pub fn number(text: &str, name: &str) -> Option<u64> {
    let text = without_comments(text);
    let defined = text.lines().find_map(|line| line.strip_prefix("#define ")?.strip_prefix(name)?.strip_prefix(' '));
    value(defined?.trim())
}

/// The text without comments and without the preprocessor's lines; `extern "C" {` and its brace stand for C++ alone.
fn stripped(text: &str) -> String {
    let kept = without_comments(text);
    // A preprocessor's line that ends in \ goes on in the next one.
    let (mut for_cpp, mut goes_on) = (false, false);
    let mut lines = Vec::new();
    for line in kept.lines() {
        if line.starts_with('#') {
            for_cpp = line.starts_with("#ifdef __cplusplus");
            goes_on = line.ends_with('\\');
        } else if goes_on {
            goes_on = line.ends_with('\\');
        } else if !for_cpp {
            lines.push(line);
        }
    }
    lines.join("\n")
}

pub fn read(text: &str) -> Header {
    let mut header = Header::default();
    let text = stripped(text);
    let mut rest = text.trim();
    while !rest.is_empty() {
        let end = if rest.starts_with("struct ") && !rest[..rest.find(';').unwrap_or(0)].contains('(') {
            rest.find("};").map(|at| at + 2)
        } else {
            rest.find(';').map(|at| at + 1)
        };
        let (item, after) = rest.split_at(end.unwrap_or(rest.len()));
        match (read_record(item), read_prototype(item)) {
            (Some(record), _) => header.records.push(record),
            (None, Some(prototype)) => header.prototypes.push(prototype),
            (None, None) => header.unread.push(item.split_whitespace().collect::<Vec<_>>().join(" ")),
        }
        rest = after.trim_start();
    }
    header
}

/// `struct name { type a, b; .. };`
fn read_record(item: &str) -> Option<Record> {
    let (name, body) = item.strip_prefix("struct ")?.strip_suffix("};")?.split_once('{')?;
    let mut fields = Vec::new();
    for line in body.split(';').map(str::trim).filter(|line| !line.is_empty()) {
        let (kind, names) = line.split_once(' ')?;
        fields.extend(names.split(',').map(|field| (kind.to_string(), field.trim().to_string())));
    }
    Some(Record { name: name.trim().to_string(), fields })
}

/// `type name(arguments);`
fn read_prototype(item: &str) -> Option<Prototype> {
    let (front, arguments) = item.strip_suffix(");")?.split_once('(')?;
    let (answer, name) = typed(front)?;
    let arguments = arguments.split(',').map(typed).collect::<Option<Vec<_>>>()?;
    Some(Prototype { name, answer, arguments })
}

/// A type and the name after it; the star stands with the type.
fn typed(text: &str) -> Option<(String, String)> {
    let words = text.split_whitespace().collect::<Vec<_>>().join(" ");
    let at = words.rfind([' ', '*'])?;
    let (kind, name) = words.split_at(at + 1);
    let plain = !name.is_empty() && name.chars().all(|c| c.is_ascii_alphanumeric() || c == '_');
    plain.then(|| (kind.trim().to_string(), name.to_string()))
}
