//! The entries that a C header declares and those that a Rattle source exports, in one form: each parameter with its name and its type
//! in C. A lent slice is a pointer and a length, `file: &[u8]` being `const uint8_t *file, size_t file_len`.

use std::collections::BTreeMap;

#[derive(Debug, PartialEq, Eq)]
pub struct Entry {
    /// Names and types, in order.
    pub parameters: Vec<(String, String)>,
    pub result: String,
}

/// The words with one space between two.
fn spaced(text: &str) -> String {
    text.split_whitespace().collect::<Vec<_>>().join(" ")
}

/// What stands before the parenthesis, in it, and after it.
fn around_parenthesis(text: &str) -> Option<(&str, &str, &str)> {
    let (before, rest) = text.split_once('(')?;
    let (within, after) = rest.split_once(')')?;
    Some((before, within, after))
}

/// The text without what stands between the two marks, which go too.
fn without(text: &str, open: &str, close: &str) -> String {
    let mut pieces = text.split(open);
    let first = pieces.next().unwrap_or_default();
    let kept = pieces.map(|piece| piece.split_once(close).map_or("", |(_, after)| after));
    std::iter::once(first).chain(kept).collect()
}

/// The text without bodies: a pair of braces and what is in it becomes a semicolon. A closing brace alone goes.
fn without_bodies(text: &str) -> String {
    let mut depth = 0;
    let keep = |c: char| match (c, depth) {
        ('{', _) => {
            depth += 1;
            None
        }
        ('}', 0) => None,
        ('}', _) => {
            depth -= 1;
            (depth == 0).then_some(';')
        }
        (_, 0) => Some(c),
        _ => None,
    };
    text.chars().filter_map(keep).collect()
}

/// `uint64_t totals[3]` as its name and `uint64_t [3]`, `const uint8_t *file` as its name and `const uint8_t *`.
fn c_parameter(text: &str) -> (String, String) {
    let text = spaced(text);
    let (declared, size) = match text.split_once('[') {
        Some((before, size)) => (before.trim_end().to_string(), format!(" [{size}")),
        None => (text.clone(), String::new()),
    };
    let word = |c: char| c.is_alphanumeric() || c == '_';
    let kind = declared.trim_end_matches(word);
    let name = declared[kind.len()..].to_string();
    (name, format!("{}{size}", kind.trim_end()))
}

fn c_entry(declaration: &str) -> Option<(String, Entry)> {
    let (before, within, _) = around_parenthesis(declaration)?;
    let (name, result) = c_parameter(before);
    let parameters = within.split(',').map(c_parameter).collect();
    Some((name, Entry { parameters, result }))
}

/// The functions that a header declares and does not define.
pub fn c_entries(header: &str) -> BTreeMap<String, Entry> {
    let code = without(header, "/*", "*/").replace("\\\n", " ");
    let lines = code.lines().filter(|line| !line.starts_with('#'));
    let text = lines.collect::<Vec<_>>().join("\n");
    let text = without_bodies(&text.replace("extern \"C\" {", ""));
    let declarations = text.split(';').map(str::trim);
    let declared = declarations.filter(|text| !text.starts_with("static"));
    declared.filter_map(c_entry).collect()
}

/// A number's type.
fn c_number(kind: &str) -> String {
    match kind {
        "f32" => "float".into(),
        "f64" => "double".into(),
        "usize" => "size_t".into(),
        "u8" | "u16" | "u32" | "u64" => format!("uint{}_t", &kind[1..]),
        "i8" | "i16" | "i32" | "i64" => format!("int{}_t", &kind[1..]),
        _ => panic!("a type that has none in C: {kind}"),
    }
}

/// The C parameters of what is lent: `[u8]` or `[u64; 3]`.
fn c_lent(name: &str, lent: &str, qualifier: &str) -> Vec<(String, String)> {
    let inner = lent.trim_matches(['[', ']']);
    match inner.split_once(';') {
        Some((kind, size)) => {
            let kind = format!("{qualifier}{} [{}]", c_number(kind), size.trim());
            vec![(name.into(), kind)]
        }
        None => {
            let kind = format!("{qualifier}{} *", c_number(inner));
            vec![
                (name.into(), kind),
                (format!("{name}_len"), "size_t".into()),
            ]
        }
    }
}

/// The C parameters of `name: type`.
fn rattle_parameter(text: &str) -> Vec<(String, String)> {
    let (name, kind) = text.split_once(':').expect("a name and a type");
    let (name, kind) = (name.trim(), kind.trim());
    match (kind.strip_prefix("&mut "), kind.strip_prefix('&')) {
        (Some(lent), _) => c_lent(name, lent, ""),
        (None, Some(lent)) => c_lent(name, lent, "const "),
        (None, None) => vec![(name.into(), c_number(kind))],
    }
}

fn rattle_entry(text: &str) -> (String, Entry) {
    let (name, within, after) = around_parenthesis(text).expect("parameters");
    let result = after.trim_start().strip_prefix("->").expect("a result");
    let result = result.split_whitespace().next().expect("its type");
    let words = within.split(',').map(str::trim);
    let parameters = words.filter(|word| !word.is_empty());
    let entry = Entry {
        parameters: parameters.flat_map(rattle_parameter).collect(),
        result: c_number(result),
    };
    (name.trim().into(), entry)
}

/// The functions that a Rattle source exports.
pub fn rattle_entries(source: &str) -> BTreeMap<String, Entry> {
    let code = source
        .lines()
        .filter(|line| !line.trim_start().starts_with("//"));
    let code = code.collect::<Vec<_>>().join("\n");
    let exported = code
        .split("#[unsafe(no_mangle)]\npub extern \"C\" fn ")
        .skip(1);
    exported.map(rattle_entry).collect()
}
