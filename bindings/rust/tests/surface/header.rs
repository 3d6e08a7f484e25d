//! What `src/ffi.rs` declares is what the C header declares: names, types and order.

const HEADER: &str = include_str!("../../../../include/jumelavorp.h");
const FFI: &str = include_str!("../../src/ffi.rs");

/// What stands between two marks, and what stands behind the second.
fn between<'a>(text: &'a str, from: &str, to: &str) -> Option<(&'a str, &'a str)> {
    text.split_once(from)?.1.split_once(to)
}

fn without_comments(text: &str) -> String {
    let mut parts = text.split("/*");
    let mut rest = String::from(parts.next().unwrap());
    rest.extend(parts.map(|part| part.split_once("*/").unwrap().1));
    rest
}

/// A C declaration such as `const uint8_t *text`, as Rust writes it.
fn in_rust(declaration: &str) -> String {
    let (kind, name) = declaration.rsplit_once(' ').unwrap();
    let (constant, kind) = match kind.strip_prefix("const ") {
        Some(kind) => (true, kind),
        None => (false, kind),
    };
    let kind = match kind {
        "uint8_t" => "u8",
        "uint16_t" => "u16",
        "uint32_t" => "u32",
        "int16_t" => "i16",
        "int32_t" => "i32",
        "size_t" => "usize",
        other => panic!("{other} is not a type of the header"),
    };
    match (name.strip_prefix('*'), constant) {
        (Some(name), true) => format!("{name}: *const {kind}"),
        (Some(name), false) => format!("{name}: *mut {kind}"),
        (None, _) => format!("{name}: {kind}"),
    }
}

fn listed(list: &str, end: char) -> impl Iterator<Item = &str> {
    list.split(end).map(str::trim).filter(|one| !one.is_empty())
}

/// Each function's name and parameters, by name.
fn functions(text: &str, head: &str, parameter: fn(&str) -> String) -> Vec<(String, Vec<String>)> {
    let mut all = Vec::new();
    let mut rest = text;
    while let Some((name, behind)) = between(rest, head, "(") {
        let (parameters, behind) = behind.split_once(')').unwrap();
        let parameters = listed(parameters, ',').map(parameter).collect();
        all.push((name.to_string(), parameters));
        rest = behind;
    }
    all.sort();
    all
}

#[test]
fn the_functions() {
    let header = functions(&without_comments(HEADER), "jumelavorp_answer ", in_rust);
    let (block, _) = between(FFI, "extern \"C\" {", "\n}\n").unwrap();
    assert_eq!(block.matches("-> Answer;").count(), header.len());
    assert_eq!(functions(block, "fn ", str::to_string), header);
    assert_eq!(header.len(), 3);
}

#[test]
fn the_answer() {
    let header = without_comments(HEADER);
    let (fields, _) = between(&header, "typedef struct {", "} jumelavorp_answer;").unwrap();
    let declared: Vec<_> = listed(fields, ';').map(in_rust).collect();
    let (fields, _) = between(FFI, "#[repr(C)]\npub struct Answer {", "}").unwrap();
    let ours: Vec<_> = listed(fields, ',')
        .map(|field| field.replace("pub ", ""))
        .collect();
    assert_eq!(ours, declared);
    assert_eq!(declared.len(), 4);
}
