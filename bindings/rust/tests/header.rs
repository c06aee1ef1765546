//! include/decoder.h and src/sys.rs declare the calls that crates/decoder_c exports, each with its own parameters, and no other.
use std::fs;
use std::path::Path;

/// An exported call: its name, and each parameter's name and type as the source writes them.
struct Call {
    name: String,
    parameters: Vec<(String, String)>,
}

fn here() -> &'static Path {
    Path::new(env!("CARGO_MANIFEST_DIR"))
}

/// Words separated by single spaces, none before a closing bracket or after an opening one.
fn plain(text: &str) -> String {
    let words = text.split_whitespace().collect::<Vec<_>>().join(" ");
    words.replace("( ", "(").replace(" )", ")").replace(",)", ")")
}

fn exported() -> Vec<Call> {
    let mut files: Vec<_> = fs::read_dir(here().join("../../crates/decoder_c/src"))
        .unwrap()
        .map(|file| file.unwrap().path())
        .filter(|path| path.extension().is_some_and(|end| end == "rt"))
        .collect();
    files.sort();
    files.iter().flat_map(|file| calls(&plain(&fs::read_to_string(file).unwrap()))).collect()
}

fn calls(source: &str) -> Vec<Call> {
    source.split("pub extern \"C\" fn ").skip(1).map(call).collect()
}

fn call(text: &str) -> Call {
    let (name, rest) = text.split_once('(').unwrap();
    let (parameters, rest) = rest.split_once(')').unwrap();
    assert!(rest.starts_with(" -> u8 "), "{name} answers another type than the number's");
    let pair = |p: &str| p.trim().split_once(": ").map(|(name, kind)| (name.to_string(), kind.to_string())).unwrap();
    Call { name: name.to_string(), parameters: parameters.split(',').map(pair).collect() }
}

/// A type behind a reference: its element, whether it is a slice, whether it is written.
fn behind(kind: &str) -> Option<(&str, bool, bool)> {
    let (kind, written) = match kind.strip_prefix("&mut ") {
        Some(kind) => (kind, true),
        None => (kind.strip_prefix('&')?, false),
    };
    let element = kind.strip_prefix('[').and_then(|kind| kind.strip_suffix(']'));
    Some((element.unwrap_or(kind), element.is_some(), written))
}

fn c_type(kind: &str) -> &'static str {
    match kind {
        "usize" => "size_t",
        "bool" => "bool",
        "u8" => "uint8_t",
        "i8" => "int8_t",
        "u16" => "uint16_t",
        "i16" => "int16_t",
        "u32" => "uint32_t",
        _ => panic!("no C type is known for {kind}"),
    }
}

fn in_c(call: &Call) -> String {
    let each = |(name, kind): &(String, String)| match behind(kind) {
        None => format!("{} {name}", c_type(kind)),
        Some((element, slice, written)) => {
            let constant = if written { "" } else { "const " };
            let length = if slice { format!(", size_t {name}_len") } else { String::new() };
            format!("{constant}{} *{name}{length}", c_type(element))
        }
    };
    let parameters: Vec<_> = call.parameters.iter().map(each).collect();
    format!("uint8_t {}({});", call.name, parameters.join(", "))
}

fn in_rust(call: &Call) -> String {
    let each = |(name, kind): &(String, String)| match behind(kind) {
        None => format!("{name}: {kind}"),
        Some((element, slice, written)) => {
            let pointer = if written { "*mut" } else { "*const" };
            let length = if slice { format!(", {name}_len: usize") } else { String::new() };
            format!("{name}: {pointer} {element}{length}")
        }
    };
    let parameters: Vec<_> = call.parameters.iter().map(each).collect();
    format!("pub fn {}({}) -> u8;", call.name, parameters.join(", "))
}

fn declares(file: &str, form: fn(&Call) -> String) {
    let text = plain(&fs::read_to_string(here().join(file)).unwrap());
    let calls = exported();
    for call in &calls {
        assert!(text.contains(&form(call)), "{file} lacks: {}", form(call));
    }
    assert_eq!(text.matches(" lomsakeun_").count(), calls.len(), "{file} declares another call");
}

#[test]
fn the_header_declares_the_exported_calls() {
    declares("../../include/decoder.h", in_c);
}

#[test]
fn the_rust_declares_the_exported_calls() {
    declares("src/sys.rs", in_rust);
}

/// The header's numbers are the error type's.
#[test]
fn the_header_names_the_numbers() {
    let text = plain(&fs::read_to_string(here().join("../../include/decoder.h")).unwrap());
    for refusal in lomsakeun::Refusal::ALL {
        let name = format!("LOMSAKEUN_{} = {}", format!("{refusal:?}").to_uppercase(), refusal.number());
        assert!(text.contains(&name), "the header lacks {name}");
    }
    assert!(text.contains("LOMSAKEUN_DONE = 0"));
}

/// The header's table of what is lent names every slice of every call, and every call that is told a format.
#[test]
fn the_header_tells_what_is_lent() {
    let text = fs::read_to_string(here().join("../../include/decoder.h")).unwrap();
    let (_, table) = text.split_once("/* What is lent").unwrap();
    let (table, _) = table.split_once("*/").unwrap();
    let (formats, _) = table.split_once("A grey picture").unwrap();
    let words = |text: &str| -> Vec<String> {
        text.split(|c: char| !c.is_alphanumeric() && c != '_').map(String::from).collect()
    };
    let (named, told) = (words(table), words(formats));
    for call in exported() {
        let short = call.name.strip_prefix("lomsakeun_").unwrap().to_string();
        let coloured = call.parameters.contains(&("colour".into(), "bool".into()));
        assert_eq!(told.contains(&short), coloured, "{short} among the calls that are told a format");
        for (name, kind) in &call.parameters {
            let slice = behind(kind).is_some_and(|(_, slice, _)| slice);
            assert!(!slice || named.contains(name), "the table lacks {name} of {short}");
        }
    }
}
