//! The declarations beside the header: a call that is declared otherwise than it is would be
//! undefined behaviour, which no other test needs to see.

use std::collections::BTreeMap;
use std::fs;
use std::path::PathBuf;

use vonjekona::Item;

/// A call's arguments, each with its name and its type in Rust, and then what it returns.
type Calls = BTreeMap<String, Vec<(String, String)>>;

fn read(file: &str) -> String {
    let path = PathBuf::from(env!("CARGO_MANIFEST_DIR")).join(file);
    fs::read_to_string(&path).unwrap_or_else(|e| panic!("{}: {e}", path.display()))
}

/// A text without what stands between two marks.
fn without(text: &str, open: &str, close: &str) -> String {
    let mut parts = text.split(open);
    let mut kept = parts.next().unwrap().to_owned();
    for part in parts {
        kept.push_str(part.split_once(close).expect("both marks").1);
    }
    kept
}

/// `const double *first` as `first` and `*const f64`.
fn of_c(argument: &str) -> (String, String) {
    let spaced = argument.replace('*', " * ");
    let mut words: Vec<&str> = spaced.split_whitespace().collect();
    let name = words.pop().unwrap().to_owned();
    let lent = words.first() == Some(&"const");
    let number = match words[usize::from(lent)] {
        "double" => "f64",
        "uint64_t" => "u64",
        "uint8_t" => "u8",
        "size_t" => "usize",
        "bool" => "bool",
        other => panic!("no type {other}"),
    };
    let pointer = match (words.contains(&"*"), lent) {
        (false, _) => "",
        (true, true) => "*const ",
        (true, false) => "*mut ",
    };
    (name, format!("{pointer}{number}"))
}

fn of_header() -> Calls {
    let text = without(&read("../../include/vonjekona.h"), "/*", "*/");
    let code: Vec<&str> = text.lines().filter(|line| !line.starts_with('#')).collect();
    let mut calls = Calls::new();
    for declared in code.join(" ").split(';') {
        let Some((before, arguments)) = declared.split_once('(') else { continue };
        let (name, returned) = of_c(before.rsplit('{').next().unwrap());
        let arguments = arguments.trim().strip_suffix(')').expect("an end");
        let mut all: Vec<_> = arguments.split(',').map(of_c).collect();
        all.push((String::new(), returned));
        calls.insert(name, all);
    }
    calls
}

fn of_rust() -> Calls {
    let text = read("src/ffi/raw.rs");
    let typed = |argument: &str| {
        let (name, of) = argument.split_once(':').expect("a type");
        (name.trim().to_owned(), of.trim().to_owned())
    };
    let split = |list: &str| -> Vec<_> {
        list.split(',').filter(|a| !a.trim().is_empty()).map(typed).collect()
    };
    let mut calls = Calls::new();
    let (floats, others) = text.split_once("\ncalls! {").expect("the calls");
    for declared in floats.split("safe fn ").skip(1) {
        let (name, rest) = declared.split_once('(').unwrap();
        let (arguments, rest) = rest.split_once(") -> ").unwrap();
        let mut all = split(arguments);
        all.push((String::new(), rest.split(';').next().unwrap().to_owned()));
        calls.insert(name.to_owned(), all);
    }
    for declared in others.split(");") {
        let Some((names, arguments)) = declared.split_once(": (") else { continue };
        let mut all = split(arguments);
        all.push((String::new(), "u64".to_owned()));
        for name in names.split(',') {
            calls.insert(name.trim().to_owned(), all.clone());
        }
    }
    calls
}

#[test]
fn every_call_is_declared_as_it_is() {
    let (header, rust) = (of_header(), of_rust());
    // floats, kernels, pairs, listings with pages and boxes, counted ones, a join, drawings
    assert_eq!(header.len(), 8 + 3 + 3 + 12 + 2 + 1 + 4, "{:?}", header.keys());
    assert!(header.keys().eq(rust.keys()), "{:?} {:?}", header.keys(), rust.keys());
    for (name, declared) in header {
        assert_eq!(rust[&name], declared, "{name}");
    }
}

#[test]
fn items_have_the_header_s_numbers() {
    let mut items = Vec::new();
    for line in read("../../include/vonjekona.h").lines() {
        if let Some(rest) = line.strip_prefix("#define VJ_ITEM_") {
            let mut words = rest.split_whitespace();
            let name = words.next().unwrap().replace('_', "");
            items.push((name, words.next().unwrap().parse::<u8>().unwrap()));
        }
    }
    assert_eq!(items.len(), 19);
    for (name, number) in items {
        let item = Item::of_number(number);
        assert_eq!(format!("{item:?}").to_uppercase(), name);
    }
    assert_eq!(Item::of_number(19), Item::Other(19));
}
