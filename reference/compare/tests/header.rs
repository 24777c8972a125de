//! The header, the crate ffi_c (with the structs of the crate ffi) and src/proved.rs declare the calls for C alike; no compiler compares these three.

use std::collections::BTreeSet;

/// The three declarations, the type names of the third, the crates with the numbers of the header's constants, and the structs of the second.
const FILES: [&str; 8] = [
    "include/arvadush.h",
    "crates/ffi_c/src/lib.rt",
    "reference/compare/src/proved.rs",
    "reference/model/src/lib.rs",
    "crates/profile/src/lib.rt",
    "crates/report/src/lib.rt",
    "crates/layout/src/lib.rt",
    "crates/ffi/src/lib.rt",
];

/// The types of C as names of Rust's; another type of the header is a difference.
const C_TYPES: &str = "type size_t = usize; type uint8_t = u8; type uint16_t = u16; type uint32_t = u32;
    type uint64_t = u64; type int8_t = i8; type int16_t = i16; type int32_t = i32; type int64_t = i64;";

type Words<'a> = &'a [&'a str];

fn texts() -> [String; 8] {
    let read = |file| std::fs::read_to_string(format!("{}/../../{file}", env!("CARGO_MANIFEST_DIR")));
    FILES.map(|file| read(file).unwrap_or_else(|error| panic!("{file}: {error}")))
}

/// The words and single marks of a text, without comments, lines for C's preprocessor and `pub`.
fn words(text: &str) -> Vec<&str> {
    let (mut words, mut rest) = (vec![], text.trim_start());
    while let Some(first) = rest.chars().next() {
        let line = rest.starts_with("//") || (first == '#' && !rest.starts_with("#["));
        let (skipped, end) = match (rest.starts_with("/*"), line) {
            (true, _) => (true, rest.find("*/").map(|end| end + 2)),
            (_, true) => (true, rest.find('\n')),
            _ => (false, rest.find(|c: char| !c.is_alphanumeric() && c != '_').map(|end| end.max(first.len_utf8()))),
        };
        let (word, after) = rest.split_at(end.unwrap_or(rest.len()));
        if !skipped && word != "pub" {
            words.push(word);
        }
        rest = after.trim_start();
    }
    words
}

/// What follows each place with these words.
fn after<'a>(text: Words<'a>, place: &str) -> Vec<Words<'a>> {
    let place = words(place);
    (0..text.len()).filter(|at| text[*at..].starts_with(&place)).map(|at| &text[at + place.len()..]).collect()
}

/// What is before and after the first such mark.
fn parted<'a>(text: Words<'a>, mark: &str) -> (Words<'a>, Words<'a>) {
    let at = text.iter().position(|word| *word == mark).unwrap_or_else(|| panic!("no {mark} in {text:?}"));
    (&text[..at], &text[at + 1..])
}

/// A text with the types that these names mean in place of the names.
fn meant<'a>(text: Words<'a>, names: Words<'a>) -> Vec<&'a str> {
    let names = after(names, "type");
    text.iter().map(|word| names.iter().find(|rest| rest[0] == *word).map_or(*word, |rest| rest[2])).collect()
}

/// A type of any of the three languages as Rust declares it for C; a slice is its address.
fn kind(written: Words) -> String {
    match written {
        ["const", name, "*"] | ["&", "[", name, "]"] | ["&", "'", _, "[", name, "]"] => format!("* const {name}"),
        [name, "*"] | ["&", "mut", "[", name, "]"] => format!("* mut {name}"),
        other => other.join(" "),
    }
}

/// Fields or parameters. A slice has its length after it; a length without a name belongs to what it follows.
fn items(text: Words) -> String {
    let (mut items, mut last) = (vec![], String::new());
    for item in text.split(|word| [",", ";"].contains(word)) {
        let ([name, ":", written @ ..] | [written @ .., name]) = item else { continue };
        let name = if *name == "_" { format!("{last}_len") } else { name.to_string() };
        items.push(format!("{name}: {}", kind(written)));
        if written.starts_with(&["&"]) {
            items.push(format!("{name}_len: usize"));
        }
        last = name;
    }
    items.join(", ")
}

/// A line for each call (name, parameters, returned type); the fields of a struct (head, fields) stand for its name.
fn lines(calls: &[(&str, Words, Words)], structs: &[(Words, Words)]) -> BTreeSet<String> {
    let line = |(name, parameters, returned): &(&str, Words, Words)| {
        let returned = match (structs.iter().find(|(head, _)| head[0] == returned[0]), returned) {
            (Some(([_, "<", v, ">"], fields)), [_, "<", t, ">"]) => items(&meant(fields, &["type", v, "=", t])),
            (Some((_, fields)), _) => items(fields),
            (None, _) => kind(returned),
        };
        format!("{name}({}) -> {returned}", items(parameters))
    };
    let idle = structs.iter().filter(|(head, _)| calls.iter().all(|(_, _, returned)| returned[0] != head[0]));
    calls.iter().map(line).chain(idle.map(|(head, _)| format!("{}, which no call returns", head[0]))).collect()
}

fn of_c(text: Words) -> BTreeSet<String> {
    let structs = after(text, "typedef struct").into_iter().map(|rest| {
        let (fields, rest) = parted(parted(rest, "{").1, "}");
        (&rest[..1], fields)
    });
    let calls = text.split(|word| [";", "{", "}"].contains(word)).filter(|piece| piece.contains(&"(")).map(|piece| {
        let (head, rest) = parted(piece, "(");
        (head[head.len() - 1], parted(rest, ")").0, &head[..head.len() - 1])
    });
    lines(&calls.collect::<Vec<_>>(), &structs.collect::<Vec<_>>())
}

/// The calls that Rattle defines for C, or that Rust declares.
fn of_rust(text: Words) -> BTreeSet<String> {
    let structs = after(text, "#[repr(C)] struct").into_iter().map(|rest| {
        let (head, rest) = parted(rest, "{");
        (head, parted(rest, "}").0)
    });
    let declared = after(text, "extern \"C\" {").into_iter().flat_map(|block| after(parted(block, "}").0, "fn"));
    let calls = after(text, "#[unsafe(no_mangle)] extern \"C\" fn").into_iter().chain(declared).map(|call| {
        let (parameters, rest) = parted(parted(call, "(").1, ")");
        let returned = match rest {
            ["-", ">", _, "<", _, ">", ..] => &rest[2..6],
            ["-", ">", ..] => &rest[2..3],
            _ => &["void"],
        };
        (call[0], parameters, returned)
    });
    lines(&calls.collect::<Vec<_>>(), &structs.collect::<Vec<_>>())
}

/// The lines that one place lacks and another has.
fn lacking(places: &[(&str, BTreeSet<String>)]) -> Vec<String> {
    let all: BTreeSet<_> = places.iter().flat_map(|(_, lines)| lines).collect();
    let lacks = |line| places.iter().filter(move |(_, lines)| !lines.contains(line)).map(move |place| (place.0, line));
    all.into_iter().flat_map(lacks).map(|(place, line)| format!("not in {place}: {line}")).collect()
}

fn number(text: &str, constant: &str) -> u64 {
    after(&words(text), &format!("const {constant}: usize ="))[0][0].replace('_', "").parse().unwrap()
}

fn differences([header, exports, proved, model, profile, report, layout, structs]: &[String; 8]) -> Vec<String> {
    let (header, rust) = (words(header), words(proved));
    let ffi = [words(structs), words(exports)].concat();
    let calls = [of_c(&meant(&header, &words(C_TYPES))), of_rust(&ffi), of_rust(&meant(&rust, &words(model)))];
    let listed = after(&header, "enum {").into_iter().flat_map(|rest| parted(rest, "}").0.split(|word| *word == ","));
    let listed = listed.filter(|constant| !constant.is_empty()).map(|constant| constant.join(" ")).collect();
    let (days, file, text) = (number(profile, "SPAN_MOST"), number(report, "BYTES_READ"), number(layout, "TEXT_MOST"));
    let right = [("DAYS", days), ("BOUNDARIES", days + 1), ("FILE", file), ("TEXT", text)];
    let right = right.map(|(name, value)| format!("ARVADUSH_{name} = {value}")).into();
    let constants = [("the header", listed), ("the crates", right)];
    let calls: Vec<_> = FILES.into_iter().zip(calls).collect();
    [lacking(&calls), lacking(&constants)].concat()
}

fn differences_with(file: usize, text: String) -> Vec<String> {
    let mut texts = texts();
    texts[file] = text;
    differences(&texts)
}

/// The header with such a part of it wrong at one of its words; none where there is no such part.
fn wrong(part: &str, header: Words, at: usize) -> Option<String> {
    let mark = |word: &&str| *word != "*" && !word.starts_with(|c: char| c.is_alphanumeric());
    let start = header[..at].iter().rposition(mark).map_or(0, |before| before + 1);
    let end = header[at + 1..].iter().position(mark).map_or(header.len(), |next| at + 1 + next);
    let (left, right) = (&header[start..at], &header[at + 1..end]);
    let exchanged = [right, &header[at..=at], left].concat();
    let put = |from: usize, to: usize, other: Words| Some([&header[..from], other, &header[to..]].concat().join(" "));
    match (part, header[at]) {
        ("fields", ";") | ("parameters", ",") if left.len().min(right.len()) > 1 => put(start, end, &exchanged),
        ("name", word) if !mark(&word) && !left.is_empty() && right.is_empty() => put(at, end, &["other"]),
        ("type", "uint32_t") => put(at, at + 1, &["uint64_t"]),
        ("type", word) if word.ends_with("_t") => put(at, at + 1, &["uint32_t"]),
        ("const", "const") => put(at, at + 1, &[]),
        ("call", "(") => put(start, at + 1 + header[at..].iter().position(|word| *word == ";")?, &[]),
        ("constant", _) if at > 0 && header[at - 1] == "=" => put(at, at + 1, &["1095"]),
        _ => None,
    }
}

#[test]
fn the_declarations_agree() {
    assert_eq!(differences(&texts()), Vec::<String>::new());
}

#[test]
fn every_fault_of_the_header_is_found() {
    let [header, ..] = texts();
    let header = words(&header);
    assert_eq!(differences_with(0, header.join(" ")), Vec::<String>::new());
    for part in ["fields", "parameters", "name", "type", "const", "call", "constant"] {
        let headers: Vec<_> = (0..header.len()).filter_map(|at| wrong(part, &header, at)).collect();
        assert!(!headers.is_empty(), "no {part} in the header");
        let missed = headers.into_iter().find(|text| differences_with(0, text.clone()).is_empty());
        assert_eq!(missed, None, "a wrong {part} is not found");
    }
}

#[test]
fn faults_of_the_other_files_are_found() {
    let faults = [
        (7, "#[repr(C)]", ""),
        (1, "#[unsafe(no_mangle)]", ""),
        (1, "&mut [", "&["),
        (2, "#[repr(C)]", ""),
        (2, "*const", "*mut"),
        (2, "place: usize", "place: u32"),
        (3, "type Mean = i16", "type Mean = i32"),
        (4, "SPAN_MOST: usize = 1_096", "SPAN_MOST: usize = 1_095"),
        (5, "BYTES_READ: usize = 16_384", "BYTES_READ: usize = 16_385"),
        (6, "TEXT_MOST: usize = 72_390", "TEXT_MOST: usize = 72_389"),
    ];
    for (file, right, wrong) in faults {
        let text = &texts()[file];
        assert!(text.contains(right), "{} has no {right}", FILES[file]);
        let found = differences_with(file, text.replacen(right, wrong, 1));
        assert!(!found.is_empty(), "{wrong} for {right} in {} is not found", FILES[file]);
    }
}
