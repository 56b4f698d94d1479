// What the crate makes of character references: a line `from to kind` for each run of numbers, then a line for each name on standard input.
use markdown::util::character_reference::{decode_named, decode_numeric};
use std::io::{stdin, BufRead};

/// Prints the runs over every number that a reference can hold, up to six hexadecimal digits. Each is asked of the
/// crate: in both cases of the digits, with and without leading zeros, and in decimal where seven digits suffice.
pub fn print() {
    let (mut from, mut running) = (0, kind(0));
    for number in 1..0x100_0000 {
        let next = kind(number);
        if next != running {
            println!("{from:X} {:X} {running}", number - 1);
            (from, running) = (number, next);
        }
    }
    println!("{from:X} FFFFFF {running}");
    for name in stdin().lock().lines() {
        let name = name.expect("a line of text");
        println!("&{name}; {}", codes(&name));
    }
}

/// The code points that a name stands for in HTML5, or `none`.
fn codes(name: &str) -> String {
    let Some(text) = decode_named(name, true) else { return "none".to_string() };
    text.chars().map(|character| format!("{:x}", u32::from(character))).collect::<Vec<_>>().join("+")
}

/// The 252 names of HTML 4.01, by the crate's own list. It has `lang` and `rang` otherwise, so only the names are taken from it.
pub fn names() -> impl Iterator<Item = &'static str> {
    markdown::util::constant::CHARACTER_REFERENCES_HTML_4.iter().map(|entry| entry.0)
}

/// The names, and each cut and prolonged by one, in upper and in lower case.
pub fn near() -> Vec<String> {
    let mut near = Vec::new();
    for name in names() {
        near.extend([name, &name[1..], &name[..name.len() - 1]].map(str::to_string));
        near.extend([format!("{name}s"), name.to_uppercase(), name.to_lowercase()]);
    }
    near.sort();
    near.dedup();
    near
}

/// A note with a reference in each place that takes one: text, the parts of a link and of an image, a heading, a label and its
/// definition, a cell, a footnote, an info string.
pub fn note(name: &str) -> String {
    "& [&](</&> \"&\") ![&](&)\n\n# &\n\n[&] [^a]\n\n[&]: <&> '&'\n\n|&|\n|-|\n|&|\n\n[^a]: &\n\n~~~ & &\n&\n~~~\n"
        .replace('&', &format!("&{name};"))
}

/// All names, one behind the other.
pub fn all() -> String {
    names().map(|name| format!("&{name};")).collect()
}

/// `itself`: the bytes are the number's UTF-8; `replaced`: they are U+FFFD's.
fn kind(number: u32) -> &'static str {
    let answer = decode_numeric(&format!("{number:X}"), 16);
    for digits in [format!("{number:x}"), format!("{number:06X}")] {
        assert_eq!(decode_numeric(&digits, 16), answer);
    }
    if number <= 9_999_999 {
        for digits in [format!("{number}"), format!("{number:07}")] {
            assert_eq!(decode_numeric(&digits, 10), answer);
        }
    }
    match char::from_u32(number) {
        Some(character) if answer == character.to_string() => "itself",
        _ => {
            assert_eq!(answer, "\u{FFFD}");
            "replaced"
        }
    }
}
