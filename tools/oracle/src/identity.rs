// Stands in the place of the crate's `util::normalize_identifier` in the library `markdown_changed`: RULES R6.1.
use alloc::string::String;
use alloc::vec::Vec;

pub fn normalize_identifier(label: &str) -> String {
    let words: Vec<&str> = label.split(['\t', '\n', '\r', ' ']).filter(|word| !word.is_empty()).collect();
    words.join(" ").to_ascii_uppercase()
}
