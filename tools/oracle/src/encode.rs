// Stands in the place of the crate's `util::encode` in the library `markdown_changed`: RULES R12, with apostrophes too where the
// harness asks for them. With none asked for the pages are held to the crate's own.
extern crate std;
use alloc::string::String;

std::thread_local! {
    /// Whether `'` is escaped where HTML is.
    pub static APOSTROPHES: core::cell::Cell<bool> = const { core::cell::Cell::new(false) };
}

pub fn encode(value: &str, encode_html: bool) -> String {
    let apostrophes = APOSTROPHES.with(core::cell::Cell::get);
    let mut result = String::new();
    for character in value.chars() {
        match character {
            '\0' => result.push('\u{FFFD}'),
            '&' if encode_html => result.push_str("&amp;"),
            '<' if encode_html => result.push_str("&lt;"),
            '>' if encode_html => result.push_str("&gt;"),
            '"' if encode_html => result.push_str("&quot;"),
            '\'' if encode_html && apostrophes => result.push_str("&#39;"),
            other => result.push(other),
        }
    }
    result
}
