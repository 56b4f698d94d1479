//! The words of the command line.
use notepage::{Ending, Names, Options};
use std::ffi::OsString;
use std::path::PathBuf;

pub const USAGE: &str = "\
usage: notepage page NOTE.md [OPTION..] [-o FILE]     the page, on standard output or in a file
       notepage page NOTE.md.. [OPTION..] --to FOLDER the page of each note, in FOLDER as NOTE.html
       notepage page --bundle FILE..                  the same of note bundles
       notepage check NOTE.md.. [--bundle]            whether a page can be built
       notepage bundle NOTE.md -o FILE [--edition N]  the note's bundle; of several notes: --to FOLDER
       notepage show FILE [--text NOTE.md]            a bundle, or a list of events, in readable form
       notepage --version

A file named - is standard input. Options of a page:
  --allow-dangerous-html       raw HTML of the note stays
  --allow-dangerous-protocol   URLs of any scheme stay, javascript: too
  --allow-any-img-src          URLs of images with any scheme stay
  --escape-apostrophes         ' becomes &#39; wherever the page's text is made safe
  --ending lf|cr|crlf          the line ending of a page whose note has none (lf)
  --names 4|5                  what &lang; and &rang; are: as in HTML 4.01, or in HTML5 (5)
  --room N                     the most bytes of a page (16777216)

Ends with 0 where all was written whole, 1 where something was refused or not written, 2 for wrong words.
";

pub const HINT: &str = "notepage --help says what there is";

/// The most bytes of a page if nothing else is said.
const MOST_ROOM: usize = 16 << 20;

#[derive(Clone, Copy, PartialEq)]
pub enum Call {
    Page,
    Check,
    Bundle,
    Show,
    Help,
    Version,
}

/// Where the answers go.
#[derive(Clone, PartialEq)]
pub enum To {
    Standard,
    File(PathBuf),
    Folder(PathBuf),
}

pub struct Asked {
    pub call: Call,
    pub files: Vec<PathBuf>,
    /// the files are bundles
    pub bundles: bool,
    pub options: Options,
    pub room: usize,
    pub edition: u32,
    pub to: To,
    /// the text of a list of events
    pub text: Option<PathBuf>,
}

/// What is asked, or why the words are wrong.
pub fn read(words: impl Iterator<Item = OsString>) -> Result<Asked, String> {
    let mut words = words.peekable();
    let call = match words.next().as_ref().and_then(|word| word.to_str()) {
        Some("page") => Call::Page,
        Some("check") => Call::Check,
        Some("bundle") => Call::Bundle,
        Some("show") => Call::Show,
        Some("--help" | "-h" | "help") => return Ok(asked(Call::Help)),
        Some("--version") => return Ok(asked(Call::Version)),
        Some(other) => return Err(format!("there is no call {other}")),
        None => return Err("say what to do: page, check, bundle or show".into()),
    };
    let mut found = asked(call);
    while let Some(word) = words.next() {
        match word.to_str() {
            Some("--help" | "-h") => return Ok(asked(Call::Help)),
            Some("--") => found.files.extend(words.by_ref().map(PathBuf::from)),
            Some(flag) if flag.starts_with('-') && flag != "-" => take(&mut found, flag, &mut words)?,
            _ => found.files.push(word.into()),
        }
    }
    judged(found)
}

fn asked(call: Call) -> Asked {
    Asked {
        call,
        files: Vec::new(),
        bundles: false,
        options: Options::default(),
        room: MOST_ROOM,
        edition: 1,
        to: To::Standard,
        text: None,
    }
}

/// Takes a flag, with the word behind it where it has one.
fn take(found: &mut Asked, flag: &str, words: &mut impl Iterator<Item = OsString>) -> Result<(), String> {
    let mut value = || words.next().ok_or(format!("{flag} wants a word behind it"));
    match (found.call, flag) {
        (Call::Page | Call::Check, "--bundle") => found.bundles = true,
        (Call::Page, "--allow-dangerous-html") => found.options.allow_dangerous_html = true,
        (Call::Page, "--allow-dangerous-protocol") => found.options.allow_dangerous_protocol = true,
        (Call::Page, "--allow-any-img-src") => found.options.allow_any_img_src = true,
        (Call::Page, "--escape-apostrophes") => found.options.escape_apostrophes = true,
        (Call::Page, "--ending") => found.options.ending = ending(&value()?)?,
        (Call::Page, "--names") => found.options.names = names(&value()?)?,
        (Call::Page, "--room") => found.room = number(flag, &value()?)?,
        (Call::Bundle, "--edition") => found.edition = number(flag, &value()?)?,
        (Call::Show, "--text") => found.text = Some(value()?.into()),
        (Call::Page | Call::Bundle, "-o" | "--to") if found.to != To::Standard => {
            return Err("-o and --to are said once, and only one of them".into())
        }
        (Call::Page | Call::Bundle, "-o") => found.to = To::File(value()?.into()),
        (Call::Page | Call::Bundle, "--to") => found.to = To::Folder(value()?.into()),
        _ => return Err(format!("{flag} is no option here")),
    }
    Ok(())
}

fn ending(word: &OsString) -> Result<Ending, String> {
    match word.to_str() {
        Some("lf") => Ok(Ending::Lf),
        Some("cr") => Ok(Ending::Cr),
        Some("crlf") => Ok(Ending::CrLf),
        _ => Err("--ending is lf, cr or crlf".into()),
    }
}

fn names(word: &OsString) -> Result<Names, String> {
    match word.to_str() {
        Some("4") => Ok(Names::Html4),
        Some("5") => Ok(Names::Html5),
        _ => Err("--names is 4 or 5".into()),
    }
}

fn number<N: std::str::FromStr + TryFrom<u64>>(flag: &str, word: &OsString) -> Result<N, String> {
    let read = word.to_str().and_then(|word| word.parse().ok());
    read.ok_or(format!("{flag} wants a whole number that fits {} bits", std::mem::size_of::<N>() * 8))
}

/// What is asked, where it makes sense.
fn judged(found: Asked) -> Result<Asked, String> {
    let one = found.files.len() == 1;
    match (&found.call, &found.to) {
        _ if found.files.is_empty() => Err("name a file".into()),
        (Call::Show, _) if !one => Err("show takes one file".into()),
        (Call::Page, To::Standard) if !one => Err("several pages need a folder: --to FOLDER".into()),
        (Call::Bundle, To::Standard) => Err("a bundle goes to a file: -o FILE, or --to FOLDER".into()),
        (_, To::File(_)) if !one => Err("-o is for one note; for several: --to FOLDER".into()),
        _ => Ok(found),
    }
}
