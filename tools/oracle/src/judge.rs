// The expected answer to a request: its bytes by the crate's own functions, its refusals and buffers by RULES R7 and R17.
use crate::request::{Request, ESCAPE, IDENTITY, IMAGE, LINK, SANITIZE};
use markdown::util::encode::encode;
use markdown::util::normalize_identifier::normalize_identifier;
use markdown::util::sanitize_uri::{sanitize, sanitize_with_protocols};

pub const LINK_SCHEMES: [&str; 6] = ["http", "https", "irc", "ircs", "mailto", "xmpp"];
const IMAGE_SCHEMES: [&str; 2] = ["http", "https"];
const BLANKS: [char; 4] = ['\t', '\n', '\r', ' '];

impl crate::drive::Asked for Request {
    /// Adds the header of 32 bytes and the text. The fields that these calls do not take are 0.
    fn write(&self, to: &mut Vec<u8>) {
        let mut header = [0; 32];
        header[0] = self.op;
        header[1] = self.options;
        header[4..8].copy_from_slice(&(self.text.len() as u32).to_le_bytes());
        header[12..16].copy_from_slice(&(self.room as u32).to_le_bytes());
        to.extend(header);
        to.extend(&self.text);
    }

    fn expected(&self) -> Vec<u8> {
        expected(self)
    }

    fn size(&self) -> (usize, usize) {
        (self.text.len(), self.room)
    }

    fn shown(&self) -> String {
        format!("op {} options {} room {} text {}", self.op, self.options, self.room, crate::drive::escaped(&self.text))
    }
}

/// The 24 bytes of the answer, then the whole output buffer.
pub fn expected(request: &Request) -> Vec<u8> {
    let (number, answer) = match answer(request.op, request.options, &request.text) {
        Err(number) => (number, Vec::new()),
        Ok(answer) if answer.len() > request.room => (9, Vec::new()),
        Ok(answer) => (0, answer),
    };
    // a refusal's place is 0, and so is the length of no answer
    let value = answer.len() as u32;
    let mut bytes = Vec::with_capacity(24 + request.room);
    for field in [number, value, 0, 0, request.room as u32, 0] {
        bytes.extend(field.to_le_bytes());
    }
    bytes.extend(answer);
    bytes.resize(24 + request.room, 0);
    bytes
}

/// What a call answers where the room suffices: the answer's bytes, or the refusal's number.
pub fn answer(op: u8, options: u8, text: &[u8]) -> Result<Vec<u8>, u32> {
    if text.len() > 64_000 {
        return Err(1);
    }
    let text = std::str::from_utf8(text).map_err(|_| 2u32)?;
    let answer = match op {
        ESCAPE => encode(text, options & 1 == 1),
        SANITIZE => sanitize(text),
        LINK => sanitize_with_protocols(text, &LINK_SCHEMES),
        IMAGE => sanitize_with_protocols(text, &IMAGE_SCHEMES),
        IDENTITY => identity(text),
        _ => unreachable!("op {op} takes more than a text"),
    };
    Ok(if escapes_apostrophes(op, options) { answer.replace('\'', "&#39;") } else { answer }.into_bytes())
}

/// Bit 3, where HTML is encoded. The crate keeps each apostrophe, and writes none of its own.
fn escapes_apostrophes(op: u8, options: u8) -> bool {
    options & 8 == 8 && op != IDENTITY && (op != ESCAPE || options & 1 == 1)
}

/// The identity is judged by RULES R6. The crate's function is held to it on every label of ASCII: the two agree
/// exactly where the crate keeps each gap. Outside ASCII it maps letters that R6 keeps, and is not asked.
fn identity(label: &str) -> String {
    let identity = identity_by_01(label);
    if label.is_ascii() {
        assert_eq!(normalize_identifier(label) == identity, keeps_each_gap(label), "the premise is wrong on {label:?}");
    }
    identity
}

/// RULES R6.1, read by itself: a space for each run of blanks inside, none at the ends, ASCII letters in upper case.
pub fn identity_by_01(label: &str) -> String {
    words(label).collect::<Vec<_>>().join(" ").to_ascii_uppercase()
}

/// Whether the crate keeps every gap of a label: it loses the first gap between words where a word starts at place 0,
/// since it takes place 0 for "no word yet".
fn keeps_each_gap(label: &str) -> bool {
    label.starts_with(BLANKS) || words(label).count() < 2
}

fn words(label: &str) -> impl Iterator<Item = &str> {
    label.split(BLANKS).filter(|word| !word.is_empty())
}

/// Whether an answer to this request was also held to the crate's own identity: `None` where no identity is given.
pub fn label_by_crate(request: &Request) -> Option<bool> {
    if request.op != IDENTITY || request.text.len() > 64_000 {
        return None;
    }
    let label = std::str::from_utf8(&request.text).ok()?;
    Some(label.is_ascii() && keeps_each_gap(label))
}
