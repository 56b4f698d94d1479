// RULES R3 to R8, read by themselves and not from the proved code: refusals 1 to 7 of a text and its events.
use crate::judge::identity_by_01 as identity;
use crate::record::{self, Record, ENTER, EXIT};
use crate::references::names;

/// A refusal's number and place; 0 and 0 for yes. Of several the lowest, at its first event (RULES R7.3).
pub fn check(text: &[u8], events: &[u8]) -> (u32, usize) {
    match refusal(text, events) {
        Err(refusal) => refusal,
        Ok(()) => (0, 0),
    }
}

fn refusal(text: &[u8], events: &[u8]) -> Result<(), (u32, usize)> {
    if text.len() > 64_000 || events.len() > 3_200 * record::LENGTH || events.len() % record::LENGTH != 0 {
        return Err((1, 0));
    }
    let text = std::str::from_utf8(text).map_err(|_| (2, 0))?;
    let records = record::read(events);
    let events = records.iter().enumerate();
    refuse_first(3, events.filter(|(_, record)| !fields(record, text)).map(|(place, _)| place))?;
    let elements = nesting(&records).map_err(|place| (4, place))?;
    let tree = Tree { text, elements };
    refuse_first(5, tree.all().filter(|&element| !tree.slice_rule(element)).map(|element| element.exit))?;
    refuse_first(6, tree.too_many())?;
    refuse_first(7, tree.undefined())
}

/// What the link, image or call that begins at this event looks for, and the labels that are defined for it.
pub fn labels_at(text: &str, records: &[Record], place: usize) -> Option<(String, Vec<String>)> {
    let tree = Tree { text, elements: nesting(records).ok()? };
    let element = tree.all().find(|element| element.enter == place)?;
    let defined = tree.defined(element).into_iter().map(str::to_string).collect();
    Some((tree.sought(element)?.to_string(), defined))
}

/// Refuses with this number at the least of the places, if there is any.
fn refuse_first(number: u32, places: impl Iterator<Item = usize>) -> Result<(), (u32, usize)> {
    places.min().map_or(Ok(()), |place| Err((number, place)))
}

// ---- the names of RULES R2.6, where a rule names one

const LINE_ENDING: u8 = 3;
const BLANK_LINE_ENDING: u8 = 4;
const NUMERIC_MARKER: u8 = 9;
const HEXADECIMAL_MARKER: u8 = 10;
const REFERENCE_VALUE: u8 = 11;
const ATX_SEQUENCE: u8 = 14;
const UNDERLINE_SEQUENCE: u8 = 18;
const LIST_ORDERED: u8 = 21;
const LIST_UNORDERED: u8 = 22;
const ITEM_VALUE: u8 = 26;
const CODE_CHUNK: u8 = 32;
const LINK: u8 = 45;
const IMAGE: u8 = 46;
const LABEL: u8 = 47;
const LABEL_TEXT: u8 = 48;
const RESOURCE: u8 = 49;
const REFERENCE_STRING: u8 = 52;
const DEFINITION: u8 = 53;
const DEFINITION_LABEL: u8 = 54;
const TABLE: u8 = 57;
const FOOTNOTE_CALL: u8 = 62;
const FOOTNOTE_DEFINITION: u8 = 63;
const FOOTNOTE_PREFIX: u8 = 64;
const FOOTNOTE_LABEL: u8 = 65;

// ---- "Event records", and what refusal 3 adds

fn fields(record: &Record, text: &str) -> bool {
    if record.name > 65 {
        return false;
    }
    match record.kind {
        ENTER => (record.from, record.to, record.before, record.after) == (0, 0, 0, 0) && extra(record),
        EXIT => {
            let (from, to) = (record.from as usize, record.to as usize);
            let spaces = if record.name == CODE_CHUNK { 3 } else { 0 };
            let fitting = record.before <= spaces && record.after <= spaces && record.extra == 0;
            // false for a place past the text or inside a character
            let placed = text.is_char_boundary(from) && text.is_char_boundary(to);
            fitting && placed && from <= to
        }
        _ => false,
    }
}

/// The extra field of an enter.
fn extra(record: &Record) -> bool {
    match record.name {
        LIST_ORDERED | LIST_UNORDERED => record.extra <= 1,
        TABLE => {
            let columns = record.extra & 0xFF;
            (1..=24).contains(&columns) && (record.extra >> 8) >> (2 * columns) == 0
        }
        _ => record.extra == 0,
    }
}

// ---- "Nesting"

pub const FLOW: &[u8] = &[12, 13, 16, 19, 20, 21, 22, 27, 28, 35, 53, 57, 63];
pub const INLINE: &[u8] = &[5, 6, 7, 33, 37, 39, 40, 41, 42, 43, 44, 45, 46, 62];
pub const PLAIN: &[u8] = &[5, 6, 7];

/// What an element holds (RULES R3.4), with `*` for any number of. The parents are those it is judged in, the nearest
/// last; `nth` is how many of its name its parent has before it.
pub fn holds(name: u8, parents: &[u8], nth: usize) -> &'static str {
    let parent = parents.last();
    match name {
        20 => "flow*",
        12 | 15 | 17 | 39 | 40 | 48 | 61 => "inline*",
        30 | 31 | 50 | 51 | 52 | 54 | 55 | 56 | 65 => "plain*",
        7 => "8 [9 [10]] 11",
        13 => "14 [15] [14]",
        16 => "17 18",
        21 | 22 => "23 23*",
        23 => "24 flow*",
        24 if parents.iter().rev().nth(1) == Some(&LIST_ORDERED) => "26 25",
        24 => "25",
        27 => "32*",
        28 => "29 32* [29]",
        29 if nth == 0 => "[30] [31]",
        29 => "",
        33 => "34*",
        35 => "36*",
        37 => "38*",
        45 | 46 => "47 [49/52]",
        62 => "47",
        47 if parent == Some(&FOOTNOTE_CALL) => "48",
        47 => "[48]",
        49 => "[50] [51]",
        53 => "54 [55] [56]",
        57 => "58 [59]",
        58 => "60",
        59 => "60 60*",
        60 => "61*",
        63 => "64 flow*",
        64 => "65",
        _ => "",
    }
}

/// Whether the next word of what an element holds takes this name: `flow`, `inline`, `plain`, a number, or two of them.
fn takes(word: &str, name: u8) -> bool {
    match word {
        "flow" => FLOW.contains(&name),
        "inline" => INLINE.contains(&name),
        "plain" => PLAIN.contains(&name),
        _ => word.split('/').any(|number| number.parse() == Ok(name)),
    }
}

/// What may follow in an element once it has taken this name, or nothing where it can't take it.
pub fn after(holds: &str, name: u8) -> Option<String> {
    let (first, rest) = first_part(holds)?;
    if let Some(inner) = first.strip_prefix('[').and_then(|part| part.strip_suffix(']')) {
        return match after(inner, name) {
            Some(left) => Some(format!("{left} {rest}")),
            None => after(rest, name),
        };
    }
    match first.strip_suffix('*') {
        Some(word) if takes(word, name) => Some(holds.to_string()),
        Some(_) => after(rest, name),
        None => takes(first, name).then(|| rest.to_string()),
    }
}

/// Whether nothing of this is required.
fn ended(holds: &str) -> bool {
    match first_part(holds) {
        None => true,
        Some((first, rest)) => (first.starts_with('[') || first.ends_with('*')) && ended(rest),
    }
}

/// The first word or bracket, and what is behind it.
pub fn first_part(holds: &str) -> Option<(&str, &str)> {
    let holds = holds.trim_start();
    let mut depth = 0;
    for (place, character) in holds.char_indices() {
        match character {
            '[' => depth += 1,
            ']' => depth -= 1,
            ' ' if depth == 0 => return Some((&holds[..place], &holds[place..])),
            _ => (),
        }
    }
    (!holds.is_empty()).then_some((holds, ""))
}

/// An element, with its parent and its children as they are judged.
struct Element {
    name: u8,
    parent: Option<usize>,
    children: Vec<usize>,
    /// what may still stand in it
    left: String,
    enter: usize,
    exit: usize,
    from: usize,
    to: usize,
}

/// The elements in the order of their enters, or the place of the first fault.
fn nesting(records: &[Record]) -> Result<Vec<Element>, usize> {
    let mut elements: Vec<Element> = Vec::new();
    let mut open: Vec<usize> = Vec::new();
    for (place, record) in records.iter().enumerate() {
        if record.kind == ENTER {
            enter(&mut elements, &open, record.name, place).ok_or(place)?;
            open.push(elements.len() - 1);
        } else {
            let newest = &mut elements[open.pop().ok_or(place)?];
            if newest.name != record.name || !ended(&newest.left) {
                return Err(place);
            }
            (newest.exit, newest.from, newest.to) = (place, record.from as usize, record.to as usize);
        }
    }
    if open.is_empty() {
        Ok(elements)
    } else {
        Err(records.len())
    }
}

/// Adds an element, unless it is the 65th open or can't stand here.
fn enter(elements: &mut Vec<Element>, open: &[usize], name: u8, place: usize) -> Option<()> {
    let in_line_ending = open.last().is_some_and(|&newest| matches!(elements[newest].name, 3 | 4));
    if open.len() == 64 || in_line_ending {
        return None;
    }
    let judged: Vec<usize> = open.iter().copied().filter(|&element| elements[element].name > 2).collect();
    let parent = judged.last().copied();
    let mut left = "";
    if name > 4 {
        let parents: Vec<u8> = judged.iter().map(|&element| elements[element].name).collect();
        match parent {
            None => after("flow*", name).map(drop)?,
            Some(parent) => elements[parent].left = after(&elements[parent].left, name)?,
        }
        left = holds(name, &parents, parent.map_or(0, |parent| count(elements, parent, name)));
    }
    if let Some(parent) = parent {
        let this = elements.len();
        elements[parent].children.push(this);
    }
    let left = left.to_string();
    elements.push(Element { name, parent, children: Vec::new(), left, enter: place, exit: 0, from: 0, to: 0 });
    Some(())
}

fn count(elements: &[Element], parent: usize, name: u8) -> usize {
    elements[parent].children.iter().filter(|&&child| elements[child].name == name).count()
}

// ---- "Slices", "Label identity", and the counts

struct Tree<'a> {
    text: &'a str,
    elements: Vec<Element>,
}

impl Tree<'_> {
    fn all(&self) -> impl Iterator<Item = &Element> {
        self.elements.iter()
    }

    fn named(&self, name: u8) -> impl Iterator<Item = &Element> {
        self.all().filter(move |element| element.name == name)
    }

    fn slice(&self, element: &Element) -> &str {
        &self.text[element.from..element.to]
    }

    /// The first child of this name.
    fn child(&self, element: &Element, name: u8) -> Option<&Element> {
        element.children.iter().map(|&child| &self.elements[child]).find(|child| child.name == name)
    }

    fn slice_rule(&self, element: &Element) -> bool {
        let slice = self.slice(element);
        match element.name {
            LINE_ENDING | BLANK_LINE_ENDING => matches!(slice, "\n" | "\r" | "\r\n"),
            ITEM_VALUE => slice.len() <= 9 && digits(slice, 10),
            ATX_SEQUENCE if self.first_of_its_name(element) => (1..=6).contains(&slice.len()),
            UNDERLINE_SEQUENCE => slice.starts_with(['-', '=']),
            REFERENCE_VALUE if self.beside(element, HEXADECIMAL_MARKER) => slice.len() <= 6 && digits(slice, 16),
            REFERENCE_VALUE if self.beside(element, NUMERIC_MARKER) => slice.len() <= 7 && digits(slice, 10),
            REFERENCE_VALUE => names().any(|name| name == slice),
            _ => true,
        }
    }

    fn parent(&self, element: &Element) -> &Element {
        &self.elements[element.parent.expect("only flow stands in the whole")]
    }

    fn first_of_its_name(&self, element: &Element) -> bool {
        self.child(self.parent(element), element.name).is_some_and(|first| first.enter == element.enter)
    }

    fn beside(&self, element: &Element, name: u8) -> bool {
        self.child(self.parent(element), name).is_some()
    }

    /// The enters of the 129th definition and of the 65th footnote definition.
    fn too_many(&self) -> impl Iterator<Item = usize> + '_ {
        let over = [self.named(DEFINITION).nth(128), self.named(FOOTNOTE_DEFINITION).nth(64)];
        over.into_iter().flatten().map(|element| element.enter)
    }

    /// The labels of the definitions, or, for a call, of the footnote definitions.
    fn defined(&self, element: &Element) -> Vec<&str> {
        let path: &[u8] = match element.name {
            FOOTNOTE_CALL => &[FOOTNOTE_DEFINITION, FOOTNOTE_PREFIX, FOOTNOTE_LABEL],
            _ => &[DEFINITION, DEFINITION_LABEL],
        };
        let inner = |element| path[1..].iter().try_fold(element, |element, &name| self.child(element, name));
        self.named(path[0]).filter_map(inner).map(|label| self.slice(label)).collect()
    }

    /// The label that a link, an image or a call looks for: 52, else 48; none with 49, or with neither.
    fn sought(&self, element: &Element) -> Option<&str> {
        let seeks = matches!(element.name, LINK | IMAGE | FOOTNOTE_CALL);
        if !seeks || self.child(element, RESOURCE).is_some() {
            return None;
        }
        let text = || self.child(self.child(element, LABEL)?, LABEL_TEXT);
        let label = self.child(element, REFERENCE_STRING).or_else(text)?;
        Some(self.slice(label))
    }

    /// The enters of links, images and calls whose label is not defined.
    fn undefined(&self) -> impl Iterator<Item = usize> + '_ {
        let undefined = |element: &&Element| {
            let same =
                |sought: &str| self.defined(element).into_iter().any(|label| identity(label) == identity(sought));
            self.sought(element).is_some_and(|sought| !same(sought))
        };
        self.all().filter(undefined).map(|element| element.enter)
    }
}

/// One digit or more, of this base.
fn digits(slice: &str, base: u32) -> bool {
    !slice.is_empty() && slice.chars().all(|character| character.is_digit(base))
}
