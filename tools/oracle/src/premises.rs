// Lists that the rules pass and on which the crate's page may differ, by the rows of docs/DIFFERENCES.md. There the changed
// copy of the crate is the judge alone; on all others the crate itself must say the same.
use crate::judge::identity_by_01;
use crate::record::{Record, ENTER};

#[derive(Clone, Copy, PartialEq, Eq, PartialOrd, Ord, Debug)]
pub enum Row {
    /// none of them: the crate itself is the judge
    Same,
    LabelInLabel,
    GapInLabel,
    LetterOutsideAscii,
}

pub const ROWS: [(Row, &str); 4] = [
    (Row::Same, "under no row: the crate itself gives the page"),
    (Row::LabelInLabel, "a label text inside a label text"),
    (Row::GapInLabel, "a label whose identity holds a space"),
    (Row::LetterOutsideAscii, "a label outside ASCII"),
];

/// The first row that a list falls under which the rules pass.
pub fn row(text: &[u8], records: &[Record]) -> Row {
    let labels: Vec<&str> = records.iter().filter_map(|record| label(text, record)).collect();
    if label_in_label(records) {
        Row::LabelInLabel
    } else if labels.iter().any(|label| identity_by_01(label).contains(' ')) {
        Row::GapInLabel
    } else if labels.iter().any(|label| !label.is_ascii()) {
        Row::LetterOutsideAscii
    } else {
        Row::Same
    }
}

/// The label that an exit holds.
fn label<'a>(text: &'a [u8], record: &Record) -> Option<&'a str> {
    let names = record.kind != ENTER && matches!(record.name, 48 | 52 | 54 | 65);
    names.then(|| std::str::from_utf8(&text[record.from as usize..record.to as usize]).expect("a slice that passes"))
}

fn label_in_label(records: &[Record]) -> bool {
    let mut open = 0;
    records.iter().filter(|record| record.name == 48).any(|record| {
        open += if record.kind == ENTER { 1 } else { -1 };
        open > 1
    })
}
