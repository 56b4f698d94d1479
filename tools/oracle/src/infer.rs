// Stands in the place of the crate's `util::infer` in the library `markdown_records`: the answers come from a record's
// extra field, which `compile.rs` puts into the line of the event's point (the crate's pages do not read it).
use crate::event::Event;
use crate::mdast::AlignKind;
use alloc::vec::Vec;

pub fn list_loose(events: &[Event], index: usize, _include_items: bool) -> bool {
    events[index].point.line == 1
}

pub fn list_item_loose(_events: &[Event], _index: usize) -> bool {
    unreachable!("only the syntax tree asks for an item's looseness")
}

pub fn gfm_table_align(events: &[Event], index: usize) -> Vec<AlignKind> {
    let extra = events[index].point.line;
    (0..extra & 0xFF).map(|column| alignment(extra.checked_shr(8 + 2 * column as u32).unwrap_or(0) & 3)).collect()
}

fn alignment(bits: usize) -> AlignKind {
    match bits {
        1 => AlignKind::Left,
        2 => AlignKind::Right,
        3 => AlignKind::Center,
        _ => AlignKind::None,
    }
}
