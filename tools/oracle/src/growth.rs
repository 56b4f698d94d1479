// How long pages are for their texts and for their events, over the corpus: what to lend at first (docs/PROMISES.md).
use crate::alone;
use crate::corpus::page_notes;
use crate::drive::Asked;
use crate::export::export;
use crate::grammar::{ANY, PLAIN};
use crate::lists::List;
use crate::pages::whole_page;
use crate::record::LENGTH;

/// Notes of so many bytes and more are counted by themselves too: in a short one a footnote is most of the page.
const LONG: usize = 100;
/// Page bytes are counted without this many for each byte of the text, too: what escaping may make of it.
const ESCAPED: usize = 6;

/// A page's length, and what it is the page of.
struct Page {
    length: usize,
    list: List,
}

impl Page {
    fn events(&self) -> usize {
        self.list.events.len() / LENGTH
    }
}

type Measure = (&'static str, fn(&Page) -> Option<f64>);

const MEASURES: [Measure; 3] = [
    ("page bytes for each text byte", |page| over(page.length, page.list.text.len())),
    ("page bytes for each event", |page| over(page.length, page.events())),
    ("bytes over six for each text byte, for each event", |page| {
        over(page.length.saturating_sub(ESCAPED * page.list.text.len()), page.events())
    }),
];

fn over(some: usize, of: usize) -> Option<f64> {
    (of > 0).then(|| some as f64 / of as f64)
}

/// The notes that the parser takes and the rules pass, then lists from the grammar: each option and line ending at random.
pub fn print() {
    let mut pages = Vec::new();
    page_notes(&mut |note, options| {
        if let Some(records) = export(&note) {
            add(List::new(note, &records), options, &mut pages);
        }
    });
    show("notes", &pages);
    pages.retain(|page| page.list.text.len() >= LONG);
    show(&format!("notes of {LONG} bytes and more"), &pages);
    pages.clear();
    for words in [&PLAIN, &ANY] {
        alone::grammar(words, alone::LISTS, &mut |list, options| add(list, options, &mut pages));
    }
    show("lists from the grammar", &pages);
}

fn add(list: List, options: crate::export::PageOptions, pages: &mut Vec<Page>) {
    if let Some(page) = whole_page(&list, options) {
        pages.push(Page { length: page.len(), list });
    }
}

/// For each measure the median, the least that is enough for 999 of 1,000, and the most, with the smallest list that has it.
fn show(name: &str, pages: &[Page]) {
    println!("{name}: {} pages", pages.len());
    for (told, measure) in MEASURES {
        let mut all: Vec<(f64, &Page)> = pages.iter().filter_map(|page| Some((measure(page)?, page))).collect();
        all.sort_by(|a, b| a.0.total_cmp(&b.0));
        let Some(&(most, _)) = all.last() else { continue };
        let at = |part: f64| all[((all.len() - 1) as f64 * part).ceil() as usize].0;
        println!("    {told}: median {:.1}, 99.9 % {:.1}, worst {most:.1}", at(0.5), at(0.999));
        let worst = all.iter().filter(|one| one.0 == most).min_by_key(|one| one.1.list.size());
        let worst = worst.expect("there is a worst").1;
        println!("        {} page bytes of {}", worst.length, worst.list.shown());
    }
}
