//! The deployment that mixed a new text with old events, played again: nothing of the mix reaches a page.
use notepage::{build, read_bundle, Builder, Options, BLOCK, LEAST_READ, LEAST_WORK};
use std::path::PathBuf;
use std::process::{Command, Output};
use std::{env, fs, process};

const TUESDAY: &str = "# Valve V3\n\nOpen it *only* at 12 V.\n";
const WEDNESDAY: &str = "# Valve V7\n\nDo *not* open over 5 V.\n";

/// A folder for notes and one for the site, taken away at the end.
struct Folders(PathBuf);

impl Folders {
    fn new(name: &str) -> Self {
        let top = env::temp_dir().join(format!("notepage-{name}-{}", process::id()));
        fs::create_dir_all(top.join("notes")).unwrap();
        fs::create_dir_all(top.join("site")).unwrap();
        Folders(top)
    }

    fn note(&self, name: &str, text: &[u8]) {
        fs::write(self.0.join("notes").join(name), text).unwrap();
    }

    fn site(&self, name: &str) -> Vec<u8> {
        fs::read(self.0.join("site").join(name)).unwrap()
    }

    fn sync(&self) -> Output {
        let (notes, site) = (self.0.join("notes"), self.0.join("site"));
        Command::new(env!("CARGO_BIN_EXE_sync")).args([notes, site]).output().unwrap()
    }

    /// The bundles of two editions of a note.
    fn editions(&self, old: &str, new: &str) -> [Vec<u8>; 2] {
        [old, new].map(|text| {
            self.note("valve.md", text.as_bytes());
            assert!(self.sync().status.success());
            self.site("valve.bundle")
        })
    }
}

impl Drop for Folders {
    fn drop(&mut self) {
        fs::remove_dir_all(&self.0).unwrap();
    }
}

#[test]
fn a_changed_note_gets_the_next_edition() {
    let folders = Folders::new("editions");
    let bundles = folders.editions(TUESDAY, WEDNESDAY);
    assert_eq!(bundles.map(|bundle| bundle[0]), [1, 2]);
    assert_eq!(folders.site("valve.html"), b"<h1>Valve V7</h1>\n<p>Do <em>not</em> open over 5 V.</p>\n");

    let again = folders.sync();
    assert_eq!(String::from_utf8_lossy(&again.stdout), "1 notes, 0 refused\n");
    assert_eq!(folders.site("valve.bundle")[0], 2);
}

#[test]
fn a_refused_note_keeps_its_old_page_and_is_reported() {
    let folders = Folders::new("refused");
    folders.note("valve.md", TUESDAY.as_bytes());
    assert!(folders.sync().status.success());
    let before = (folders.site("valve.html"), folders.site("valve.bundle"));

    for (wrong, why) in [(&b"caf\xe9"[..], "not UTF-8 at byte 3"), (b"&apos;", "refused 5 at 5")] {
        folders.note("valve.md", wrong);
        let done = folders.sync();
        assert_eq!(done.status.code(), Some(1));
        assert!(String::from_utf8_lossy(&done.stderr).contains(why));
        assert_eq!((folders.site("valve.html"), folders.site("valve.bundle")), before);
    }
    let left = fs::read_dir(folders.0.join("site")).unwrap().count();
    assert_eq!(left, 2, "no file is left beside");
}

/// Plain files can be mixed: the new text with the old events is a page that nobody wrote.
#[test]
fn a_mix_of_plain_files_is_a_page_that_nobody_wrote() {
    let old = notepage_export::export(TUESDAY.as_bytes()).unwrap();
    let mut builder = Builder::new(Options::default());
    let mixed = builder.build(WEDNESDAY.as_bytes(), &old.events).unwrap();
    assert_eq!(mixed, "<h1>Valve V7</h1>\n<p>Do *not*<em>open</em>over 5 V.</p>\n");
}

/// Bundles cannot: whichever blocks are of which edition, the mix is refused by 12, and no byte of it is in a buffer.
#[test]
fn no_mix_of_blocks_is_read() {
    let folders = Folders::new("mixed");
    let [old, new] = folders.editions(TUESDAY, WEDNESDAY);
    assert_eq!(old.len(), new.len(), "both have as many blocks");
    let blocks = old.len() / BLOCK;
    for choice in 1..(1u32 << blocks) - 1 {
        let of = |place: usize| if choice >> place & 1 == 1 { &new } else { &old };
        let mix: Vec<u8> = (0..blocks).flat_map(|k| of(k)[k * BLOCK..(k + 1) * BLOCK].to_vec()).collect();
        let first = (0..blocks).find(|&k| choice >> k & 1 != choice & 1).unwrap();
        let (mut text, mut events) = (vec![1; LEAST_READ], vec![1; LEAST_READ]);
        let refusal = read_bundle(&mix, &mut text, &mut events).unwrap_err();
        assert_eq!((refusal.number, refusal.place), (12, first));
        assert!(text.iter().chain(&events).all(|&byte| byte == 0));
    }
}

/// The site's page comes from one read of the note, so it is the page of one edition.
#[test]
fn the_page_is_that_of_the_bundle() {
    let folders = Folders::new("page");
    for text in [TUESDAY, WEDNESDAY] {
        folders.note("valve.md", text.as_bytes());
        assert!(folders.sync().status.success());
        assert_eq!(page_of(&folders.site("valve.bundle")), folders.site("valve.html"));
    }
}

fn page_of(bundle: &[u8]) -> Vec<u8> {
    let (mut text, mut events) = (vec![0; LEAST_READ], vec![0; LEAST_READ]);
    let note = read_bundle(bundle, &mut text, &mut events).unwrap();
    let (mut out, mut work) = (vec![0; 10_000], vec![0; LEAST_WORK]);
    build(note.text, note.events, Options::default(), &mut out, &mut work).unwrap().into()
}
