//! Every call on the samples of the repository, and the header's numbers.
use notepage::*;
use std::fs;
use std::path::{Path, PathBuf};

fn repository() -> PathBuf {
    Path::new(env!("CARGO_MANIFEST_DIR")).join("../..")
}

fn file(name: &str) -> Vec<u8> {
    let path = repository().join(name);
    fs::read(&path).unwrap_or_else(|error| panic!("{}: {error}", path.display()))
}

fn event(kind: u8, name: u8, from: u32, to: u32) -> Vec<u8> {
    let mut record = vec![kind, name, 0, 0];
    record.extend(from.to_le_bytes());
    record.extend(to.to_le_bytes());
    record.extend([0; 8]);
    record
}

fn element(name: u8, from: u32, to: u32, inside: &[Vec<u8>]) -> Vec<u8> {
    [event(0, name, 0, 0), inside.concat(), event(1, name, from, to)].concat()
}

/// A paragraph of data.
fn paragraph(to: u32) -> Vec<u8> {
    element(12, 0, to, &[element(5, 0, to, &[])])
}

fn refused(number: u32, place: usize) -> Refusal {
    Refusal { number, place }
}

#[test]
fn the_sample_has_its_page() {
    let mut builder = Builder::new(Options::default());
    let page = builder.build_bundle(&file("samples/note.bundle")).unwrap();
    assert_eq!(page.as_bytes(), file("crates/notepage/stdout"));
}

/// The places are those of docs/REFUSALS.md.
#[test]
fn each_refused_sample_is_refused() {
    let places = [(2, 0), (3, 2), (4, 1), (5, 5), (6, 384), (7, 1), (8, 5), (9, 8), (10, 0), (11, 3), (12, 2)];
    let mut builder = Builder::new(Options::default()).with_most_room(65_536);
    for (number, place) in places {
        let bundle = file(&format!("samples/refused-{number:02}.bundle"));
        assert_eq!(builder.build_bundle(&bundle), Err(refused(number, place)));
    }
}

#[test]
fn a_refusal_leaves_zeros_and_so_does_what_is_behind_a_page() {
    let (mut out, mut work) = ([7; 20], [7; LEAST_WORK]);
    assert_eq!(build(b"a", &paragraph(1), Options::default(), &mut out, &mut work), Ok("<p>a</p>"));
    assert_eq!(&out, b"<p>a</p>\0\0\0\0\0\0\0\0\0\0\0\0");
    assert!(work.iter().all(|&byte| byte == 0));

    let mut out = [7; 7];
    assert_eq!(build(b"a", &paragraph(1), Options::default(), &mut out, &mut work), Err(refused(9, 3)));
    assert_eq!(out, [0; 7]);
}

#[test]
fn the_builder_lends_more_room_where_a_page_needs_it() {
    let bundle = file("samples/refused-09.bundle");
    let mut builder = Builder::new(Options::default());
    let length = builder.build_bundle(&bundle).unwrap().len();
    assert!(length > 65_536);
    assert_eq!(builder.build(b"a", &paragraph(1)), Ok("<p>a</p>"), "and is used again");
    let mut exact = Builder::new(Options::default()).with_most_room(length);
    assert_eq!(exact.build_bundle(&bundle).unwrap().len(), length, "the most is lent");
    let mut short = Builder::new(Options::default()).with_most_room(length - 1);
    assert_eq!(short.build_bundle(&bundle).unwrap_err().number, 9, "and no more");
    let mut small = Builder::new(Options::default()).with_most_room(0);
    assert_eq!(small.build(b"", &[]), Ok(""));
    assert_eq!(small.build(b"a", &paragraph(1)).unwrap_err().number, 9);
}

#[test]
fn each_option_reaches_the_page() {
    let page = |text: &str, events: &[u8], options| {
        let mut builder = Builder::new(options);
        builder.build(text.as_bytes(), events).unwrap().to_string()
    };
    let off = Options::default();
    let html = element(35, 0, 3, &[element(36, 0, 3, &[])]);
    assert_eq!(page("<b>", &html, off), "&lt;b&gt;");
    assert_eq!(page("<b>", &html, Options { allow_dangerous_html: true, ..off }), "<b>");

    let link = |name| {
        element(
            12,
            0,
            6,
            &[element(
                name,
                0,
                6,
                &[
                    element(47, 0, 3, &[element(48, 1, 2, &[element(5, 1, 2, &[])])]),
                    element(49, 0, 6, &[element(50, 3, 6, &[element(5, 3, 6, &[])])]),
                ],
            )],
        )
    };
    assert_eq!(page("[a]x:y", &link(45), off), "<p><a href=\"\">a</a></p>");
    let any = Options { allow_dangerous_protocol: true, ..off };
    assert_eq!(page("[a]x:y", &link(45), any), "<p><a href=\"x:y\">a</a></p>");
    assert_eq!(page("[a]x:y", &link(46), off), "<p><img src=\"\" alt=\"a\" /></p>");
    let source = Options { allow_any_img_src: true, ..off };
    assert_eq!(page("[a]x:y", &link(46), source), "<p><img src=\"x:y\" alt=\"a\" /></p>");
    let quoted = Options { escape_apostrophes: true, ..off };
    assert_eq!(page("[']x'y", &link(45), off), "<p><a href=\"x'y\">'</a></p>");
    assert_eq!(page("[']x'y", &link(45), quoted), "<p><a href=\"x&#39;y\">&#39;</a></p>");

    let two = [paragraph(1), paragraph(1)].concat();
    for (ending, written) in [(Ending::Lf, "\n"), (Ending::Cr, "\r"), (Ending::CrLf, "\r\n")] {
        assert_eq!(page("a", &two, Options { ending, ..off }), format!("<p>a</p>{written}<p>a</p>"));
    }
    let name = element(12, 0, 6, &[element(7, 0, 6, &[element(8, 0, 1, &[]), element(11, 1, 5, &[])])]);
    assert_eq!(page("&lang;", &name, Options { names: Names::Html4, ..off }), "<p>\u{2329}</p>");
    assert_eq!(page("&lang;", &name, Options { names: Names::Html5, ..off }), "<p>\u{27E8}</p>");
}

#[test]
fn a_check_says_yes_or_the_refusal() {
    assert_eq!(check(b"a", &paragraph(1)), Ok(()));
    assert_eq!(check(b"a", &paragraph(2)), Err(refused(3, 2)));
    assert_eq!(check(&[0; MOST_TEXT + 1], &[]), Err(refused(1, 0)));
    assert_eq!(check(b"", &[0; RECORD + 1]), Err(refused(1, 0)));
    assert_eq!(check(b"", &[0; (MOST_EVENTS + 1) * RECORD]), Err(refused(1, 0)));
}

#[test]
fn a_bundle_reads_as_it_was_written_whole_and_in_parts() {
    let mut out = vec![9; MOST_BUNDLE];
    let written = write_bundle(b"abc", &paragraph(3), u32::MAX, &mut out).unwrap().to_vec();
    assert!(out[written.len()..].iter().all(|&byte| byte == 0));
    let (mut text, mut events) = (vec![1; LEAST_READ], vec![1; LEAST_READ]);
    let wanted = Bundle { text: b"abc", events: &paragraph(3), edition: u32::MAX };
    assert_eq!(read_bundle(&written, &mut text, &mut events), Ok(wanted));
    for size in [1, 7, 511, 512, 513, written.len()] {
        let mut reader = BundleReader::new(&mut text, &mut events);
        assert!(written.chunks(size).all(|part| reader.feed(part).is_none()));
        assert_eq!(reader.end(), Ok(wanted));
    }
    assert_eq!(write_bundle(b"abc", &paragraph(3), 0, &mut out[..BLOCK]), Err(refused(9, 0)));
    assert_eq!(write_bundle(b"", &[0; 19], 0, &mut out), Err(refused(1, 0)));
    assert_eq!(read_bundle(&written, &mut text[1..], &mut events), Err(refused(1, 0)));
    let mut reader = BundleReader::new(&mut text[1..], &mut events);
    reader.feed(&written);
    assert_eq!(reader.end(), Err(refused(1, 0)));
}

#[test]
fn a_block_of_another_edition_is_refused_as_soon_as_it_is_there() {
    let bundle = file("samples/refused-12.bundle");
    let (mut text, mut events) = (vec![1; LEAST_READ], vec![1; LEAST_READ]);
    let mut reader = BundleReader::new(&mut text, &mut events);
    assert_eq!(reader.feed(&bundle[..3 * BLOCK - 1]), None);
    assert_eq!(reader.feed(&bundle[3 * BLOCK - 1..]), Some(refused(12, 2)));
    assert_eq!(reader.end(), Err(refused(12, 2)));
    assert!(text.iter().chain(&events).all(|&byte| byte == 0));
}

#[test]
fn texts_are_made_safe() {
    let mut out = [0; 100];
    assert_eq!(escape(b"<\"&\0\">", Escaping::Html, &mut out), Ok("&lt;&quot;&amp;\u{FFFD}&quot;&gt;"));
    assert_eq!(escape(b"<\0'>", Escaping::Off, &mut out), Ok("<\u{FFFD}'>"));
    assert_eq!(escape(b"it's", Escaping::Html, &mut out), Ok("it's"));
    assert_eq!(escape(b"it's", Escaping::HtmlAndApostrophes, &mut out), Ok("it&#39;s"));
    for (url, made) in [("%zz", "%zz"), ("%%20", "%25%20"), ("%2", "%252"), ("", ""), ("é", "%C3%A9")] {
        assert_eq!(sanitize(url.as_bytes(), false, &mut out), Ok(made));
    }
    assert_eq!(sanitize_link(b"mailto:x", false, &mut out), Ok("mailto:x"));
    assert_eq!(sanitize_image(b"HTTP:x", false, &mut out), Ok("HTTP:x"));
    assert_eq!(sanitize(b"a'b%27", true, &mut out), Ok("a&#39;b%27"));
    assert_eq!(sanitize_link(b"javascript':x", true, &mut out), Ok(""));
    assert_eq!(sanitize_image(b"HTTP:x'y", true, &mut out), Ok("HTTP:x&#39;y"));
    assert_eq!(identity(b" A\t b ", &mut out), Ok(&b"A B"[..]));
    assert_eq!(escape(b"\xff", Escaping::Html, &mut out), Err(refused(2, 0)));
    assert_eq!(sanitize(b"a b", false, &mut out[..4]), Err(refused(9, 0)));
    assert_eq!(sanitize(&[b'a'; MOST_TEXT + 1], false, &mut out), Err(refused(1, 0)));
}

#[test]
fn a_url_is_normalized_and_its_visits_are_counted() {
    let mut out = [7; 20];
    let cases = [("é", "%C3%A9", 1), ("%20", "%20", 1), ("%%20", "%25%20", 2), ("%2", "%252", 2), ("", "", 0)];
    for (url, made, visits) in cases {
        assert_eq!(normalize(url.as_bytes(), &mut out), Ok(Normalized { url: made, visits }));
    }
    assert_eq!(normalize("é".as_bytes(), &mut out[..5]), Err(refused(9, 0)));
    assert_eq!(out[..5], [0; 5]);
    assert_eq!(normalize(b"\xff", &mut out), Err(refused(2, 0)));
    assert_eq!(normalize(&[b'a'; MOST_TEXT + 1], &mut out), Err(refused(1, 0)));
}

/// The bytes that need it all, with the room that is always enough and with one byte less.
#[test]
fn no_text_needs_more_room_than_is_said() {
    type Call = fn(&[u8], &mut [u8]) -> Result<usize, Refusal>;
    let calls: [(u8, usize, Call); 5] = [
        (b'"', ESCAPE_ROOM, |text, out| escape(text, Escaping::HtmlAndApostrophes, out).map(str::len)),
        (b'&', SANITIZE_ROOM, |url, out| sanitize(url, true, out).map(str::len)),
        (b'&', SANITIZE_ROOM, |url, out| sanitize_link(url, false, out).map(str::len)),
        (b'&', SANITIZE_ROOM, |url, out| sanitize_image(url, true, out).map(str::len)),
        (b' ', NORMALIZE_ROOM, |url, out| normalize(url, out).map(|made| made.url.len())),
    ];
    for (byte, most, call) in calls {
        for length in [0, 1, 17, MOST_TEXT] {
            let (text, mut out) = (vec![byte; length], vec![7; most * length]);
            assert_eq!(call(&text, &mut out), Ok(most * length));
            let less = out.len().saturating_sub(1);
            assert_eq!(call(&text, &mut out[..less]), if length == 0 { Ok(0) } else { Err(refused(9, 0)) });
        }
        let any: Vec<u8> = (0..=127).cycle().take(1_000).collect();
        assert!(call(&any, &mut vec![7; most * any.len()]).is_ok(), "no byte takes more");
    }
}

#[test]
fn a_list_of_links_is_what_single_calls_give() {
    let urls = ["https://a.b/c d", "", "javascript:x", "&", "\u{e9}", "a?b:c'd", "MAILTO:x"];
    let mut text = String::new();
    let ends: Vec<u32> = urls
        .iter()
        .map(|url| {
            text.push_str(url);
            text.len() as u32
        })
        .collect();
    let (mut out, mut lengths, mut one) = ([1; 100], [1; 9], [0; 100]);
    let singly: Vec<String> =
        urls.iter().map(|url| sanitize_link(url.as_bytes(), true, &mut one).unwrap().to_string()).collect();
    assert_eq!(sanitize_links(text.as_bytes(), &ends, true, &mut out, &mut lengths), Ok(&*singly.concat()));
    let wanted: Vec<u32> = singly.iter().map(|url| url.len() as u32).chain([0, 0]).collect();
    assert_eq!(lengths[..], wanted[..]);
    assert_eq!(sanitize_links(b"", &[], false, &mut out, &mut []), Ok(""));
    let refused_list = |text: &[u8], ends: &[u32], room: usize, number, place| {
        let (mut out, mut lengths) = ([1; 20], [1; 3]);
        assert_eq!(sanitize_links(text, ends, false, &mut out[..room], &mut lengths), Err(refused(number, place)));
        assert!(out[..room].iter().all(|&byte| byte == 0) && lengths == [0; 3]);
    };
    refused_list(b"aaaa", &[1, 2, 3, 4], 9, 1, 0);
    refused_list(b"aaaa", &[2, 1], 9, 1, 1);
    refused_list(b"aaaa", &[2, 5], 9, 1, 1);
    refused_list(b"aa\xff", &[1], 9, 2, 0);
    refused_list("a\u{e9}".as_bytes(), &[1, 2], 9, 3, 1);
    refused_list(b"&a", &[1, 2], 5, 9, 1);
}

#[test]
fn threads_do_not_meet() {
    let (bundle, page) = (file("samples/note.bundle"), file("crates/notepage/stdout"));
    std::thread::scope(|scope| {
        for _ in 0..8 {
            scope.spawn(|| {
                let mut builder = Builder::new(Options::default());
                (0..20).for_each(|_| assert_eq!(builder.build_bundle(&bundle).unwrap().as_bytes(), page));
            });
        }
    });
}

#[test]
fn a_place_is_found_in_the_text() {
    let text = "\u{e4}\r\nb\rcd\n".as_bytes();
    let at = |place| position(text, &element(5, 7, 8, &[]), place).map(|at| (at.line, at.column));
    assert_eq!((at(0), at(1), at(2), at(3)), (Some((3, 2)), Some((3, 2)), Some((4, 1)), None));
    assert_eq!(position(text, &event(0, 12, 0, 0), 0), None, "never left");
    assert_eq!(position(b"", &element(5, 7, 8, &[]), 0), None, "outside the text");
}

/// The constants here are the header's, and every function that it declares is called here.
#[test]
fn the_header_says_the_same() {
    let header = String::from_utf8(file("include/notepage.h")).unwrap();
    let constant = |name: &str| -> usize {
        let value = header.split(&format!("#define NOTEPAGE_{name} ")).nth(1).unwrap_or_else(|| panic!("no {name}"));
        value.split(['u', ' ', '\n']).next().unwrap().parse().unwrap()
    };
    let ours = [
        ("MOST_TEXT", MOST_TEXT),
        ("RECORD", RECORD),
        ("MOST_EVENTS", MOST_EVENTS),
        ("LEAST_WORK", LEAST_WORK),
        ("LEAST_READ", LEAST_READ),
        ("BLOCK", BLOCK),
        ("MOST_BUNDLE", MOST_BUNDLE),
        ("ESCAPE_ROOM", ESCAPE_ROOM),
        ("SANITIZE_ROOM", SANITIZE_ROOM),
        ("NORMALIZE_ROOM", NORMALIZE_ROOM),
        ("VERSION", version() as usize),
    ];
    ours.iter().for_each(|&(name, value)| assert_eq!(constant(name), value, "{name}"));
    let raw = include_str!("../src/raw.rs");
    for line in header.lines().filter(|line| line.contains("notepage_") && line.contains('(')) {
        let name = line.split('(').next().unwrap().rsplit([' ', '*']).next().unwrap();
        let declared = !line.starts_with(' ') && !line.starts_with("static") && name.starts_with("notepage_");
        assert!(!declared || raw.contains(&format!("fn {name}(")), "{name}");
    }
}
