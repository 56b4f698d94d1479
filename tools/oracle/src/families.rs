// The families of requests for the leaves. Each hands its requests to `ask`, in an order that never changes.
use crate::judge::answer;
use crate::random::Random;
use crate::request::{Request, CALLS, ESCAPE, IDENTITY, IMAGE, LINK, QUOTED, SANITIZE};

pub type Ask<'a> = &'a mut dyn FnMut(Request);

pub struct Family {
    pub name: &'static str,
    pub seed: Option<u64>,
    pub requests: fn(Ask),
}

const fn family(name: &'static str, requests: fn(Ask)) -> Family {
    Family { name, seed: None, requests }
}

const RANDOM_SEED: u64 = 20_251_115;

pub const LEAVES: [Family; 11] = [
    family("table", table),
    family("utf8", utf8),
    family("three", three),
    family("short", short),
    family("rooms", rooms),
    family("schemes", schemes),
    family("places", places),
    family("runs", runs),
    Family { name: "random", seed: Some(RANDOM_SEED), requests: random },
    family("quotes", quotes),
    family("limits", limits),
];

/// The characters that matter to a call.
fn alphabet(op: u8) -> &'static str {
    match op {
        ESCAPE => "&<>\"\0aé'",
        IDENTITY => "aZ \t\n\ré-\0",
        _ => "%2z:/?#&\"< é\u{1F44D}\0'~\\h",
    }
}

/// A request whose room is what the answer needs and `more`; for a text to be refused, what it would need unchanged.
fn fitting(op: u8, options: u8, text: &[u8], more: usize) -> Request {
    let needed = answer(op, options, text).map_or(text.len(), |answer| answer.len());
    Request { op, options, text: text.to_vec(), room: needed + more }
}

/// Hands on `text` and every text that is it and up to `most` characters behind it.
pub fn every(alphabet: &str, most: usize, text: &mut String, with: &mut dyn FnMut(&[u8])) {
    with(text.as_bytes());
    if most == 0 {
        return;
    }
    for character in alphabet.chars() {
        text.push(character);
        every(alphabet, most - 1, text, with);
        text.pop();
    }
}

/// The examples of RULES R19 and of the crate's own comments, whose answers the crate is first held to.
fn table(ask: Ask) {
    let examples: [(u8, &str, &str); 26] = [
        (SANITIZE, "%zz", "%zz"),
        (SANITIZE, "%20", "%20"),
        (SANITIZE, "%%20", "%25%20"),
        (SANITIZE, "%2", "%252"),
        (SANITIZE, "", ""),
        (SANITIZE, "a b&c", "a%20b&amp;c"),
        (SANITIZE, "javascript:alert(1)", "javascript:alert(1)"),
        (SANITIZE, "https://a\u{1F44D}b.c/%20/%", "https://a%F0%9F%91%8Db.c/%20/%25"),
        (LINK, ":x", ""),
        (LINK, "JAVASCRIPT:x", ""),
        (LINK, "HTTP:x", "HTTP:x"),
        (LINK, "a/b:c", "a/b:c"),
        (LINK, "a?b:c", "a?b:c"),
        (LINK, "a#b:c", "a#b:c"),
        (LINK, "mailto:a", "mailto:a"),
        (IMAGE, "mailto:a", ""),
        (IMAGE, "javascript:alert(1)", ""),
        (IMAGE, "https://example.com", "https://example.com"),
        (ESCAPE, "I <3 \u{1F980}", "I &lt;3 \u{1F980}"),
        (ESCAPE, "a\0b", "a\u{FFFD}b"),
        (ESCAPE, "&<>\"'", "&amp;&lt;&gt;&quot;'"),
        (IDENTITY, " a ", "A"),
        (IDENTITY, "a\t\r\nb", "A B"),
        (IDENTITY, "x y z", "X Y Z"),
        (IDENTITY, "é", "é"),
        (IDENTITY, " \t\r\n", ""),
    ];
    for (op, text, wanted) in examples {
        let options = (op == ESCAPE) as u8;
        assert_eq!(answer(op, options, text.as_bytes()).unwrap(), wanted.as_bytes(), "op {op} on {text:?}");
        ask(fitting(op, options, text.as_bytes(), 0));
        ask(fitting(op, options, text.as_bytes(), 8));
    }
}

/// UTF-8 by RFC 3629, for every call: every string of up to two bytes, and of three and four bytes those at the edges of
/// the standard's table, four bytes with a plain byte before and behind too.
pub fn utf8(ask: Ask) {
    const EDGES: [u8; 32] = [
        0x00, 0x01, 0x26, 0x41, 0x7F, 0x80, 0x81, 0x8F, 0x90, 0x9F, 0xA0, 0xBE, 0xBF, 0xC0, 0xC1, 0xC2, 0xC3, 0xDF,
        0xE0, 0xE1, 0xEC, 0xED, 0xEE, 0xEF, 0xF0, 0xF1, 0xF3, 0xF4, 0xF5, 0xF8, 0xFC, 0xFF,
    ];
    const LEADS: [u8; 20] = [
        0x41, 0x7F, 0x80, 0xBF, 0xC1, 0xC2, 0xDF, 0xE0, 0xE1, 0xEC, 0xED, 0xEE, 0xEF, 0xF0, 0xF1, 0xF3, 0xF4, 0xF5,
        0xF8, 0xFF,
    ];
    const SECONDS: [u8; 11] = [0x00, 0x41, 0x7F, 0x80, 0x8F, 0x90, 0x9F, 0xA0, 0xBF, 0xC0, 0xFF];
    const LATER: [u8; 7] = [0x00, 0x41, 0x7F, 0x80, 0xBF, 0xC0, 0xFF];
    for (op, options) in CALLS {
        let mut ask = |text: &[u8]| ask(fitting(op, options, text, 2));
        ask(b"");
        for a in 0..=255 {
            ask(&[a]);
            for b in 0..=255 {
                ask(&[a, b]);
            }
        }
        for a in EDGES {
            for b in EDGES {
                for c in EDGES {
                    ask(&[a, b, c]);
                }
            }
        }
        for a in LEADS {
            for b in SECONDS {
                for c in LATER {
                    for d in LATER {
                        ask(&[a, b, c, d]);
                        ask(&[b'x', a, b, c, d, b'x']);
                    }
                }
            }
        }
    }
}

/// Every string of three bytes. The room is the most that three bytes can need.
fn three(ask: Ask) {
    for number in 0..1u32 << 24 {
        ask(Request { op: ESCAPE, options: 1, text: number.to_be_bytes()[1..].to_vec(), room: 18 });
    }
}

/// Every text of up to four of the characters that matter.
fn short(ask: Ask) {
    for (op, options) in CALLS {
        let mut more = 0;
        every(alphabet(op), 4, &mut String::new(), &mut |text| {
            more = (more + 1) % 3;
            ask(fitting(op, options, text, more));
        });
    }
}

/// Every text of up to three of them, with every room from none to one more than needed.
fn rooms(ask: Ask) {
    for (op, options) in CALLS {
        every(alphabet(op), 3, &mut String::new(), &mut |text| {
            let most = fitting(op, options, text, 1);
            for room in 0..=most.room {
                ask(Request { room, ..most.clone() });
            }
        });
    }
}

/// Schemes and near misses, and every text of up to three characters behind each.
fn schemes(ask: Ask) {
    let words = "http HTTP hTtPs https httpx htt h%74tp https\u{17F} httpé irc ircs IRCS mailto Mailto mailt xmpp xmp \
        javascript Data";
    for op in [SANITIZE, LINK, IMAGE] {
        for start in words.split_whitespace().chain(["", " http", "http ", "http\0"]) {
            every(":/?#a%é&", 3, &mut start.to_string(), &mut |text| ask(fitting(op, 0, text, 1)));
        }
    }
}

/// For code that reads eight or sixteen bytes at a time: what matters at every place of plain texts of every length up
/// to 40, every pair of ASCII characters about the edges of such blocks, and `%` with every pair behind it.
fn places(ask: Ask) {
    for (op, options) in CALLS {
        for length in 1..=40 {
            for place in 0..length {
                for character in alphabet(op).chars() {
                    let mut text = vec![b'x'; length];
                    text.splice(place..place + 1, character.to_string().bytes());
                    ask(fitting(op, options, &text, 1));
                    text.pop();
                    ask(fitting(op, options, &text, 0));
                }
            }
        }
    }
    for a in 0..128 {
        for b in 0..128 {
            for place in [0, 6, 7, 8, 14, 15, 16] {
                let mut text = [b'x'; 33];
                text[place] = a;
                text[place + 1] = b;
                ask(fitting(ESCAPE, 1, &text, 1));
                ask(fitting(IDENTITY, 0, &text, 1));
            }
            ask(fitting(SANITIZE, 0, &[b'%', a, b], 1));
            ask(fitting(LINK, 0, &[b'%', a, b, b':'], 1));
        }
    }
}

/// For code that moves a run of kept bytes at once: URLs of every length up to 200, with what ends a run, or a triple, at
/// every place. By turns the room is what is needed, one less, half, and more.
fn runs(ask: Ask) {
    const PIECES: [&[u8]; 10] = [b"%20", b"%2", b"%", b"%2%", b"%%aZ", b"&", b"'", b"\0", b"?=#", "é".as_bytes()];
    let mut turn = 0;
    for length in 1..=200 {
        for place in 0..length {
            for piece in PIECES {
                let mut text: Vec<u8> = (0..length).map(|k| b"az/AZ-.09"[k % 9]).collect();
                text.splice(place..place + 1, piece.iter().copied());
                let needed = fitting(SANITIZE, 0, &text, 0);
                turn = (turn + 1) % 7;
                let room = match turn {
                    0 => needed.room - 1,
                    1 => needed.room / 2,
                    2 => needed.room + 7,
                    _ => needed.room,
                };
                ask(Request { room, ..needed });
            }
        }
    }
}

/// The requests of five families again, with apostrophes escaped; and schemes with an apostrophe.
fn quotes(ask: Ask) {
    for requests in [short, rooms, schemes, places, random] {
        requests(&mut |request| {
            if request.op != IDENTITY {
                ask(quoted(request));
            }
        });
    }
    for (op, options) in QUOTED {
        for start in ["'", "javascript'", "http'", "mailto&#39;", "a'/b", "%27"] {
            every("':/#;a", 4, &mut start.to_string(), &mut |text| ask(fitting(op, options, text, 1)));
        }
    }
}

/// The request with bit 3, and as much more or less room than its answer needs.
fn quoted(request: Request) -> Request {
    let needed = |options| answer(request.op, options, &request.text).map_or(0, |answer| answer.len());
    let options = request.options | 8;
    let room = (request.room + needed(options)).saturating_sub(needed(request.options));
    Request { options, room, ..request }
}

/// Texts, URLs and labels from a seed: 100,000 for each call and option.
fn random(ask: Ask) {
    let mut random = Random(RANDOM_SEED);
    for _ in 0..100_000 {
        for (op, options) in CALLS {
            let text = random_text(&mut random);
            let mut request = fitting(op, options, &text, 0);
            request.room = match random.below(8) {
                0 => 0,
                1 => request.room.saturating_sub(1),
                2..=4 => request.room,
                _ => request.room + random.below(64),
            };
            ask(request);
        }
    }
}

/// A text of up to 40 bytes, now and then of 2,000, all of pieces of a URL, of a text or of a label, or of any characters,
/// with spaces between; one in ten has a damaged byte.
pub fn random_text(random: &mut Random) -> Vec<u8> {
    let pieces = random.pick(&[
        "http https irc mailto javascript : :// / ? # & % %2 %20 %zz %C3%A9 %é a Z 0 . - _ ~ ! ' ( [ \\ | \" < > é \u{1F44D}",
        "a the word \n \t & < > \" ' &amp; \0 é \u{20AC} \u{1F980}",
        "a B zZ 9 - \t \n \r \r\n \u{A0} \u{C9} \u{DF} \u{3B8} \0",
        "",
    ]);
    let pieces: Vec<&str> = pieces.split(' ').collect();
    let length = if random.below(50) == 0 { random.below(2_001) } else { random.below(41) };
    let mut text = String::new();
    while text.len() < length {
        match random.pick(&pieces) {
            "" => text.push(random_character(random)),
            piece => text.push_str(piece),
        }
        if random.below(6) == 0 {
            text.push(' ');
        }
    }
    let mut text = text.into_bytes();
    if random.below(10) == 0 && !text.is_empty() {
        let place = random.below(text.len());
        match random.below(3) {
            0 => text[place] = random.below(256) as u8,
            1 => drop(text.remove(place)),
            _ => text.truncate(place),
        }
    }
    text
}

/// A character of one to four bytes, each length as often as the others.
fn random_character(random: &mut Random) -> char {
    let (from, to) = random.pick(&[(0, 0x80), (0x80, 0x800), (0x800, 0x1_0000), (0x1_0000, 0x11_0000)]);
    char::from_u32((from + random.below(to - from)) as u32).unwrap_or('\u{D7FF}')
}

/// Texts about the limit of 64,000 bytes, of one character over and over, or cut; the room exact, one short, none and
/// the most; then the order of the refusals.
fn limits(ask: Ask) {
    const MOST_ROOM: usize = 524_288;
    for (op, options) in CALLS {
        for length in [63_999, 64_000, 64_001] {
            for piece in ["a", "\"", "&", "\0", " ", "a ", "%20", "é", "\u{20AC}", "\u{1F44D}", "http:/"] {
                // one whole text, and one whose last character is cut wherever the length is no multiple of it
                let cut: Vec<u8> = piece.bytes().cycle().take(length).collect();
                let mut whole = vec![b'-'; length % piece.len()];
                whole.extend(&cut[..length - length % piece.len()]);
                for text in [&whole, &cut] {
                    let exact = fitting(op, options, text, 0);
                    for room in [exact.room, exact.room.saturating_sub(1), 0, MOST_ROOM] {
                        ask(Request { room, ..exact.clone() });
                    }
                }
            }
        }
        for room in [0, 64_000, MOST_ROOM] {
            ask(Request { op, options, text: vec![b'a'; 262_144], room });
            ask(Request { op, options, text: vec![0xFF; 262_144], room });
            ask(Request { op, options, text: vec![0xFF; 64_001], room });
            ask(Request { op, options, text: vec![0xFF; 64_000], room });
            ask(Request { op, options, text: vec![0xFF; 1], room });
        }
    }
}
