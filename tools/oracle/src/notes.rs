// Notes: each construct inside each other, and at random, cut, joined and mutated.
use crate::random::Random;

/// How a construct is written about what it holds: `{}` is that, all of it; in a container it is put behind the first
/// prefix, and its further lines behind the second.
#[derive(Clone, Copy)]
enum Construct {
    Around(&'static str),
    Container(&'static str, &'static str),
}
use Construct::{Around, Container};

const CONSTRUCTS: [Construct; 70] = [
    Around("{}"),
    Around("# {}"),
    Around("## {} ##"),
    Around("#\t{}\t# #"),
    Around("{}\n==="),
    Around("{}\n-"),
    Around("***\n{}"),
    Around("    {}\n\n\t{}"),
    Around("```\n{}\n```"),
    Around("~~~ {} b\n{}"),
    Around("<div>\n{}\n</div>"),
    Around("<!-- {}"),
    Around("<![CDATA[{}]]>\n"),
    Around("[{}]: b \"c\""),
    Around("[a]: <{}>\n"),
    Around("[b]: a '{}'\n"),
    Around("[c d]:\nx\n{}"),
    Around("| {} | b |\n|:-:|--:|\n| c | {} | d |"),
    Around("{}\n-|\n{}"),
    Around("a | {}\n:- | -\n\n{}"),
    Around("{}\n\n{}"),
    Around("{}\n{}"),
    Container("> ", "> "),
    Container(">", ""),
    Container("- ", "  "),
    Container("* ", "\t"),
    Container("+\t", "  "),
    Container("1. ", "   "),
    Container("007) ", "     "),
    Container("- a\n- ", "  "),
    Container("-\n\n- ", "  "),
    Container("3. x\n\n4. ", "   "),
    Container("[^a]: ", "    "),
    Container("[^b]: c\n\n    ", "\t"),
    Around("*{}*"),
    Around("_{}_"),
    Around("**{}**"),
    Around("***{}* a**"),
    Around("`{}`"),
    Around("`` {} ` ``"),
    Around("<a title=\"{}\">"),
    Around("<b>{}</b>"),
    Around("<http://{}>"),
    Around("<a@b.{}>"),
    Around("[{}](b \"{}\")"),
    Around("[{}](<{}> '{}')"),
    Around("![{}](b)"),
    Around("![{}][a]"),
    Around("[{}][b]"),
    Around("[x][{}]"),
    Around("[{}][]"),
    Around("[{}]"),
    Around("![{}]"),
    Around("[^{}]"),
    Around("[^a]{}"),
    Around("\\{}"),
    Around("&{};"),
    Around("&#{};"),
    Around("&#x{};"),
    Around("{}  \n{}"),
    Around("{}\\\n{}"),
    Around("{} {}"),
    Around("{}{}"),
    Around("[{}](\n{}\n\"{}\n\")"),
    Around("\u{FEFF}{}"),
    Around("{}\n\n"),
    Around("[^](\n{})"),
    Around("<![C{}"),
    Around("{}\n=\nb\n="),
    Around("- ```\n- {}"),
];

const LEAVES: [&str; 27] = [
    "a",
    "b",
    "a b",
    "",
    " ",
    "\t",
    "1",
    "x|y",
    "é",
    "É",
    "\u{1F44D}",
    "\0",
    "amp",
    "copy",
    "lang",
    "x1F",
    "&lt;",
    "&copy;",
    "&AMP;",
    "*",
    "`",
    "[a]",
    "[^a]",
    "\\",
    "<",
    "c d",
    "cd",
];

/// So that labels are defined, now and then.
const DEFINITIONS: &str = "\n\n[a]: b\n[é]: /é \"c\"\n\n[^a]: d\n[^b]: e\n";
/// The same without a label outside ASCII.
const PLAIN_DEFINITIONS: &str =
    "\n\n[a]: b\n[b]: <x y> 'c&'\n[d]: javascript:x\n\n[^a]: d\n[^b]: e\n    f\n\n[^c-1]: *g*\n";

/// For pages: what their handlers tell apart, too.
const MORE_CONSTRUCTS: [Construct; 30] = [
    Around("| {} |\n|-|\n| `{}\\|b` |"),
    Around("|{}|\n|:-|\n|a|b|[^a]{}|\n||"),
    Around("[{}]: <javascript:{}> 'x'"),
    Around("[a]: http://{}"),
    Around("![{}](javascript:{})"),
    Around("![{}](data:{} \"{}\")"),
    Around("[{}](irc:{}) [x](y:{})"),
    Around("<javascript:{}>"),
    Around("<mailto:{}> <A@b.c>"),
    Around("` {} `"),
    Around("`{}\n{}`"),
    Around("```{} x\n{}\n```\na"),
    Around("~~~ é&amp;\\*\n\t{}"),
    Around("[^a]: {}\n\n    [^a] {}\n"),
    Around("[^c-1]{}[^a][^c-1]\n\n[^c-1]: <p>{}</p>"),
    Around("[^b]: ```\n    {}"),
    Around("![a ![b {}](c) d][a]"),
    Around("[![{}](x)][b] `c`"),
    Around("![*{}* `c` <http://x> **b**  \nx][a]"),
    Around("1) {}\n\n1) b\n"),
    Around("\t{}\n  \t{}"),
    Around("> ```\n> {}\n{}"),
    Around("- {}\n-\n  ***"),
    Around("- a\n\n  [a]: {}\n- {}"),
    Around("{}\n***\n{}\n---"),
    Around("&#0;&#x{};&nbsp;&quot;&#{};"),
    Around("<?{}?>"),
    Around("a <!A {}> b"),
    Around("[d] ![d] [a]{}[b][]"),
    Container("> - 2. ", ">     "),
];
const MORE_LEAVES: [&str; 14] =
    ["&amp;", "&#35;", "\\|", "|", "http://a?b&c", "%20", "%", "a.b", "a_b*c*", "<b>", "\"", "x", "[b]", "[^b]"];

/// Of what notes are made: constructs and leaves by their number, those for pages last.
#[derive(Clone, Copy, PartialEq)]
pub enum Words {
    Checked,
    Pages,
}

impl Words {
    fn constructs(self) -> Vec<Construct> {
        match self {
            Words::Checked => CONSTRUCTS.to_vec(),
            Words::Pages => [&CONSTRUCTS[..], &MORE_CONSTRUCTS].concat(),
        }
    }

    fn leaf(self, random: &mut Random) -> &'static str {
        match self {
            Words::Checked => random.pick(&LEAVES),
            Words::Pages => random.pick(&[&LEAVES[..], &MORE_LEAVES].concat()),
        }
    }

    fn construct(self, random: &mut Random) -> Construct {
        match self {
            Words::Checked => random.pick(&CONSTRUCTS),
            Words::Pages => random.pick(&self.constructs()),
        }
    }

    fn definitions(self, random: &mut Random) -> &'static str {
        match self {
            Words::Checked => DEFINITIONS,
            Words::Pages if random.below(8) == 0 => DEFINITIONS,
            Words::Pages => PLAIN_DEFINITIONS,
        }
    }
}

impl Construct {
    fn about(self, inside: &str) -> String {
        match self {
            Around(template) => template.replace("{}", inside),
            Container(first, further) => first.to_string() + &inside.replace('\n', &format!("\n{further}")),
        }
    }
}

/// Each construct in each other, about `a`, alone and with definitions.
pub fn pairs(with: &mut dyn FnMut(String)) {
    pairs_of(Words::Checked, DEFINITIONS, with);
}

/// The same for pages, with each line ending.
pub fn page_pairs(with: &mut dyn FnMut(String)) {
    pairs_of(Words::Pages, PLAIN_DEFINITIONS, &mut |note| {
        with(note.replace('\n', "\r"));
        with(note.replace('\n', "\r\n"));
        with(note);
    });
}

fn pairs_of(words: Words, definitions: &str, with: &mut dyn FnMut(String)) {
    for outer in words.constructs() {
        for inner in words.constructs() {
            let note = outer.about(&inner.about("a"));
            with(note.clone() + definitions);
            with(note);
        }
    }
}

/// Notes about the limits of RULES R7 and R8: how deep, how many and how long.
pub fn large(with: &mut dyn FnMut(String)) {
    (55..=70).for_each(|depth| with(">".repeat(depth) + "a"));
    (14..=24).for_each(|depth| with("- ".repeat(depth) + "a"));
    (14..=24).for_each(|depth| with("![".repeat(depth) + "a" + &"](b)".repeat(depth)));
    (20..=140).for_each(|depth| with("*".repeat(depth) + "a" + &"*".repeat(depth)));
    (1..=30).chain(250..=260).for_each(|count| with("|a".repeat(count) + "\n" + &"|:-".repeat(count)));
    (125..=131).for_each(|count| with("[a]: b\n".repeat(count)));
    (62..=67).for_each(|count| with("[^a]: b\n".repeat(count)));
    (62..=67).for_each(|count| with("[^a]: b\n\n[a]: b\n\n[b]: b\n\n".repeat(count)));
    (795..=805).for_each(|lines| with("a\n".repeat(lines)));
    (1_595..=1_605).for_each(|lines| with("\n".repeat(lines)));
}

pub fn random_note(random: &mut Random) -> String {
    random_note_of(Words::Checked, random)
}

pub fn random_note_of(words: Words, random: &mut Random) -> String {
    let mut note = nested(words, random);
    for _ in 0..random.below(4) {
        note = changed(words, note, random);
    }
    if random.below(2) == 0 {
        note += words.definitions(random);
    }
    match random.below(6) {
        0 => note.replace('\n', "\r"),
        1 => note.replace('\n', "\r\n"),
        2 => note.replacen('\n', "\r", 1 + random.below(3)),
        3 => note.replace("  ", "\t"),
        _ => note,
    }
}

/// One to three blocks, each of up to five constructs, one in the other.
fn nested(words: Words, random: &mut Random) -> String {
    let block = |random: &mut Random| {
        let leaf = words.leaf(random).to_string();
        (0..random.below(6)).fold(leaf, |inside, _| {
            if inside.len() < 200 {
                words.construct(random).about(&inside)
            } else {
                inside
            }
        })
    };
    let mut note = block(random);
    for _ in 0..random.below(3) {
        note += random.pick(&["\n", "\n\n", "", " "]);
        note += &block(random);
    }
    note
}

/// Cut, joined with another, or with some characters out, in, doubled or exchanged.
fn changed(words: Words, note: String, random: &mut Random) -> String {
    let mut characters: Vec<char> = note.chars().collect();
    let at = random.below(characters.len() + 1);
    let to = (at + random.below(4)).min(characters.len());
    match random.below(7) {
        0 => characters.truncate(at),
        1 => drop(characters.drain(..at)),
        2 => drop(characters.drain(at..to)),
        3 => drop(characters.splice(at..at, random.pick(&PIECES).chars())),
        4 => drop(characters.splice(at..to, random.pick(&PIECES).chars())),
        5 => drop(characters.splice(at..at, characters[at..to].to_vec())),
        _ => drop(characters.splice(at..to, nested(words, random).chars())),
    }
    characters.into_iter().collect()
}

const PIECES: [&str; 44] = [
    "\n",
    "\n\n",
    "\r",
    "\r\n",
    " ",
    "    ",
    "\t",
    "#",
    "=",
    "-",
    "---\n",
    "*",
    "_",
    "`",
    "```",
    "~~~\n",
    "[",
    "]",
    "(",
    ")",
    "![",
    "[^",
    "]:",
    "|",
    "|-|",
    ":-:",
    "<",
    ">",
    "<!--",
    "-->",
    "&",
    ";",
    "&#",
    "&#x",
    "\"",
    "'",
    "\\",
    "1.",
    "- ",
    "> ",
    "+",
    "\0",
    "é",
    "\u{1F44D}",
];
