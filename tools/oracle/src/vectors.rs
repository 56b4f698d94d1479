// The fixed list that the gate replays: requests chosen from the families, with the judges' answers.
use crate::bundle;
use crate::checks;
use crate::drive::Asked;
use crate::edges;
use crate::families::{Family, LEAVES};
use crate::judge::{answer, expected};
use crate::lists::{Ask, List};
use crate::random::Random;
use crate::record::{written, Record, LENGTH};
use crate::request::{Request, CALLS, ESCAPE, IDENTITY};
use std::collections::{BTreeMap, BTreeSet};
use std::fs;

const SEED: u64 = 7;
/// How many requests of each family are taken for each call, option and number of the answer. The limits are chosen
/// one by one.
const TAKEN: [(&str, usize); 9] = [
    ("table", 52),
    ("utf8", 50),
    ("short", 120),
    ("rooms", 50),
    ("schemes", 120),
    ("places", 25),
    ("runs", 40),
    ("random", 15),
    ("quotes", 60),
];
/// The texts of these families are longer only seldom; the files should stay small.
const LONGEST: usize = 400;
/// The same for the checker: so many for each number, kind and name of the event at the refusal's place.
const TAKEN_LISTS: [(&str, usize); 9] = [
    ("fields", 1),
    ("characters", 40),
    ("slices", 25),
    ("together", 2),
    ("every", 7),
    ("labels", 30),
    ("grammar", 200),
    ("damaged", 1),
    ("corpus", 220),
];
const LONGEST_LIST: usize = 600;

/// Writes the files `stdin` and `stdout`.
pub fn write(folder: &str) {
    let requests = chosen();
    let mut stdin = Vec::new();
    let mut stdout = Vec::new();
    for request in &requests {
        request.write(&mut stdin);
        stdout.extend(expected(request));
    }
    let bundles = bundle::fixed();
    for case in &bundles {
        case.write(&mut stdin);
        stdout.extend(case.expected());
    }
    let lists = chosen_lists();
    for list in &lists {
        list.write(&mut stdin);
        stdout.extend(list.expected());
    }
    let count = requests.len() + bundles.len() + lists.len();
    println!("{count} requests, {} bytes of stdin, {} bytes of stdout", stdin.len(), stdout.len());
    assert!(stdin.len() + stdout.len() < 3_500_000);
    fs::write(format!("{folder}/stdin"), stdin).expect("stdin can be written");
    fs::write(format!("{folder}/stdout"), stdout).expect("stdout can be written");
}

/// Adds requests and the judges' answers to them, together of at most so many bytes, to the files `stdin` and `stdout`.
pub fn append<A: Asked>(folder: &str, requests: &[A], most: usize) {
    let (stdin, stdout) = (format!("{folder}/stdin"), format!("{folder}/stdout"));
    let mut asked = fs::read(&stdin).expect("stdin can be read");
    let mut answered = fs::read(&stdout).expect("stdout can be read");
    let before = asked.len() + answered.len();
    for request in requests {
        request.write(&mut asked);
        answered.extend(request.expected());
    }
    let more = asked.len() + answered.len() - before;
    println!("{} requests, {more} bytes more, {} of stdin, {} of stdout", requests.len(), asked.len(), answered.len());
    assert!(more < most);
    fs::write(stdin, asked).expect("stdin can be written");
    fs::write(stdout, answered).expect("stdout can be written");
}

fn chosen() -> Vec<Request> {
    let mut random = Random(SEED);
    let mut requests = Vec::new();
    for (name, count) in TAKEN {
        let family = LEAVES.iter().find(|family| family.name == name).expect("the family is listed");
        requests.extend(some_of(family, count, &mut random));
    }
    requests.extend(limits());
    for (op, options) in CALLS {
        for number in [0, 1, 2, 9] {
            assert!(
                requests.iter().any(|r| (r.op, r.options) == (op, options) && expected(r)[0] == number),
                "no request of op {op} gives {number}"
            );
        }
    }
    requests
}

/// Up to `count` requests of a family for each call, option and number, picked by the seed and in the family's order.
fn some_of(family: &Family, count: usize, random: &mut Random) -> Vec<Request> {
    let mut groups: BTreeMap<(u8, u8, u8), Vec<Request>> = BTreeMap::new();
    (family.requests)(&mut |request| {
        if request.text.len() + request.room <= LONGEST {
            groups.entry((request.op, request.options, expected(&request)[0])).or_default().push(request);
        }
    });
    groups.values().flat_map(|group| some(group, count, random)).collect()
}

pub fn some<T: Clone>(group: &[T], count: usize, random: &mut Random) -> Vec<T> {
    let mut picked = BTreeSet::new();
    while picked.len() < count.min(group.len()) {
        picked.insert(random.below(group.len()));
    }
    picked.into_iter().map(|k| group[k].clone()).collect()
}

/// The longest text, for two calls, and one byte too many for each, with a byte that is not UTF-8 for every other.
fn limits() -> Vec<Request> {
    let mut requests = Vec::new();
    for op in [ESCAPE, IDENTITY] {
        let text = b"a b".iter().copied().cycle().take(64_000).collect::<Vec<u8>>();
        let room = answer(op, 1, &text).unwrap().len();
        requests.push(Request { op, options: (op == ESCAPE) as u8, text, room });
    }
    for (op, options) in CALLS {
        let mut text = vec![b'a'; 64_001];
        if op % 2 == 0 {
            text[64_000] = 0xFF;
        }
        requests.push(Request { op, options, text, room: 3 });
    }
    requests
}

/// The whole table, some of each other family, and each limit at, one below and one above.
fn chosen_lists() -> Vec<List> {
    let mut random = Random(SEED);
    let mut chosen = Vec::new();
    lists_of("table", &mut |list| chosen.push(list));
    for (name, count) in TAKEN_LISTS {
        let mut groups: BTreeMap<_, Vec<List>> = BTreeMap::new();
        lists_of(name, &mut |list| {
            if list.text.len() + list.events.len() <= LONGEST_LIST {
                groups.entry(cause(&list)).or_default().push(list);
            }
        });
        chosen.extend(groups.values().flat_map(|group| some(group, count, &mut random)));
    }
    chosen.extend(limit_lists());
    for number in 0..=7 {
        assert!(chosen.iter().any(|list| list.answer().0 == number), "no list gives {number}");
    }
    chosen
}

fn lists_of(name: &str, ask: Ask) {
    let (_, lists) = checks::FAMILIES.iter().find(|family| family.0 == name).expect("the family is listed");
    lists(ask);
}

/// The number, and the first two bytes of the event at its place: kind and name.
fn cause(list: &List) -> (u32, Vec<u8>) {
    let (number, place) = list.answer();
    let event = list.events.iter().skip(place * LENGTH).take(2).filter(|_| number > 2);
    (number, event.copied().collect())
}

/// Each limit of RULES R8 at, one below and one above: text, events, open at once, both kinds of definitions. Then events that
/// are no whole records, and 6 beside 5 and 7.
fn limit_lists() -> Vec<List> {
    let mut lists = Vec::new();
    for length in [63_999, 64_000, 64_001] {
        lists.push(List::new(vec![b'a'; length], &edges::path(&[12, 5], 0, length)));
    }
    let paragraphs = edges::repeated(&edges::path(&[12], 0, 1), 1_601);
    for count in [3_199, 3_200, 3_201] {
        lists.push(List::new("a", &paragraphs[..count]));
    }
    for length in [1, 19, 21, 39, 41] {
        lists.push(List { text: b"a".to_vec(), events: written(&paragraphs)[..length].to_vec() });
    }
    for depth in [63, 64, 65] {
        lists.push(List::new("a", &edges::path(&vec![20; depth], 0, 1)));
        lists.push(List::new("a", &edges::path(&vec![0; depth], 0, 1)));
    }
    let definition = edges::path(&[53, 54], 0, 1);
    let footnote = edges::path(&[63, 64, 65], 0, 1);
    for (definitions, footnotes) in [(127, 0), (128, 0), (129, 0), (0, 63), (0, 64), (0, 65), (128, 64), (129, 65)] {
        let all: Vec<Record> =
            [edges::repeated(&footnote, footnotes), edges::repeated(&definition, definitions)].concat();
        lists.push(List::new("a", &all));
    }
    let mut random = Random(SEED);
    for numbers in [[5, 6], [6, 5], [6, 7], [7, 6]] {
        lists.push(edges::breaking(&numbers, &mut random));
    }
    lists
}
