// Runs the program `calls` on batches of requests and compares all that it writes with what the judge expects.
use std::io::{Read, Write};
use std::process::{Child, Command, Stdio};
use std::thread::{self, JoinHandle};

/// A process is given about this many bytes, requests and answers together: starting one costs as much as some
/// thousand requests.
const BATCH: usize = 8 << 20;
/// So many differences are shown.
const SHOWN: usize = 10;
/// Longer requests are not made smaller, which would take too long.
const SHRUNK: usize = 40_000;

/// A request as `calls` takes it, with the answer that the judge expects.
pub trait Asked: Clone {
    fn write(&self, to: &mut Vec<u8>);
    fn expected(&self) -> Vec<u8>;
    /// How many bytes it has, and how many are asked for.
    fn size(&self) -> (usize, usize);
    fn shown(&self) -> String;
    /// Requests that are a step smaller, the smallest first: by these a small one behind a difference is sought.
    fn smaller(&self) -> Vec<Self> {
        Vec::new()
    }
}

/// The program under test, the batch that is being filled, and what was counted.
pub struct Drive<'a, A> {
    program: &'a [&'a str],
    batch: Vec<A>,
    filled: usize,
    pub asked: usize,
    pub differences: usize,
    /// how many answers of each number were wanted
    pub numbers: [usize; 13],
    /// the first request whose answer differs, then the smallest, each with its place in its batch
    kept: Vec<(A, usize)>,
}

impl<'a, A: Asked> Drive<'a, A> {
    pub fn new(program: &'a [&'a str]) -> Self {
        Drive { program, batch: Vec::new(), filled: 0, asked: 0, differences: 0, numbers: [0; 13], kept: Vec::new() }
    }

    pub fn ask(&mut self, request: A) {
        let (bytes, room) = request.size();
        self.filled += 32 + bytes + 24 + room;
        self.batch.push(request);
        if self.filled > BATCH {
            self.finish_batch();
        }
    }

    /// Runs what was asked and not run yet.
    pub fn finish_batch(&mut self) {
        let batch = std::mem::take(&mut self.batch);
        self.filled = 0;
        let running = start(self.program, &batch);
        // while it runs
        let answers: Vec<Vec<u8>> = batch.iter().map(A::expected).collect();
        let came = running.finish();
        let mut rest = &came[..];
        self.asked += batch.len();
        for (k, (request, wanted)) in batch.iter().zip(&answers).enumerate() {
            self.numbers[word(wanted, 0) as usize] += 1;
            let last = k + 1 == batch.len();
            if rest.starts_with(wanted) && (!last || rest.len() == wanted.len()) {
                rest = &rest[wanted.len()..];
            } else {
                rest = &rest[answer_length(rest)..];
                self.differences += 1;
                self.keep(request, k);
            }
        }
    }

    fn keep(&mut self, request: &A, place: usize) {
        self.kept.push((request.clone(), place));
        self.kept[1..].sort_by_key(|(request, _)| request.size());
        self.kept.truncate(SHOWN);
    }

    /// Shows what was kept. Each is asked again by itself: an answer of a wrong length makes those behind it differ too.
    pub fn show(&self) {
        if let Some(small) = self.smallest() {
            println!("made smaller: {}", small.shown());
            println!("    wanted {}", told(&small.expected()));
            println!("    came   {}", told(&run(self.program, std::slice::from_ref(&small))));
        }
        for (request, place) in &self.kept {
            let wanted = request.expected();
            let came = run(self.program, std::slice::from_ref(request));
            println!("{}", request.shown());
            println!("    wanted {}", told(&wanted));
            println!("    came   {}", told(&came));
            if came == wanted {
                println!("    that is asked alone: the difference came behind {place} other requests");
            }
        }
    }
}

impl<A: Asked> Drive<'_, A> {
    /// The smallest request that was kept and differs when asked alone, made smaller as long as a difference stays.
    fn smallest(&self) -> Option<A> {
        let differs = |request: &A| run(self.program, std::slice::from_ref(request)) != request.expected();
        let kept = self
            .kept
            .iter()
            .map(|(request, _)| request)
            .filter(|request| request.size().0 < SHRUNK && !request.smaller().is_empty());
        let mut least = kept.filter(|request| differs(request)).min_by_key(|request| request.size())?.clone();
        while let Some(smaller) = least.smaller().into_iter().find(|smaller| differs(smaller)) {
            least = smaller;
        }
        Some(least)
    }
}

/// The program at work on a batch.
pub struct Running {
    child: Child,
    writer: JoinHandle<()>,
    reader: JoinHandle<Vec<u8>>,
}

pub fn start<A: Asked>(program: &[&str], batch: &[A]) -> Running {
    let mut input = Vec::new();
    for request in batch {
        request.write(&mut input);
    }
    let mut child = Command::new(program[0])
        .args(&program[1..])
        .env_clear()
        .stdin(Stdio::piped())
        .stdout(Stdio::piped())
        .spawn()
        .expect("the program can be started");
    let (mut stdin, mut stdout) = (child.stdin.take().unwrap(), child.stdout.take().unwrap());
    let writer = thread::spawn(move || {
        let _ = stdin.write_all(&input);
    });
    let reader = thread::spawn(move || {
        let mut came = Vec::new();
        stdout.read_to_end(&mut came).expect("the program's output can be read");
        came
    });
    Running { child, writer, reader }
}

impl Running {
    /// All that the program writes. It may end early: the missing answers show in the comparison.
    pub fn finish(mut self) -> Vec<u8> {
        self.writer.join().unwrap();
        let came = self.reader.join().unwrap();
        self.child.wait().unwrap();
        came
    }
}

/// All that the program writes on these requests.
fn run<A: Asked>(program: &[&str], batch: &[A]) -> Vec<u8> {
    start(program, batch).finish()
}

/// The 32 bits at a place.
pub fn word(bytes: &[u8], at: usize) -> u32 {
    u32::from_le_bytes(bytes[at..at + 4].try_into().unwrap())
}

/// How long the first answer is by its own word, at most all there is.
fn answer_length(came: &[u8]) -> usize {
    if came.len() < 24 {
        return came.len();
    }
    came.len().min(24 + word(came, 16) as usize)
}

pub fn told(answer: &[u8]) -> String {
    if answer.len() < 24 {
        return format!("{} bytes, no answer", answer.len());
    }
    let fields: Vec<u32> = (0..24).step_by(4).map(|at| word(answer, at)).collect();
    format!("number, value, second, edition, room, work {fields:?} output {}", escaped(&answer[24..]))
}

pub fn escaped(bytes: &[u8]) -> String {
    let shown = &bytes[..bytes.len().min(120)];
    let more = if shown.len() < bytes.len() { ".." } else { "" };
    format!("\"{}\"{more} ({} bytes)", shown.escape_ascii(), bytes.len())
}
