// Families of requests compared with the program `calls`, byte for byte, a line for each family: the calls on bundles.
use crate::drive::{start, told, word, Asked};
use std::collections::BTreeMap;
use std::time::Instant;

/// A process is given about this many bytes, requests and answers together.
const BATCH: usize = 64 << 20;

/// What a family hands its requests to.
pub type Ask<'a, A> = &'a mut dyn FnMut(A);

/// A name, and requests in an order that never changes.
pub type Family<A> = (&'static str, fn(Ask<A>));

/// How many answers of each number were wanted, and how many others came.
#[derive(Default)]
struct Count {
    numbers: BTreeMap<u32, usize>,
    differences: usize,
}

/// Compares the program with the judge on each family; gives the number of differences.
pub fn compare<A: Asked>(call: &str, families: &[Family<A>], program: &[&str]) -> usize {
    let mut differences = 0;
    for (name, requests) in families {
        let began = Instant::now();
        let (mut batch, mut filled, mut count) = (Vec::new(), 0, Count::default());
        requests(&mut |request: A| {
            let (bytes, room) = request.size();
            filled += bytes + room;
            batch.push(request);
            if filled > BATCH {
                count.compare(program, &std::mem::take(&mut batch));
                filled = 0;
            }
        });
        count.compare(program, &batch);
        let asked: usize = count.numbers.values().sum();
        let seconds = began.elapsed().as_secs();
        println!(
            "{call} {name:<8} {asked:>6} cases  {:>3} differences  {seconds:>3} s  by number: {:?}",
            count.differences, count.numbers
        );
        differences += count.differences;
    }
    differences
}

impl Count {
    /// Counts the answers to a batch; the first that differs is shown.
    fn compare<A: Asked>(&mut self, program: &[&str], batch: &[A]) {
        let running = start(program, batch);
        // while it runs
        let answers: Vec<Vec<u8>> = batch.iter().map(A::expected).collect();
        let came = running.finish();
        let (mut rest, mut wrong) = (&came[..], 0);
        for (request, wanted) in batch.iter().zip(&answers) {
            let (answer, behind) = rest.split_at(answer_length(rest));
            *self.numbers.entry(word(wanted, 0)).or_default() += 1;
            if answer != wanted {
                if wrong == 0 {
                    println!("    {}", request.shown());
                    println!("    wanted {}", told(wanted));
                    println!("    came   {}", told(answer));
                }
                wrong += 1;
            }
            rest = behind;
        }
        self.differences += wrong + usize::from(!rest.is_empty());
    }
}

/// How long the first answer is by its own word, at most all there is: a reader has two buffers, a writer one.
pub fn answer_length(came: &[u8]) -> usize {
    if came.len() < 24 {
        return came.len();
    }
    came.len().min(24 + word(came, 16) as usize + word(came, 20) as usize)
}
