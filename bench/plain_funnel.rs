// A funnel as one would write it without proofs, by the method of `fn_table`, `fn_climb` and `fn_funnel`: callers add to an aggregator, the first of a batch is its delegate, which closes the batch, adds its sum to the main word and publishes a row of it, and the others look their replies up there. A pass fills a row again only once no other announces that it may need it, and goes to the main word by itself where it finds none.
// It has one aggregator, as the shape of up to four threads has, and additions alone. Its words are spaced, so that callers of different words don't share a cache line, which the table's are not.
// Usage: plain_funnel [ADDITIONS OF EACH THREAD]; prints the nanoseconds of a call by one, two and four threads at once, each with a pass of its own.
use std::hint;
use std::sync::atomic::{AtomicU64, Ordering::SeqCst};
use std::thread;
use std::time::Instant;

const ROWS: usize = 4;

/// A word on a cache line of its own.
#[derive(Default)]
#[repr(align(64))]
struct Spaced(AtomicU64);

/// The words of one batch: where it begins, the main word that it met, and the name of the row before it.
#[derive(Default)]
#[repr(align(64))]
struct Row {
    lo: AtomicU64,
    base: AtomicU64,
    prev: AtomicU64,
}

/// What others see of a pass: one more than the `done` that its call saw first, or 0 outside calls; and its rows.
#[derive(Default)]
struct Shown {
    announced: Spaced,
    rows: [Row; ROWS],
}

struct Funnel {
    main: Spaced,
    value: Spaced,
    // one more than the number of the row that was pointed to last, or 0
    last: Spaced,
    done: Spaced,
    passes: Vec<Shown>,
}

/// A caller: its number, and the ends of the batches in its rows.
struct Pass {
    number: usize,
    ends: [u64; ROWS],
}

struct Added {
    before: u64,
    past: bool,
}

/// Waits longer each time: it spins, and in the end lets others run.
#[derive(Default)]
struct Patience {
    waits: u32,
}

impl Patience {
    fn wait(&mut self) {
        if self.waits <= 6 {
            for _ in 0..1u32 << self.waits {
                hint::spin_loop();
            }
            self.waits += 1;
        } else {
            thread::yield_now();
        }
    }
}

impl Funnel {
    fn open(passes: usize) -> (Funnel, Vec<Pass>) {
        let word = Spaced::default;
        let shown = (0..passes).map(|_| Shown::default()).collect();
        let funnel = Funnel { main: word(), value: word(), last: word(), done: word(), passes: shown };
        (funnel, (0..passes).map(|number| Pass { number, ends: [0; ROWS] }).collect())
    }

    fn add(&self, pass: &mut Pass, amount: u64) -> Added {
        let Some(row) = self.find_row(pass) else {
            return Added { before: self.main.0.fetch_add(amount, SeqCst), past: true };
        };
        let announced = &self.passes[pass.number].announced.0;
        announced.store(self.done.0.load(SeqCst) + 1, SeqCst);
        let at = self.value.0.fetch_add(amount, SeqCst);
        let before = if self.await_turn(at) { self.lead(pass, row, at) } else { self.look_up(at) };
        announced.store(0, SeqCst);
        Added { before, past: false }
    }

    /// The first row of a pass that no other may need.
    fn find_row(&self, pass: &Pass) -> Option<usize> {
        pass.ends.iter().position(|end| *end == 0 || self.is_free(pass.number, *end))
    }

    /// Whether a row of a batch with this end is free: no other pass has announced a number below it.
    fn is_free(&self, number: usize, end: u64) -> bool {
        let needs = |shown: &Shown| (1..=end).contains(&shown.announced.0.load(SeqCst));
        self.passes.iter().enumerate().all(|(other, shown)| other == number || !needs(shown))
    }

    /// Waits until all batches before an arrival are published: whether it is the first of the next one.
    fn await_turn(&self, at: u64) -> bool {
        let mut patience = Patience::default();
        loop {
            let done = self.done.0.load(SeqCst);
            if at <= done {
                return at == done;
            }
            patience.wait();
        }
    }

    /// Closes a batch, adds it to the main word and publishes it by a row.
    fn lead(&self, pass: &mut Pass, row: usize, at: u64) -> u64 {
        let end = self.value.0.load(SeqCst);
        let base = self.main.0.fetch_add(end - at, SeqCst);
        let Row { lo, base: base_word, prev } = &self.passes[pass.number].rows[row];
        let before = self.last.0.load(SeqCst);
        lo.store(at, SeqCst);
        base_word.store(base, SeqCst);
        prev.store(before, SeqCst);
        self.last.0.store((pass.number * ROWS + row + 1) as u64, SeqCst);
        self.done.0.store(end, SeqCst);
        pass.ends[row] = end;
        base
    }

    /// Goes back along the rows to the batch of an arrival, and gives what the arrival's call met.
    fn look_up(&self, at: u64) -> u64 {
        let mut name = self.last.0.load(SeqCst);
        loop {
            let place = (name - 1) as usize;
            let row = &self.passes[place / ROWS].rows[place % ROWS];
            let lo = row.lo.load(SeqCst);
            if lo <= at {
                return row.base.load(SeqCst) + (at - lo);
            }
            name = row.prev.load(SeqCst);
        }
    }
}

/// The sum of the replies of one pass, and how many of its calls went past the funnel.
fn add_ones(funnel: &Funnel, mut pass: Pass, times: u64) -> (u64, u64) {
    let (mut replies, mut past) = (0, 0);
    for _ in 0..times {
        let added = funnel.add(&mut pass, 1);
        replies += added.before;
        past += u64::from(added.past);
    }
    (replies, past)
}

/// So many additions of 1 by each of some threads: how many went past the funnel.
fn add_at_once(threads: usize, times: u64) -> u64 {
    let (funnel, passes) = Funnel::open(threads);
    let shared = &funnel;
    let ended: Vec<(u64, u64)> = thread::scope(|scope| {
        let begun: Vec<_> = passes.into_iter().map(|pass| scope.spawn(move || add_ones(shared, pass, times))).collect();
        begun.into_iter().map(|thread| thread.join().expect("a thread's end")).collect()
    });
    let all = threads as u64 * times;
    assert_eq!(funnel.main.0.load(SeqCst), all);
    let replies: u64 = ended.iter().map(|(replies, _)| replies).sum();
    assert_eq!(replies, all * all.saturating_sub(1) / 2, "each number below the sum is one reply");
    ended.iter().map(|(_, past)| past).sum()
}

fn main() {
    let times: u64 = std::env::args().nth(1).map_or(100_000, |word| word.parse().expect("a number"));
    for threads in [1, 2, 4] {
        let start = Instant::now();
        let past = add_at_once(threads, times);
        let nanos = start.elapsed().as_nanos() as f64;
        let all = (threads as u64 * times).max(1);
        println!("funnel {threads}: {:.1} ns a call, {} in 100 past the funnel", nanos / all as f64, past * 100 / all);
    }
}
