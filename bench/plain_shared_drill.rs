// The same job as `drill SEED ROWS WORKERS`, as one would write it without proofs and with its workers: each makes the calls of its own rows on one word that all share, and keeps what each met and moved.
use std::io::{self, Write};
use std::sync::atomic::{AtomicU64, Ordering::SeqCst};
use std::thread;

struct Row {
    takes: bool,
    amount: u64,
}

struct Moved {
    before: u64,
    moved: u64,
}

fn row(seed: u64, i: u64) -> Row {
    Row { takes: i % 3 == 2, amount: (seed + 7 * i) % 97 + 1 }
}

fn call(word: &AtomicU64, row: &Row) -> Moved {
    if row.takes {
        let before = word.fetch_update(SeqCst, SeqCst, |value| Some(value.saturating_sub(row.amount))).expect("a value each time");
        Moved { before, moved: row.amount.min(before) }
    } else {
        Moved { before: word.fetch_add(row.amount, SeqCst), moved: row.amount }
    }
}

fn main() -> io::Result<()> {
    let mut words = std::env::args().skip(1).map(|word| word.parse::<u64>().expect("a number"));
    let mut word = || words.next().expect("a seed, rows and workers");
    let (seed, count, workers) = (word(), word(), word() as usize);
    let rows: Vec<Row> = (0..count).map(|i| row(seed, i)).collect();
    let opening: u64 = rows.iter().filter(|row| row.takes).map(|row| row.amount).sum();
    let value = AtomicU64::new(opening);
    let answers: Vec<Vec<Moved>> = thread::scope(|scope| {
        let worker = |first: usize| {
            let (rows, value) = (&rows, &value);
            scope.spawn(move || rows.iter().skip(first).step_by(workers).map(|row| call(value, row)).collect())
        };
        let threads: Vec<_> = (0..workers).map(worker).collect();
        threads.into_iter().map(|thread| thread.join().expect("a worker ends")).collect()
    });
    let (mut added, mut taken, mut met) = (0u128, 0u128, 0u64);
    for (i, row) in rows.iter().enumerate() {
        let Moved { before, moved } = answers[i % workers][i / workers];
        met = met.max(before);
        if row.takes {
            taken += u128::from(moved);
        } else {
            added += u128::from(moved);
        }
    }
    assert!(met < 1 << 63);
    writeln!(io::stdout(), "rows {count} workers {workers} opening {opening} added {added} taken {taken} final {}", value.into_inner())
}
