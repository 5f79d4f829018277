// The same job as `drill SEED ROWS WORKERS`, as one would write it without proofs: one thread makes the rows, and then their calls on a plain number.
use std::io::{self, Write};

struct Row {
    takes: bool,
    amount: u64,
}

fn row(seed: u64, i: u64) -> Row {
    Row { takes: i % 3 == 2, amount: (seed + 7 * i) % 97 + 1 }
}

fn main() -> io::Result<()> {
    let mut words = std::env::args().skip(1).map(|word| word.parse::<u64>().expect("a number"));
    let mut word = || words.next().expect("a seed, rows and workers");
    let (seed, count, workers) = (word(), word(), word());
    let rows: Vec<Row> = (0..count).map(|i| row(seed, i)).collect();
    let opening: u64 = rows.iter().filter(|row| row.takes).map(|row| row.amount).sum();
    let (mut value, mut added, mut taken) = (opening, 0u128, 0u128);
    for row in &rows {
        if row.takes {
            let moved = row.amount.min(value);
            value -= moved;
            taken += u128::from(moved);
        } else {
            value += row.amount;
            added += u128::from(row.amount);
        }
    }
    writeln!(io::stdout(), "rows {count} workers {workers} opening {opening} added {added} taken {taken} final {value}")
}
