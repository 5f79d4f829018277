// The same job as `relay WORKERS CAPACITY`, as one would write it without proofs: a bounded queue under one lock.
use std::collections::VecDeque;
use std::io::{self, Read, Write};
use std::sync::{Condvar, Mutex};
use std::thread;

struct Queue {
    waiting: VecDeque<(u64, usize)>,
    tickets: u64,
}

fn main() -> io::Result<()> {
    let mut words = std::env::args().skip(1).map(|word| word.parse::<usize>().expect("a number"));
    let (workers, capacity) = (words.next().expect("workers"), words.next().expect("capacity"));
    let mut text = Vec::new();
    io::stdin().read_to_end(&mut text)?;
    let lines: Vec<&[u8]> = text.split_inclusive(|byte| *byte == b'\n').map(|line| line.strip_suffix(b"\n").unwrap_or(line)).collect();
    let queue = Mutex::new(Queue { waiting: VecDeque::new(), tickets: 0 });
    let changed = Condvar::new();
    let order = Mutex::new(vec![0usize; lines.len()]);
    thread::scope(|scope| {
        for worker in 0..workers {
            let (queue, changed, order, lines) = (&queue, &changed, &order, &lines);
            scope.spawn(move || {
                let mine: Vec<usize> = (worker..lines.len()).step_by(workers).collect();
                let (mut put, mut taken) = (0, 0);
                while put < mine.len() || taken < mine.len() {
                    let mut held = queue.lock().unwrap();
                    if put < mine.len() && held.waiting.len() < capacity {
                        let ticket = held.tickets;
                        held.tickets += 1;
                        held.waiting.push_back((ticket, mine[put]));
                        put += 1;
                    } else if taken < mine.len() && !held.waiting.is_empty() {
                        let (ticket, line) = held.waiting.pop_front().unwrap();
                        order.lock().unwrap()[ticket as usize] = line;
                        taken += 1;
                    } else {
                        drop(changed.wait(held).unwrap());
                        continue;
                    }
                    changed.notify_all();
                }
            });
        }
    });
    let mut report = Vec::new();
    for (ticket, line) in order.into_inner().unwrap().into_iter().enumerate() {
        write!(report, "{ticket} ")?;
        report.extend_from_slice(lines[line]);
        report.push(b'\n');
    }
    io::stdout().write_all(&report)
}
