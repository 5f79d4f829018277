// The same count as `tally WORKERS GRAIN`, as one would write it without proofs: each thread counts the newlines of one part of standard input.
use std::io::{self, Read, Write};
use std::thread;

fn newlines(part: &[u8]) -> usize {
    part.chunks(192).map(|block| block.iter().map(|byte| u8::from(*byte == b'\n')).sum::<u8>() as usize).sum()
}

fn main() -> io::Result<()> {
    let workers: usize = std::env::args().nth(1).expect("workers").parse().expect("a number");
    let mut text = Vec::new();
    io::stdin().read_to_end(&mut text)?;
    let size = text.len().div_ceil(workers).max(1);
    let total: usize = thread::scope(|scope| {
        let counts: Vec<_> = text.chunks(size).map(|part| scope.spawn(move || newlines(part))).collect();
        counts.into_iter().map(|count| count.join().expect("a count")).sum()
    });
    writeln!(io::stdout(), "newlines {total} bytes {}", text.len())
}
