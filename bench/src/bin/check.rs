//! What `check` does, by the independent implementation: standard input to standard output.
//!
//! With `--random SEED COUNT DIR` it writes random texts and what is to be printed for each into a folder instead.

use std::env;
use std::fs;
use std::io::{self, Read, Write};
use vaultginger_bench::generate;
use vaultginger_bench::random::Random;
use vaultginger_bench::report::report;

fn main() -> io::Result<()> {
    let arguments: Vec<String> = env::args().skip(1).collect();
    match arguments.as_slice() {
        [option, seed, count, folder] if option == "--random" => write_texts(
            seed.parse().expect("a seed"),
            count.parse().expect("a count"),
            folder,
        ),
        _ => check(),
    }
}

fn check() -> io::Result<()> {
    let mut text = Vec::new();
    io::stdin().read_to_end(&mut text)?;
    io::stdout().write_all(&report(&text))
}

fn write_texts(seed: u64, count: u64, folder: &str) -> io::Result<()> {
    fs::create_dir_all(folder)?;
    for i in 0..count {
        let text = generate::text(&mut Random::new(seed + i));
        fs::write(format!("{folder}/{i:06}.out"), report(&text))?;
        fs::write(format!("{folder}/{i:06}.txt"), text)?;
    }
    Ok(())
}
