// A plain Rust program of the steps that zramsim takes for a job of one actor that writes and reads
// whole pages: `disksize`, `actor`, `write`, `read`, `run` and `mm_stat` are all it knows. With the
// words `gen PAGES SEED` it takes the steps of the job that zramsim makes for them, turn by turn. It
// prints the same bytes, and has no proofs. bench/plain.sh compares both.
#[path = "plain/disk.rs"]
mod disk;
#[path = "plain/jobs.rs"]
mod jobs;
#[path = "plain/pools.rs"]
mod pools;
#[path = "plain/turns.rs"]
mod turns;

use disk::Disk;
use jobs::{generated, put_phase, Call, End};
use pools::PAGE;
use std::env;
use std::io::{self, Read, Write};
use turns::by_turns;

// A call of the one actor of a job that is read, as a whole.
fn carry_out(disk: &mut Disk, call: &Call, tag: (u32, u32)) -> End {
    match call {
        Call::Write { page, start, step, fill } => {
            let mut bytes = [0; PAGE];
            let mut word = *start;
            for to in bytes.chunks_exact_mut(8) {
                to.copy_from_slice(&word.to_le_bytes());
                word = if *fill { word } else { word.wrapping_add(*step) };
            }
            disk.write(*page, &bytes, tag);
            End::Written
        }
        Call::Read { page } => End::Read(disk.read(*page, tag)),
        Call::WritebackHuge => {
            let mut carried = Box::new([0; PAGE]);
            let pages = 0..disk.entries.len();
            End::WrittenBack(pages.filter(|page| disk.write_back(*page, &mut carried)).count())
        }
        Call::Compact => {
            let (moves, frames) = disk.compact();
            End::Compacted(moves, frames)
        }
    }
}

// Runs that job, makes the text of its phases for nobody, and prints its reports.
fn generate(pages: usize, seed: u64) {
    let mut disk = Disk::new(pages, 4096);
    for phase in generated(pages, seed) {
        let ends = by_turns(&mut disk, &phase);
        put_phase(&mut disk, &ends, &mut io::sink());
    }
    let mut out = Vec::new();
    disk.mm_stat(&mut out);
    let (account, device) = (disk.account.unwrap(), disk.device.unwrap());
    out.extend_from_slice(b"io_stat 0 0 0 0\n");
    writeln!(out, "bd_stat {} {} {}", account.back, device.reads, device.writes).unwrap();
    io::stdout().write_all(&out).unwrap();
}

fn main() {
    let words: Vec<String> = env::args().skip(1).collect();
    if let [_, pages, seed] = &words[..] {
        return generate(pages.parse().unwrap(), seed.parse().unwrap());
    }
    let mut text = String::new();
    io::stdin().read_to_string(&mut text).unwrap();
    let mut disk = Disk::new(0, 0);
    let mut calls = Vec::new();
    let mut stdout = io::stdout();
    for line in text.lines() {
        let words: Vec<&str> = line.split(' ').collect();
        let hex = |word: &str| u64::from_str_radix(word, 16).unwrap();
        match words[0] {
            "disksize" => {
                disk = Disk::new(words[1].trim_end_matches('K').parse::<usize>().unwrap() / 4, 0);
            }
            "write" => calls.push(Call::Write {
                page: words[1].parse::<usize>().unwrap() / 8,
                start: hex(words[4]),
                step: words.get(5).map_or(0, |word| hex(word)),
                fill: words[3] == "fill",
            }),
            "read" => calls.push(Call::Read { page: words[1].parse::<usize>().unwrap() / 8 }),
            "run" => {
                let tagged = calls.drain(..).enumerate();
                let ends =
                    tagged.map(|(number, call)| carry_out(&mut disk, &call, (0, number as u32)));
                let ends = [ends.collect()];
                put_phase(&mut disk, &ends, &mut stdout);
            }
            "mm_stat" => {
                let mut out = Vec::new();
                disk.mm_stat(&mut out);
                stdout.write_all(&out).unwrap();
            }
            _ => {}
        }
    }
}
