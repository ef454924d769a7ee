// What a job asks of a disk, and what it prints of the ends of its calls.
use super::disk::Disk;
use super::pools::PAGE;
use std::io::Write;

pub enum Call {
    Write { page: usize, start: u64, step: u64, fill: bool },
    Read { page: usize },
    WritebackHuge,
    Compact,
}

pub enum End {
    Written,
    Read(Box<[u8; PAGE]>),
    WrittenBack(usize),
    Compacted(usize, usize),
}

fn put_end(actor: usize, number: usize, end: &End, out: &mut Vec<u8>) {
    write!(out, "op {actor} {number} ").unwrap();
    match end {
        End::WrittenBack(pages) => writeln!(out, "wrote {pages} lost 0").unwrap(),
        End::Compacted(moves, frames) => writeln!(out, "compacted {moves} {frames}").unwrap(),
        End::Written => out.extend_from_slice(b"ok\n"),
        End::Read(bytes) => {
            out.extend_from_slice(b"ok\n");
            bytes.chunks_exact(512).for_each(|sector| put_sector(sector, out));
        }
    }
}

// The lines of a phase, in pieces of some 64 KiB.
pub fn put_phase(disk: &mut Disk, ends: &[Vec<End>], sink: &mut impl Write) {
    let mut out = Vec::new();
    for (actor, ends) in ends.iter().enumerate() {
        for (number, end) in ends.iter().enumerate() {
            put_end(actor, number, end, &mut out);
            if out.len() > 65536 {
                sink.write_all(&out).unwrap();
                out.clear();
            }
        }
    }
    for page in 0..disk.entries.len() {
        let entry = disk.entries[page].as_mut().unwrap();
        if !entry.order.is_empty() {
            write!(out, "order {page}").unwrap();
            entry.order.iter().for_each(|(a, k)| write!(out, " {a}:{k}").unwrap());
            out.push(b'\n');
            entry.order = Vec::new();
        }
    }
    sink.write_all(&out).unwrap();
}

const fn pairs() -> [[u8; 2]; 256] {
    let digits = b"0123456789abcdef";
    let mut pairs = [[0; 2]; 256];
    let mut byte = 0;
    while byte < 256 {
        pairs[byte] = [digits[byte / 16], digits[byte % 16]];
        byte += 1;
    }
    pairs
}

const PAIRS: [[u8; 2]; 256] = pairs();

fn put_sector(sector: &[u8], out: &mut Vec<u8>) {
    if sector[8..] == sector[..504] {
        writeln!(out, "fill {:016x}", u64::from_le_bytes(sector[..8].try_into().unwrap())).unwrap();
        return;
    }
    let mut text = [0; 1024];
    for (to, byte) in text.chunks_exact_mut(2).zip(sector) {
        to.copy_from_slice(&PAIRS[*byte as usize]);
    }
    out.extend_from_slice(b"hex ");
    out.extend_from_slice(&text);
    out.push(b'\n');
}

// The job of so many pages and this seed, up to its reports.
pub fn generated(pages: usize, seed: u64) -> [Vec<Vec<Call>>; 3] {
    let mut phases: [Vec<Vec<Call>>; 3] = Default::default();
    phases[0].resize_with(4, Vec::new);
    phases[1].push(vec![Call::WritebackHuge, Call::Compact]);
    phases[2].resize_with(4, Vec::new);
    for page in 0..pages {
        let (start, step, fill) = match (page as u64 + seed % 4) % 4 {
            0 => (seed, 0, true),
            1 => (1_000_000, 1, false),
            2 => (0, 0x9e37_79b9_7f4a_7c15, false),
            _ => (1_000_000, 16_777_216, false),
        };
        phases[0][page / 4 % 4].push(Call::Write { page, start, step, fill });
        phases[2][page / 4 % 4].push(Call::Read { page });
    }
    phases
}
