// Lines of an output, printed and read back, as bench_lines does: a plain Rust program of the same lines and the same
// words, for bench/lines.sh to time beside it. A sector's digits are made from a table and read from one, two at a time.

use std::env;

const GOLD: u64 = 0x9e37_79b9_7f4a_7c15;
const DIGITS: &[u8; 16] = b"0123456789abcdef";

enum Line {
    Op { actor: u32, op: u32 },
    Fill(u64),
    Hex(Vec<u8>),
    Order { page: u32, tags: Vec<(u32, u32)> },
    // The name of a report, and its words.
    Report(&'static str, Vec<String>),
}

fn sector(number: u32) -> [u8; 512] {
    let mut bytes = [0; 512];
    let mut word = u64::from(number);
    for part in bytes.chunks_exact_mut(8) {
        word = word.wrapping_add(GOLD).rotate_left(29);
        part.copy_from_slice(&word.to_le_bytes());
    }
    bytes[0] = 1;
    bytes[8] = 2;
    bytes
}

fn numbers(ns: &[u64]) -> Vec<String> {
    ns.iter().map(|n| n.to_string()).collect()
}

fn class(number: u32) -> Line {
    let text = format!("32 544 pages 2 per 15 used {} zspages {} groups 0 1 2 3 4 5 6 7 8 9 10", number, number / 15);
    Line::Report("class", text.split(' ').map(String::from).collect())
}

fn report(number: u32) -> Line {
    let n = u64::from(number);
    match number / 16 % 5 {
        0 => Line::Report("mm_stat", numbers(&[4096 * n, 1120 * n, 4096 * n, 0, 4096 * n, n, 0, n, n])),
        1 => Line::Report("io_stat", numbers(&[0, n, n, n])),
        2 => Line::Report("bd_stat", numbers(&[n, n, n])),
        3 => Line::Report("state", vec![n.to_string(), "..h.".to_string(), n.to_string()]),
        _ => class(number),
    }
}

fn made(number: u32) -> Line {
    match number % 16 {
        0 => Line::Op { actor: 0, op: number },
        5 => Line::Fill(u64::from(number)),
        10 => Line::Order { page: number, tags: vec![(0, number), (1, number), (12, 345)] },
        15 => report(number),
        _ => Line::Hex(sector(number).to_vec()),
    }
}

fn print_hex(bytes: &[u8], out: &mut Vec<u8>) {
    for byte in bytes {
        out.push(DIGITS[(byte >> 4) as usize]);
        out.push(DIGITS[(byte & 15) as usize]);
    }
}

fn print(line: &Line, out: &mut Vec<u8>) {
    match line {
        Line::Op { actor, op } => out.extend_from_slice(format!("op {actor} {op} ok").as_bytes()),
        Line::Fill(word) => out.extend_from_slice(format!("fill {word:016x}").as_bytes()),
        Line::Hex(bytes) => {
            out.extend_from_slice(b"hex ");
            print_hex(bytes, out);
        }
        Line::Order { page, tags } => {
            out.extend_from_slice(format!("order {page}").as_bytes());
            for (actor, op) in tags {
                out.extend_from_slice(format!(" {actor}:{op}").as_bytes());
            }
        }
        Line::Report(name, words) => {
            out.extend_from_slice(name.as_bytes());
            for word in words {
                out.push(b' ');
                out.extend_from_slice(word.as_bytes());
            }
        }
    }
    out.push(b'\n');
}

fn digit(c: u8) -> Option<u8> {
    match c {
        b'0'..=b'9' => Some(c - b'0'),
        b'a'..=b'f' => Some(c - b'a' + 10),
        _ => None,
    }
}

fn read_hex(digits: &str) -> Option<Vec<u8>> {
    digits.as_bytes().chunks(2).map(|two| Some(digit(two[0])? << 4 | digit(*two.get(1)?)?)).collect()
}

fn read_tag(word: &str) -> Option<(u32, u32)> {
    let (actor, op) = word.split_once(':')?;
    Some((actor.parse().ok()?, op.parse().ok()?))
}

fn read(line: &str) -> Option<Line> {
    let (name, rest) = line.split_once(' ')?;
    Some(match name {
        "op" => {
            let words: Vec<&str> = rest.split(' ').collect();
            Line::Op { actor: words.first()?.parse().ok()?, op: words.get(1)?.parse().ok()? }
        }
        "fill" => Line::Fill(u64::from_str_radix(rest, 16).ok()?),
        "hex" => Line::Hex(read_hex(rest).filter(|bytes| bytes.len() == 512 && bytes[8..] != bytes[..504])?),
        "order" => {
            let mut words = rest.split(' ');
            let page = words.next()?.parse().ok()?;
            Line::Order { page, tags: words.map(read_tag).collect::<Option<_>>()? }
        }
        "mm_stat" => Line::Report("mm_stat", rest.split(' ').map(String::from).collect()),
        "io_stat" => Line::Report("io_stat", rest.split(' ').map(String::from).collect()),
        "bd_stat" => Line::Report("bd_stat", rest.split(' ').map(String::from).collect()),
        "state" => Line::Report("state", rest.split(' ').map(String::from).collect()),
        "class" => Line::Report("class", rest.split(' ').map(String::from).collect()),
        _ => return None,
    })
}

fn weight(lines: &[Line]) -> u64 {
    lines.iter().fold(0u64, |sum, line| {
        sum.wrapping_add(match line {
            Line::Fill(word) => *word,
            Line::Hex(bytes) => u64::from(*bytes.last().unwrap()),
            _ => 1,
        })
    })
}

fn main() {
    let words: Vec<String> = env::args().collect();
    let count = words[2].parse().unwrap_or(0);
    let lines: Vec<Line> = (0..count).map(made).collect();
    if words[1] == "make" {
        println!("lines {} sum {}", lines.len(), weight(&lines));
        return;
    }
    let mut text = Vec::new();
    for line in &lines {
        print(line, &mut text);
    }
    let sum: u64 = text.iter().step_by(509).map(|byte| u64::from(*byte)).sum();
    println!("bytes {} sum {sum}", text.len());
    drop(lines);
    if words[1] == "read" {
        let text = String::from_utf8(text).unwrap();
        let lines: Vec<Line> = text.lines().map(|line| read(line).unwrap()).collect();
        println!("lines {} sum {}", lines.len(), weight(&lines));
    }
}
