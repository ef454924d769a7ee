// Packing, and pools of size classes.
use std::collections::BTreeSet;

pub const PAGE: usize = 4096;
pub const MOST_PACKED: usize = 3256;

// ---- packing

pub struct Packing {
    pub bytes: [u8; 4128],
    pub len: usize,
}

impl Packing {
    pub fn put(&mut self, bytes: &[u8]) {
        self.bytes[self.len..self.len + bytes.len()].copy_from_slice(bytes);
        self.len += bytes.len();
    }
}

macro_rules! split {
    ($name:ident, $value:ty, $signed:ty, $lanes:expr, $width:expr, $delta:expr) => {
        fn $name(line: &[u8; 64], out: &mut Packing) -> bool {
            let mut values = [0 as $value; $lanes];
            for (value, bytes) in values.iter_mut().zip(line.chunks_exact($width)) {
                *value = <$value>::from_le_bytes(bytes.try_into().unwrap());
            }
            let bound = (1 as $value) << (8 * $delta - 1);
            let large = |v: $value| v.wrapping_add(bound) >= 2 * bound;
            let base = values.iter().copied().find(|v| large(*v)).unwrap_or(0);
            let mut mask = 0u64;
            for (j, value) in values.iter_mut().enumerate() {
                if large(*value) {
                    mask |= 1 << j;
                    *value = value.wrapping_sub(base);
                }
                if large(*value) {
                    return false;
                }
            }
            out.put(&mask.to_le_bytes()[..$lanes / 8]);
            out.put(&base.to_le_bytes());
            let mut deltas = [0u8; $lanes * $delta];
            for (to, value) in deltas.chunks_exact_mut($delta).zip(values) {
                to.copy_from_slice(&value.to_le_bytes()[..$delta]);
            }
            out.put(&deltas);
            true
        }
    };
}

macro_rules! join {
    ($name:ident, $value:ty, $small:ty, $signed:ty, $lanes:expr, $width:expr, $delta:expr) => {
        fn $name(payload: &[u8], line: &mut [u8]) -> usize {
            let marks = $lanes / 8;
            let mut mask = [0u8; 8];
            mask[..marks].copy_from_slice(&payload[..marks]);
            let mask = u64::from_le_bytes(mask);
            let base = <$value>::from_le_bytes(payload[marks..marks + $width].try_into().unwrap());
            let deltas = &payload[marks + $width..marks + $width + $lanes * $delta];
            let pairs = line.chunks_exact_mut($width).zip(deltas.chunks_exact($delta));
            for (j, (to, bytes)) in pairs.enumerate() {
                let delta = <$small>::from_le_bytes(bytes.try_into().unwrap()) as $signed as $value;
                let value = if mask >> j & 1 == 1 { delta.wrapping_add(base) } else { delta };
                to.copy_from_slice(&value.to_le_bytes());
            }
            marks + $width + $lanes * $delta
        }
    };
}

split!(split_b8d1, u64, i64, 8, 8, 1);
split!(split_b8d2, u64, i64, 8, 8, 2);
split!(split_b8d4, u64, i64, 8, 8, 4);
split!(split_b4d1, u32, i32, 16, 4, 1);
split!(split_b4d2, u32, i32, 16, 4, 2);
split!(split_b2d1, u16, i16, 32, 2, 1);
join!(join_b8d1, u64, u8, i8, 8, 8, 1);
join!(join_b8d2, u64, u16, i16, 8, 8, 2);
join!(join_b8d4, u64, u32, i32, 8, 8, 4);
join!(join_b4d1, u32, u8, i8, 16, 4, 1);
join!(join_b4d2, u32, u16, i16, 16, 4, 2);
join!(join_b2d1, u16, u8, i8, 32, 2, 1);

// The codes by the size of their payloads, the lower number first on a tie.
pub fn pack_line(line: &[u8; 64], out: &mut Packing) -> u8 {
    if *line == [0; 64] {
        return 0;
    }
    if line[8..] == line[..56] {
        out.put(&line[..8]);
        return 1;
    }
    if split_b8d1(line, out) {
        return 2;
    }
    if split_b4d1(line, out) {
        return 5;
    }
    if split_b8d2(line, out) {
        return 3;
    }
    if split_b4d2(line, out) {
        return 6;
    }
    if split_b2d1(line, out) {
        return 7;
    }
    if split_b8d4(line, out) {
        return 4;
    }
    out.put(line);
    8
}

pub fn pack(page: &[u8; PAGE], out: &mut Packing) {
    out.len = 32;
    for (j, pair) in page.chunks_exact(128).enumerate() {
        let low = pack_line(pair[..64].try_into().unwrap(), out);
        let high = pack_line(pair[64..].try_into().unwrap(), out);
        out.bytes[j] = low + 16 * high;
    }
}

pub fn unpack(bytes: &[u8], page: &mut [u8; PAGE]) {
    let mut at = 32;
    for (j, line) in page.chunks_exact_mut(64).enumerate() {
        let payload = &bytes[at..];
        at += match bytes[j / 2] >> (4 * (j % 2)) & 15 {
            0 => {
                line.fill(0);
                0
            }
            1 => {
                line.chunks_exact_mut(8).for_each(|to| to.copy_from_slice(&payload[..8]));
                8
            }
            2 => join_b8d1(payload, line),
            3 => join_b8d2(payload, line),
            4 => join_b8d4(payload, line),
            5 => join_b4d1(payload, line),
            6 => join_b4d2(payload, line),
            7 => join_b2d1(payload, line),
            _ => {
                line.copy_from_slice(&payload[..64]);
                64
            }
        };
    }
}

// ---- pools

pub fn chain_of(class: usize) -> usize {
    let size = 32 + 16 * class;
    (1..=4).min_by_key(|chain| chain * PAGE % size).unwrap()
}

pub fn cells_of(class: usize) -> usize {
    chain_of(class) * PAGE / (32 + 16 * class)
}

// The class that stands for each one.
pub fn stands_as() -> Vec<usize> {
    let mut table: Vec<usize> = (0..255).collect();
    for class in (0..254).rev() {
        if chain_of(class) == chain_of(class + 1) && cells_of(class) == cells_of(class + 1) {
            table[class] = table[class + 1];
        }
    }
    table
}

pub struct Zspage {
    pub frames: Vec<Box<[u8; PAGE]>>,
    // of each used cell its object's handle
    pub used: Vec<Option<u32>>,
    pub count: usize,
}

pub struct Pool {
    pub size: usize,
    pub chain: usize,
    pub cells: usize,
    pub zspages: Vec<Option<Zspage>>,
    pub free_ids: BTreeSet<usize>,
    // of the zspages with a free cell: their free cells, and their ids
    pub partial: BTreeSet<(usize, usize)>,
    pub places: Vec<(u32, u32)>,
}

impl Pool {
    pub fn new(class: usize) -> Pool {
        Pool {
            size: 32 + 16 * class,
            chain: chain_of(class),
            cells: cells_of(class),
            zspages: Vec::new(),
            free_ids: BTreeSet::new(),
            partial: BTreeSet::new(),
            places: Vec::new(),
        }
    }

    pub fn need(&self) -> usize {
        if self.partial.is_empty() { self.chain } else { 0 }
    }

    // The first free cell of a zspage, which is taken.
    pub fn take_cell(&mut self, free: usize, id: usize, handle: u32) -> usize {
        let zspage = self.zspages[id].as_mut().unwrap();
        let cell = zspage.used.iter().position(|used| used.is_none()).unwrap();
        zspage.used[cell] = Some(handle);
        zspage.count += 1;
        self.partial.remove(&(free, id));
        if free > 1 {
            self.partial.insert((free - 1, id));
        }
        cell
    }

    pub fn add(&mut self, bytes: &[u8]) -> u32 {
        if self.partial.is_empty() {
            let zspage = Some(Zspage {
                frames: (0..self.chain).map(|_| Box::new([0; PAGE])).collect(),
                used: vec![None; self.cells],
                count: 0,
            });
            let id = self.free_ids.pop_first().unwrap_or(self.zspages.len());
            if id == self.zspages.len() {
                self.zspages.push(zspage);
            } else {
                self.zspages[id] = zspage;
            }
            self.partial.insert((self.cells, id));
        }
        let &(free, id) = self.partial.first().unwrap();
        let handle = self.places.len() as u32;
        let cell = self.take_cell(free, id, handle);
        let header = (handle as u64).to_le_bytes();
        let skip = if bytes.len() == PAGE { 0 } else { 8 };
        let frames = &mut self.zspages[id].as_mut().unwrap().frames;
        put_at(frames, cell * self.size, &header[..skip]);
        put_at(frames, cell * self.size + skip, bytes);
        self.places.push((id as u32, cell as u32));
        handle
    }

    // Frees a cell, and its zspage with the last one: how many frames that gave.
    pub fn free_cell(&mut self, id: usize, cell: usize) -> usize {
        let zspage = self.zspages[id].as_mut().unwrap();
        let free = self.cells - zspage.count;
        zspage.used[cell] = None;
        zspage.count -= 1;
        let empty = zspage.count == 0;
        self.partial.remove(&(free, id));
        if empty {
            self.zspages[id] = None;
            self.free_ids.insert(id);
            return self.chain;
        }
        self.partial.insert((free + 1, id));
        0
    }

    pub fn free(&mut self, handle: u32) -> usize {
        let (id, cell) = self.places[handle as usize];
        self.free_cell(id as usize, cell as usize)
    }

    // Moves an object of the emptiest zspage to the fullest that has room: how many frames that gave.
    pub fn move_one(&mut self) -> Option<usize> {
        let (&(free, to), &(_, from)) = (self.partial.first()?, self.partial.last()?);
        if to == from {
            return None;
        }
        let zspage = self.zspages[from].as_ref().unwrap();
        let cell = zspage.used.iter().position(|used| used.is_some()).unwrap();
        let handle = zspage.used[cell].unwrap();
        let mut object = vec![0; self.size];
        get_at(&zspage.frames, cell * self.size, &mut object);
        let place = self.take_cell(free, to, handle);
        put_at(&mut self.zspages[to].as_mut().unwrap().frames, place * self.size, &object);
        self.places[handle as usize] = (to as u32, place as u32);
        Some(self.free_cell(from, cell))
    }

    // The object's bytes: those of one frame, or joined where they lie in two.
    pub fn get<'a>(&'a self, handle: u32, len: usize, joined: &'a mut [u8; PAGE]) -> &'a [u8] {
        let (id, cell) = self.places[handle as usize];
        let skip = if len == PAGE { 0 } else { 8 };
        let at = cell as usize * self.size + skip;
        let frames = &self.zspages[id as usize].as_ref().unwrap().frames;
        let (first, inside) = (at / PAGE, at % PAGE);
        if inside + len <= PAGE {
            return &frames[first][inside..inside + len];
        }
        let front = PAGE - inside;
        joined[..front].copy_from_slice(&frames[first][inside..]);
        joined[front..len].copy_from_slice(&frames[first + 1][..len - front]);
        &joined[..len]
    }
}

pub fn put_at(frames: &mut [Box<[u8; PAGE]>], at: usize, bytes: &[u8]) {
    let (first, inside) = (at / PAGE, at % PAGE);
    let front = bytes.len().min(PAGE - inside);
    frames[first][inside..inside + front].copy_from_slice(&bytes[..front]);
    if front < bytes.len() {
        frames[first + 1][..bytes.len() - front].copy_from_slice(&bytes[front..]);
    }
}

pub fn get_at(frames: &[Box<[u8; PAGE]>], at: usize, bytes: &mut [u8]) {
    let (first, inside) = (at / PAGE, at % PAGE);
    let front = bytes.len().min(PAGE - inside);
    bytes[..front].copy_from_slice(&frames[first][inside..inside + front]);
    if front < bytes.len() {
        let rest = bytes.len() - front;
        bytes[front..].copy_from_slice(&frames[first + 1][..rest]);
    }
}
