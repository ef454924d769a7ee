// A backing device and a disk over it. Each call is made as a whole.
use super::pools::*;
use std::collections::BTreeSet;
use std::io::Write;

// ---- the device

#[derive(Default)]
pub struct Device {
    pub blocks: Vec<Option<Box<[u8; PAGE]>>>,
    pub reads: usize,
    pub writes: usize,
}

// ---- the disk

#[derive(Clone, Copy)]
pub enum Kept {
    Empty,
    Same(u64),
    Object { class: u8, handle: u32, len: u16 },
    Back { block: u32 },
}

pub struct Entry {
    pub kept: Kept,
    pub order: Vec<(u32, u32)>,
    pub touched: u64,
    pub under: Option<u32>,
}

#[derive(Default)]
pub struct Account {
    pub pages: usize,
    pub most: usize,
    pub limit: usize,
    pub same: usize,
    pub packed: usize,
    pub huge: usize,
    pub huge_since: usize,
    pub bytes: usize,
    pub back: usize,
    pub compacted: usize,
}

impl Account {
    // A page is kept so from now on.
    pub fn count(&mut self, kept: Kept) {
        match kept {
            Kept::Same(_) => self.same += 1,
            Kept::Object { class: 254, .. } => {
                self.huge += 1;
                self.huge_since += 1;
                self.bytes += PAGE;
            }
            Kept::Object { len, .. } => {
                self.packed += 1;
                self.bytes += len as usize;
            }
            Kept::Empty | Kept::Back { .. } => {}
        }
    }
}

// Each value is taken out of its place while it is worked on, and put back.
pub struct Disk {
    pub entries: Vec<Option<Box<Entry>>>,
    pub pools: Vec<Option<Box<Pool>>>,
    pub account: Option<Box<Account>>,
    pub device: Option<Box<Device>>,
    pub free_blocks: Option<Box<BTreeSet<u32>>>,
    pub stands: Vec<usize>,
    pub packing: Box<Packing>,
}

impl Disk {
    pub fn new(pages: usize, blocks: u32) -> Disk {
        let stands = stands_as();
        let entry = || {
            Some(Box::new(Entry { kept: Kept::Empty, order: Vec::new(), touched: 0, under: None }))
        };
        Disk {
            entries: (0..pages).map(|_| entry()).collect(),
            pools: (0..255).map(|class| Some(Box::new(Pool::new(class)))).collect(),
            account: Some(Box::default()),
            device: Some(Box::new(Device {
                blocks: (0..blocks).map(|_| None).collect(),
                ..Device::default()
            })),
            free_blocks: Some(Box::new((0..blocks).collect())),
            stands,
            packing: Box::new(Packing { bytes: [0; 4128], len: 0 }),
        }
    }

    pub fn write(&mut self, page: usize, bytes: &[u8; PAGE], tag: (u32, u32)) {
        let mut entry = self.entries[page].take().unwrap();
        let word = u64::from_le_bytes(bytes[..8].try_into().unwrap());
        if bytes[8..] == bytes[..PAGE - 8] {
            entry.kept = Kept::Same(word);
        } else {
            pack(bytes, &mut self.packing);
            let huge = self.packing.len > MOST_PACKED;
            let object = if huge { &bytes[..] } else { &self.packing.bytes[..self.packing.len] };
            let class = if huge { 254 } else { self.stands[(object.len() + 8 - 32).div_ceil(16)] };
            let mut pool = self.pools[class].take().unwrap();
            let mut account = self.account.take().unwrap();
            let need = pool.need();
            assert!(account.limit == 0 || account.pages + need <= account.limit);
            account.pages += need;
            account.most = account.most.max(account.pages);
            self.account = Some(account);
            let handle = pool.add(object);
            self.pools[class] = Some(pool);
            entry.kept = Kept::Object { class: class as u8, handle, len: object.len() as u16 };
        }
        let mut account = self.account.take().unwrap();
        account.count(entry.kept);
        self.account = Some(account);
        entry.order.push(tag);
        entry.touched = 0;
        self.entries[page] = Some(entry);
    }

    pub fn read(&mut self, page: usize, tag: (u32, u32)) -> Box<[u8; PAGE]> {
        let mut entry = self.entries[page].take().unwrap();
        let mut bytes = Box::new([0; PAGE]);
        match entry.kept {
            Kept::Empty => {}
            Kept::Same(word) => {
                bytes.chunks_exact_mut(8).for_each(|to| to.copy_from_slice(&word.to_le_bytes()));
            }
            Kept::Object { class, handle, len } => {
                let pool = self.pools[class as usize].take().unwrap();
                let mut joined = [0; PAGE];
                let object = pool.get(handle, len as usize, &mut joined);
                if len as usize == PAGE {
                    bytes.copy_from_slice(object);
                } else {
                    unpack(object, &mut bytes);
                }
                self.pools[class as usize] = Some(pool);
            }
            Kept::Back { block } => {
                let mut device = self.device.take().unwrap();
                bytes.copy_from_slice(&device.blocks[block as usize].as_ref().unwrap()[..]);
                device.reads += 1;
                self.device = Some(device);
            }
        }
        entry.order.push(tag);
        entry.touched = 0;
        self.entries[page] = Some(entry);
        bytes
    }

    // Writes a huge page back: it is copied while its block is held, and given up if it still is there.
    pub fn write_back(&mut self, page: usize, carried: &mut [u8; PAGE]) -> bool {
        let mut entry = self.entries[page].take().unwrap();
        let Kept::Object { class: 254, handle, .. } = entry.kept else {
            self.entries[page] = Some(entry);
            return false;
        };
        let mut free = self.free_blocks.take().unwrap();
        let block = free.pop_first().unwrap();
        self.free_blocks = Some(free);
        let pool = self.pools[254].take().unwrap();
        let mut joined = [0; PAGE];
        carried.copy_from_slice(pool.get(handle, PAGE, &mut joined));
        self.pools[254] = Some(pool);
        entry.under = Some(block);
        self.entries[page] = Some(entry);
        let mut device = self.device.take().unwrap();
        device.blocks[block as usize] = Some(Box::new(*carried));
        device.writes += 1;
        self.device = Some(device);
        let mut entry = self.entries[page].take().unwrap();
        assert_eq!(entry.under.take(), Some(block));
        let mut pool = self.pools[254].take().unwrap();
        let frames = pool.free(handle);
        self.pools[254] = Some(pool);
        entry.kept = Kept::Back { block };
        let mut account = self.account.take().unwrap();
        account.pages -= frames;
        account.bytes -= PAGE;
        account.huge -= 1;
        account.back += 1;
        self.account = Some(account);
        self.entries[page] = Some(entry);
        true
    }

    // Compacts every pool: how many objects moved, and how many frames that gave.
    pub fn compact(&mut self) -> (usize, usize) {
        let (mut moves, mut frames) = (0, 0);
        for class in 0..255 {
            while let Some(gave) = self.pools[class].as_mut().unwrap().move_one() {
                moves += 1;
                frames += gave;
                let account = self.account.as_mut().unwrap();
                account.pages -= gave;
                account.compacted += gave;
            }
        }
        (moves, frames)
    }

    pub fn mm_stat(&self, out: &mut Vec<u8>) {
        let a = self.account.as_ref().unwrap();
        let pages = a.same + a.packed + a.huge + a.back;
        writeln!(
            out,
            "mm_stat {} {} {} {} {} {} {} {} {}",
            pages * PAGE,
            a.bytes,
            a.pages * PAGE,
            a.limit * PAGE,
            a.most * PAGE,
            a.same,
            a.compacted,
            a.huge,
            a.huge_since
        )
        .unwrap();
    }
}
