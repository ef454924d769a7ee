// Actors that take turns. A turn takes one value out of its place, or puts one back after the work on it;
// where the value isn't there, the turn is a miss. What an actor has in hand stands in its stage.
use super::disk::*;
use super::jobs::{Call, End};
use super::pools::*;
use std::mem;

type Hand<T> = Box<T>;

enum Stage {
    Start,
    // an object is made
    Wanting { entry: Hand<Entry>, class: usize },
    Inside { entry: Hand<Entry>, class: usize, pool: Hand<Pool> },
    Both { entry: Hand<Entry>, class: usize, pool: Hand<Pool>, account: Hand<Account> },
    Made { entry: Hand<Entry>, class: usize, pool: Hand<Pool>, handle: u32 },
    // the page is counted and put
    Owing { entry: Hand<Entry>, kept: Kept },
    Giving { entry: Hand<Entry>, kept: Kept, account: Hand<Account> },
    Ready { entry: Hand<Entry>, kept: Kept },
    // an object is read
    Seen { entry: Hand<Entry>, class: usize },
    Pinning { entry: Hand<Entry>, class: usize, pool: Hand<Pool> },
    Pinned { entry: Hand<Entry>, class: usize },
    Unpinning { entry: Hand<Entry>, class: usize, pool: Hand<Pool> },
    // a page is read from the device
    Away { entry: Hand<Entry>, block: u32 },
    Fetching { entry: Hand<Entry>, block: u32, device: Hand<Device> },
    Leaving { entry: Hand<Entry> },
}

struct Actor<'a> {
    number: u32,
    calls: &'a [Call],
    at: usize,
    stage: Stage,
    page: Box<[u8; PAGE]>,
    packing: Box<Packing>,
    ends: Vec<End>,
}

impl<'a> Actor<'a> {
    fn new(number: usize, calls: &'a [Call]) -> Actor<'a> {
        Actor {
            number: number as u32,
            calls,
            at: 0,
            stage: Stage::Start,
            page: Box::new([0; PAGE]),
            packing: Box::new(Packing { bytes: [0; 4128], len: 0 }),
            ends: Vec::with_capacity(calls.len()),
        }
    }

    fn object(&self) -> &[u8] {
        if self.packing.len > MOST_PACKED {
            &self.page[..]
        } else {
            &self.packing.bytes[..self.packing.len]
        }
    }

    // The bytes of a write, and in which form they are kept.
    fn make(&mut self, stands: &[usize], entry: Hand<Entry>) -> Stage {
        let Call::Write { start, step, fill, .. } = &self.calls[self.at] else { unreachable!() };
        let mut word = *start;
        for to in self.page.chunks_exact_mut(8) {
            to.copy_from_slice(&word.to_le_bytes());
            word = if *fill { word } else { word.wrapping_add(*step) };
        }
        if self.page[8..] == self.page[..PAGE - 8] {
            return Stage::Owing { entry, kept: Kept::Same(*start) };
        }
        pack(&self.page, &mut self.packing);
        let len = self.packing.len;
        let class = if len > MOST_PACKED { 254 } else { stands[(len + 8 - 32).div_ceil(16)] };
        Stage::Wanting { entry, class }
    }

    fn begin(&mut self, disk: &mut Disk) -> Stage {
        match &self.calls[self.at] {
            Call::Write { page, .. } => match disk.entries[*page].take() {
                Some(entry) => self.make(&disk.stands, entry),
                None => Stage::Start,
            },
            Call::Read { page } => match disk.entries[*page].take() {
                Some(entry) => self.see(entry),
                None => Stage::Start,
            },
            Call::WritebackHuge => {
                let pages = 0..disk.entries.len();
                let count = pages.filter(|page| disk.write_back(*page, &mut self.page)).count();
                self.over(End::WrittenBack(count))
            }
            Call::Compact => {
                let (moves, frames) = disk.compact();
                self.over(End::Compacted(moves, frames))
            }
        }
    }

    fn see(&mut self, entry: Hand<Entry>) -> Stage {
        match entry.kept {
            Kept::Object { class, .. } => Stage::Seen { entry, class: class as usize },
            Kept::Back { block } => Stage::Away { entry, block },
            Kept::Empty => {
                self.page.fill(0);
                Stage::Leaving { entry }
            }
            Kept::Same(word) => {
                let bytes = word.to_le_bytes();
                self.page.chunks_exact_mut(8).for_each(|to| to.copy_from_slice(&bytes));
                Stage::Leaving { entry }
            }
        }
    }

    fn over(&mut self, end: End) -> Stage {
        self.ends.push(end);
        self.at += 1;
        Stage::Start
    }

    fn put(&mut self, disk: &mut Disk, mut entry: Hand<Entry>) {
        entry.order.push((self.number, self.at as u32));
        entry.touched = 0;
        let (Call::Write { page, .. } | Call::Read { page }) = &self.calls[self.at] else {
            unreachable!()
        };
        disk.entries[*page] = Some(entry);
    }

    fn charge(&mut self, account: &mut Account, pool: &mut Pool) -> u32 {
        let need = pool.need();
        assert!(account.limit == 0 || account.pages + need <= account.limit);
        account.pages += need;
        account.most = account.most.max(account.pages);
        pool.add(self.object())
    }

    fn fetch(&mut self, pool: &Pool, kept: Kept) {
        let Kept::Object { handle, len, .. } = kept else { unreachable!() };
        let mut joined = [0; PAGE];
        let object = pool.get(handle, len as usize, &mut joined);
        if len as usize == PAGE {
            self.page.copy_from_slice(object);
        } else {
            unpack(object, &mut self.page);
        }
    }

    fn turn(&mut self, disk: &mut Disk) {
        self.stage = match mem::replace(&mut self.stage, Stage::Start) {
            Stage::Start => self.begin(disk),
            Stage::Wanting { entry, class } => match disk.pools[class].take() {
                Some(pool) => Stage::Inside { entry, class, pool },
                None => Stage::Wanting { entry, class },
            },
            Stage::Inside { entry, class, pool } => match disk.account.take() {
                Some(account) => Stage::Both { entry, class, pool, account },
                None => Stage::Inside { entry, class, pool },
            },
            Stage::Both { entry, class, mut pool, mut account } => {
                let handle = self.charge(&mut account, &mut pool);
                disk.account = Some(account);
                Stage::Made { entry, class, pool, handle }
            }
            Stage::Made { entry, class, pool, handle } => {
                disk.pools[class] = Some(pool);
                let len = self.object().len() as u16;
                Stage::Owing { entry, kept: Kept::Object { class: class as u8, handle, len } }
            }
            Stage::Owing { entry, kept } => match disk.account.take() {
                Some(account) => Stage::Giving { entry, kept, account },
                None => Stage::Owing { entry, kept },
            },
            Stage::Giving { entry, kept, mut account } => {
                account.count(kept);
                disk.account = Some(account);
                Stage::Ready { entry, kept }
            }
            Stage::Ready { mut entry, kept } => {
                entry.kept = kept;
                self.put(disk, entry);
                self.over(End::Written)
            }
            stage => self.read_turn(disk, stage),
        };
    }

    fn read_turn(&mut self, disk: &mut Disk, stage: Stage) -> Stage {
        match stage {
            Stage::Seen { entry, class } => match disk.pools[class].take() {
                Some(pool) => Stage::Pinning { entry, class, pool },
                None => Stage::Seen { entry, class },
            },
            Stage::Pinning { entry, class, pool } => {
                self.fetch(&pool, entry.kept);
                disk.pools[class] = Some(pool);
                Stage::Pinned { entry, class }
            }
            Stage::Pinned { entry, class } => match disk.pools[class].take() {
                Some(pool) => Stage::Unpinning { entry, class, pool },
                None => Stage::Pinned { entry, class },
            },
            Stage::Unpinning { entry, class, pool } => {
                disk.pools[class] = Some(pool);
                Stage::Leaving { entry }
            }
            Stage::Away { entry, block } => match disk.device.take() {
                Some(device) => Stage::Fetching { entry, block, device },
                None => Stage::Away { entry, block },
            },
            Stage::Fetching { entry, block, mut device } => {
                self.page.copy_from_slice(&device.blocks[block as usize].as_ref().unwrap()[..]);
                device.reads += 1;
                disk.device = Some(device);
                Stage::Leaving { entry }
            }
            Stage::Leaving { entry } => {
                let read = self.page.clone();
                self.put(disk, entry);
                self.over(End::Read(read))
            }
            _ => unreachable!(),
        }
    }
}

// The calls of the actors, by rounds of one turn for each, until all are over.
pub fn by_turns(disk: &mut Disk, actors: &[Vec<Call>]) -> Vec<Vec<End>> {
    let mut actors: Vec<Actor> =
        actors.iter().enumerate().map(|(number, calls)| Actor::new(number, calls)).collect();
    let mut left = true;
    while left {
        left = false;
        for actor in &mut actors {
            if actor.at < actor.calls.len() {
                actor.turn(disk);
                left = true;
            }
        }
    }
    actors.into_iter().map(|actor| actor.ends).collect()
}
