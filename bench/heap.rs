//! An addressable heap in plain Rust, and the calls that the case `heap` of `roam_bench` makes of ours:
//! four children a node, keys of 16 bytes beside their slots. `run.sh` compiles it by `rustc -O`.

use std::time::Instant;

const ARITY: usize = 4;
const ABSENT: u32 = u32::MAX;
const SLOTS: u32 = 262_144;
const CALLS: u32 = 1_000_000;

/// The greater priority first, and of equal priorities the lesser triangle.
#[derive(Clone, Copy)]
struct Rank {
    p: u64,
    tri: u32,
}

#[derive(Clone, Copy)]
struct Item {
    key: Rank,
    slot: u32,
}

impl Item {
    /// Without a branch: keys are random, so a branch would often be guessed wrong.
    #[inline(always)]
    fn less(&self, other: &Item) -> bool {
        (self.key.p > other.key.p) | ((self.key.p == other.key.p) & (self.key.tri < other.key.tri))
    }
}

struct Heap {
    items: Vec<Item>,
    places: Vec<u32>,
}

impl Heap {
    fn new(slots: u32) -> Heap {
        Heap { items: Vec::with_capacity(slots as usize), places: vec![ABSENT; slots as usize] }
    }

    fn has(&self, slot: u32) -> bool {
        self.places[slot as usize] != ABSENT
    }

    fn head(&self) -> Option<Item> {
        self.items.first().copied()
    }

    fn put(&mut self, item: Item) {
        let place = self.items.len();
        self.items.push(item);
        self.sift_up(place, item);
    }

    fn take(&mut self, slot: u32) {
        let place = self.places[slot as usize] as usize;
        self.places[slot as usize] = ABSENT;
        let last = self.items.pop().unwrap();
        if place < self.items.len() {
            if place > 0 && last.less(&self.items[(place - 1) / ARITY]) {
                self.sift_up(place, last);
            } else {
                self.sift_down(place, last);
            }
        }
    }

    fn rekey(&mut self, item: Item) {
        let place = self.places[item.slot as usize] as usize;
        if item.less(&self.items[place]) {
            self.sift_up(place, item);
        } else {
            self.sift_down(place, item);
        }
    }

    #[inline(always)]
    fn store(&mut self, place: usize, item: Item) {
        self.items[place] = item;
        self.places[item.slot as usize] = place as u32;
    }

    fn sift_up(&mut self, mut place: usize, item: Item) {
        while place > 0 {
            let above = (place - 1) / ARITY;
            let parent = self.items[above];
            if !item.less(&parent) {
                break;
            }
            self.store(place, parent);
            place = above;
        }
        self.store(place, item);
    }

    fn sift_down(&mut self, mut place: usize, item: Item) {
        while ARITY * place + 1 < self.items.len() {
            let first = ARITY * place + 1;
            let end = (first + ARITY).min(self.items.len());
            let (mut below, mut child) = (first, self.items[first]);
            for i in first + 1..end {
                let other = self.items[i];
                if other.less(&child) {
                    (below, child) = (i, other);
                }
            }
            if !child.less(&item) {
                break;
            }
            self.store(place, child);
            place = below;
        }
        self.store(place, item);
    }
}

fn next(number: &mut u64) -> u64 {
    *number = number.wrapping_mul(6_364_136_223_846_793_005).wrapping_add(1_442_695_040_888_963_407);
    *number >> 16
}

fn main() {
    let start = Instant::now();
    let (mut number, mut found) = (1, 0u32);
    let mut heap = Heap::new(SLOTS);
    for _ in 0..CALLS {
        let choice = next(&mut number);
        let slot = (choice % u64::from(SLOTS)) as u32;
        let rest = next(&mut number);
        let item = Item { key: Rank { p: rest >> 24, tri: (rest % 16_777_214) as u32 + 2 }, slot };
        if !heap.has(slot) {
            heap.put(item);
        } else if choice >> 20 & 1 == 0 {
            heap.rekey(item);
        } else {
            heap.take(slot);
        }
        if let Some(first) = heap.head() {
            found = found.wrapping_add(first.key.p as u32);
        }
    }
    println!("heap calls {CALLS} found {found} seconds {:.6}", start.elapsed().as_secs_f64());
}
