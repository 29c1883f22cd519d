//! The pool of linked triangles in plain Rust, with the layout of ours, and the calls that the cases `pool_..` of
//! `roam_bench` make of ours. `run.sh` compiles it by `rustc -O` and calls it with the name of a case.

use std::time::Instant;

const NOWHERE: u32 = u32::MAX;
const LEVEL: u32 = 11;
const MOST: u32 = 1 << 20;

#[derive(Clone, Copy)]
struct Node {
    children: u32,
    base: u32,
    left: u32,
    right: u32,
}

struct Pool {
    nodes: Vec<Node>,
    pairs: Vec<u32>,
    parents: Vec<u32>,
    free: Vec<u32>,
    spare: u32,
    splits: u64,
    merges: u64,
}

/// The slots of the children of one triangle, or of both triangles of a diamond.
struct Born {
    first: (u32, u32),
    second: Option<(u32, u32)>,
}

fn leaf_node(base: u32, left: u32, right: u32) -> Node {
    Node { children: NOWHERE, base, left, right }
}

fn level(tri: u32) -> u32 {
    tri.ilog2() - 1
}

impl Pool {
    fn new() -> Pool {
        let pairs = MOST as usize - 1;
        let mut pool = Pool {
            nodes: vec![leaf_node(0, NOWHERE, NOWHERE); 2 * pairs],
            pairs: vec![0; pairs],
            parents: vec![0; pairs],
            free: (1..=pairs as u32).collect(),
            spare: MOST - 2,
            splits: 0,
            merges: 0,
        };
        pool.pairs[0] = 1;
        pool.nodes[0].base = 1;
        pool
    }

    fn leaf_count(&self) -> u32 {
        MOST - self.spare
    }

    fn tri(&self, s: u32) -> u32 {
        2 * self.pairs[s as usize / 2] + s % 2
    }

    fn is_live(&self, s: u32) -> bool {
        self.pairs.get(s as usize / 2).is_some_and(|pair| *pair != 0)
    }

    fn is_leaf(&self, s: u32) -> bool {
        self.nodes[s as usize].children == NOWHERE
    }

    fn base(&self, s: u32) -> Option<u32> {
        let base = self.nodes[s as usize].base;
        (base != NOWHERE).then_some(base)
    }

    fn may_split(&self, s: u32) -> bool {
        self.base(s).is_none_or(|base| level(self.tri(base)) == level(self.tri(s)))
    }

    fn relink(&mut self, x: u32, edge: u32, to: u32) {
        if x == NOWHERE {
            return;
        }
        let finer = level(self.tri(x)) == level(edge);
        let node = &mut self.nodes[x as usize];
        if finer {
            node.base = to;
        } else if edge % 2 == 0 {
            node.right = to;
        } else {
            node.left = to;
        }
    }

    fn halve(&mut self, s: u32, k: u32, mate: u32) {
        let tri = self.tri(s);
        let node = self.nodes[s as usize];
        self.relink(node.left, 2 * tri, 2 * k);
        self.relink(node.right, 2 * tri + 1, 2 * k + 1);
        let (mut far_left, mut far_right) = (NOWHERE, NOWHERE);
        if mate != NOWHERE {
            self.nodes[2 * mate as usize].right = 2 * k + 1;
            self.nodes[2 * mate as usize + 1].left = 2 * k;
            (far_left, far_right) = (2 * mate + 1, 2 * mate);
        }
        self.nodes[s as usize].children = k;
        self.nodes[2 * k as usize] = leaf_node(node.left, 2 * k + 1, far_left);
        self.nodes[2 * k as usize + 1] = leaf_node(node.right, far_right, 2 * k);
        self.pairs[k as usize] = tri;
        self.parents[k as usize] = s;
    }

    fn split(&mut self, s: u32) -> Born {
        let k = self.free[self.spare as usize - 1];
        let first = (2 * k, 2 * k + 1);
        let base = self.nodes[s as usize].base;
        self.halve(s, k, NOWHERE);
        if base == NOWHERE {
            self.spare -= 1;
            self.splits += 1;
            return Born { first, second: None };
        }
        let j = self.free[self.spare as usize - 2];
        self.spare -= 2;
        self.splits += 2;
        self.halve(base, j, k);
        Born { first, second: Some((2 * j, 2 * j + 1)) }
    }

    fn join(&mut self, s: u32, k: u32) {
        let tri = self.tri(s);
        let (left, right) = (self.nodes[2 * k as usize].base, self.nodes[2 * k as usize + 1].base);
        self.relink(left, 2 * tri, s);
        self.relink(right, 2 * tri + 1, s);
        let node = &mut self.nodes[s as usize];
        node.children = NOWHERE;
        node.left = left;
        node.right = right;
        self.pairs[k as usize] = 0;
        self.free[self.spare as usize] = k;
        self.spare += 1;
        self.merges += 1;
    }

    fn has_two_leaves(&self, s: u32) -> bool {
        let k = self.nodes[s as usize].children;
        k != NOWHERE && self.is_leaf(2 * k) && self.is_leaf(2 * k + 1)
    }

    fn merge_ready(&self, s: u32) -> bool {
        self.has_two_leaves(s) && self.base(s).is_none_or(|partner| self.has_two_leaves(partner))
    }

    fn merge(&mut self, s: u32) {
        let k = self.nodes[s as usize].children;
        let partner = self.base(s);
        self.join(s, k);
        if let Some(partner) = partner {
            self.join(partner, self.nodes[partner as usize].children);
        }
    }

    /// What must be split before the leaf, the finest first, and how many triangles that adds.
    fn plan(&self, mut s: u32, slots: &mut Vec<u32>) -> u32 {
        slots.clear();
        let mut gain = 0;
        loop {
            slots.push(s);
            let Some(base) = self.base(s) else {
                return gain + 1;
            };
            gain += 2;
            if level(self.tri(base)) == level(self.tri(s)) {
                return gain;
            }
            s = base;
        }
    }

    /// The leaf to which the digits of the number lead.
    fn leaf(&self, number: u32) -> Option<u32> {
        let mut s = number & 1;
        for digit in 1..24 {
            if !self.is_live(s) {
                return None;
            }
            match self.nodes[s as usize].children {
                NOWHERE => return Some(s),
                k => s = 2 * k + (number >> digit & 1),
            }
        }
        None
    }
}

fn made() -> (u32, u32) {
    let mut found = 0;
    for _ in 0..10 {
        found += Pool::new().leaf_count();
    }
    (10, found)
}

fn filled(case: &str) -> (u32, u32) {
    let (mut pool, mut calls) = (Pool::new(), 0);
    let mut slots = Vec::with_capacity(2 * MOST as usize);
    slots.extend([0, 1]);
    let mut place = 0;
    while place < slots.len() {
        let s = slots[place];
        place += 1;
        if !pool.is_live(s) || !pool.is_leaf(s) || !pool.may_split(s) || pool.spare < 2 || level(pool.tri(s)) >= 2 * LEVEL {
            continue;
        }
        let born = pool.split(s);
        slots.extend([born.first.0, born.first.1]);
        if let Some((left, right)) = born.second {
            slots.extend([left, right]);
        }
        calls += 1;
    }
    let mut found = pool.leaf_count();
    if case == "pool_merge" {
        for s in slots.iter().rev() {
            if pool.is_live(*s) && pool.merge_ready(*s) {
                pool.merge(*s);
                calls += 1;
            }
        }
        found = pool.leaf_count();
    }
    if case == "pool_plan" {
        let mut chain = Vec::with_capacity(24);
        for s in &slots {
            if pool.is_live(*s) && pool.is_leaf(*s) && level(pool.tri(*s)) < 2 * LEVEL {
                calls += 1;
                found += pool.plan(*s, &mut chain);
            }
        }
    }
    (calls, found)
}

fn refined() -> (u32, u32) {
    let (mut pool, mut calls, mut found, mut number) = (Pool::new(), 0, 0, 1u32);
    let mut chain = Vec::with_capacity(24);
    for _ in 0..400_000 {
        number = number.wrapping_mul(1664525).wrapping_add(1013904223);
        let Some(s) = pool.leaf(number >> 8) else {
            continue;
        };
        calls += 1;
        if level(pool.tri(s)) < 2 * LEVEL && pool.plan(s, &mut chain) <= pool.spare {
            for next in chain.iter().rev() {
                let born = pool.split(*next);
                found += u32::from(born.first.0 > 0);
            }
        }
    }
    (calls, found + pool.leaf_count())
}

fn main() {
    let case = std::env::args().nth(1).unwrap_or_default();
    let start = Instant::now();
    let (calls, found) = match case.as_str() {
        "pool_new" => made(),
        "pool_carry_out" => refined(),
        "pool_split" | "pool_merge" | "pool_plan" => filled(&case),
        _ => panic!("no such case: {case}"),
    };
    println!("{case} calls {calls} found {found} seconds {:.6}", start.elapsed().as_secs_f64());
}
