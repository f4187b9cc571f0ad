// Random unites and intersects of the crate's mutable BitSet with combinations
// of stored sets, with the crate's own answers.
//
// Built against hi_sparse_bitset 0.10.0, config _64bit, debug assertions on
// (edition 2021; only std and the crate). The crate's generic code is compiled
// along with this file, so give both the crate and this file
//   -C debug-assertions=on -C overflow-checks=on
// It takes no argument, writes the list of calls to stdout and its counts to
// stderr. The generator is xorshift64* with fixed seeds, so every run of it
// writes the same list. usize is taken to have 64 bits.
//
// Capacity: 64 * 64 * 64 = 262144. Block of n: n / 64; group of n: n / 4096.
// Four sets A, B, C, D (numbers 0 to 3), each over two pools of its own: at most
// P nonempty groups and at most Q nonempty blocks. The operand of a unite or an
// intersect on one set is a combination of the other three in order, here a, b,
// c (of B they are A, C, D). Shapes:
//    0  a
//    1  Or(a,b)
//    2  And(a,b)
//    3  Xor(a,b)
//    4  Sub(a,b)
//    5  Or(And(a,b),c)
//    6  And(Or(a,b),c)
//    7  Xor(Sub(a,b),c)
//    8  Sub(Or(a,b),And(b,c))
//    9  Or(Or(a,b),c)
//   10  Sub(Xor(Or(a,b),c),And(a,c))
//   11  Or(Xor(And(a,b),c),Sub(b,c))
// Some calls are refused, by number, and then change nothing:
//   unite        3 if the union has more than P nonempty groups;
//                else 4 if it has more than Q nonempty blocks
//   insert and insert_block likewise (all indices are below the capacity here,
//   and all blocks stand at their boundary, below the last one)
// intersect is never refused.
//
// Format: one call a line, fields separated by one space, numbers unsigned
// decimal. X is the number of the set.
//   s X P Q            a new, empty set with these pool sizes; the four of them
//                      begin a run
//   i X N A            insert N; A is 0 (accepted) or the refusal number
//   b X START WORD A   insert_block: START + k for every one bit k of WORD
//   r X N A            remove N; A is y / n: whether N was there
//   u X SHAPE A        unite with the shape over the other three
//   n X SHAPE          intersect with it
//   m X G B N SUM      what X has now, after every unite and intersect: nonempty
//                      groups, nonempty blocks, members, and the sum, modulo
//                      2^64, of each member times its place in order from 1
//
// What the crate answers: r, and all of m, which is counted over its own walk.
// It has no pools, so it is not given the refused calls; an m after one tells
// that nothing changed. A plain BTreeSet beside every set of the crate decides
// the refusals. After every call that the crate is given, its walks over members
// and over blocks are asserted to give what the plain set gives, and its counts
// of groups and blocks to be the plain set's.

use hi_sparse_bitset::{apply, config, ops, BitBlock, BitSet, BitSetInterface, DataBlock};
use std::collections::BTreeSet;
use std::fmt::Write;

type Conf = config::_64bit;
type Set = BitSet<Conf>;
type Plain = BTreeSet<u64>;

const SHAPES: usize = 12;

// ---------------------------------------------------------------- generator

struct Rng(u64);

impl Rng {
    fn new(seed: u64) -> Self {
        let mut rng = Rng(0x9E37_79B9_7F4A_7C15u64.wrapping_mul(seed));
        for _ in 0..8 {
            rng.next();
        }
        rng
    }
    // xorshift64*
    fn next(&mut self) -> u64 {
        self.0 ^= self.0 >> 12;
        self.0 ^= self.0 << 25;
        self.0 ^= self.0 >> 27;
        self.0.wrapping_mul(0x2545_F491_4F6C_DD1D)
    }
    // 0 .. n
    fn below(&mut self, n: u64) -> u64 {
        (self.next() >> 33) % n
    }
    fn percent(&mut self, p: u64) -> bool {
        self.below(100) < p
    }
    fn pick<T: Copy>(&mut self, from: &[T]) -> T {
        from[self.below(from.len() as u64) as usize]
    }
    fn shuffle<T>(&mut self, list: &mut [T]) {
        for i in (1..list.len()).rev() {
            list.swap(i, self.below(i as u64 + 1) as usize);
        }
    }
}

// ------------------------------------------------------------------- shapes

fn with<S: BitSetInterface<Conf = Conf>>(target: &mut Set, x: S, unite: bool) {
    if unite {
        target.unite(x)
    } else {
        target.intersect(x)
    }
}

fn merge(target: &mut Set, [a, b, c]: [&Set; 3], shape: usize, unite: bool) {
    use ops::{And, Or, Sub, Xor};
    match shape {
        0 => with(target, a, unite),
        1 => with(target, apply(Or, a, b), unite),
        2 => with(target, apply(And, a, b), unite),
        3 => with(target, apply(Xor, a, b), unite),
        4 => with(target, apply(Sub, a, b), unite),
        5 => with(target, apply(Or, apply(And, a, b), c), unite),
        6 => with(target, apply(And, apply(Or, a, b), c), unite),
        7 => with(target, apply(Xor, apply(Sub, a, b), c), unite),
        8 => with(target, apply(Sub, apply(Or, a, b), apply(And, b, c)), unite),
        9 => with(target, apply(Or, apply(Or, a, b), c), unite),
        10 => {
            let xor = apply(Xor, apply(Or, a, b), c);
            with(target, apply(Sub, xor, apply(And, a, c)), unite)
        }
        11 => {
            let xor = apply(Xor, apply(And, a, b), c);
            with(target, apply(Or, xor, apply(Sub, b, c)), unite)
        }
        _ => unreachable!(),
    }
}

fn plain_operand([a, b, c]: [&Plain; 3], shape: usize) -> Plain {
    match shape {
        0 => a.clone(),
        1 => a | b,
        2 => a & b,
        3 => a ^ b,
        4 => a - b,
        5 => &(a & b) | c,
        6 => &(a | b) & c,
        7 => &(a - b) ^ c,
        8 => &(a | b) - &(b & c),
        9 => &(a | b) | c,
        10 => &(&(a | b) ^ c) - &(a & c),
        11 => &(&(a & b) ^ c) | &(b - c),
        _ => unreachable!(),
    }
}

// The groups, or blocks, that the combination's masks announce, of those that the
// sets have: of either operand for Or and Xor, of both for And, of the left one
// for Sub.
fn announced([a, b, c]: [&Plain; 3], shape: usize) -> Plain {
    match shape {
        0 | 4 => a.clone(),
        1 | 3 | 8 => a | b,
        2 => a & b,
        5 => &(a & b) | c,
        6 => &(a | b) & c,
        7 => a | c,
        9 | 10 => &(a | b) | c,
        11 => &(&(a & b) | c) | b,
        _ => unreachable!(),
    }
}

fn others(x: usize) -> [usize; 3] {
    match x {
        0 => [1, 2, 3],
        1 => [0, 2, 3],
        2 => [0, 1, 3],
        _ => [0, 1, 2],
    }
}

// ------------------------------------------------------ sets and their record

// Called over the bound, since the trait that has them is not exported by name.
fn crate_blocks<S: BitSetInterface>(set: S) -> usize {
    let (low, high) = set.data_blocks_size_hint();
    assert_eq!(low, high);
    low
}

fn crate_groups<S: BitSetInterface>(set: S) -> usize {
    set.level0_mask().count_ones()
}

// How many groups (shift 12) or blocks (shift 6) rising numbers are in.
fn distinct(numbers: impl Iterator<Item = u64>, shift: u32) -> usize {
    let mut last = u64::MAX;
    let mut count = 0;
    for n in numbers {
        if n >> shift != last {
            last = n >> shift;
            count += 1;
        }
    }
    count
}

fn groups(plain: &Plain) -> usize {
    distinct(plain.iter().copied(), 12)
}
fn blocks(plain: &Plain) -> usize {
    distinct(plain.iter().copied(), 6)
}

fn words(plain: &Plain) -> Vec<(usize, u64)> {
    let mut list: Vec<(usize, u64)> = Vec::new();
    for &n in plain {
        let start = (n & !63) as usize;
        match list.last_mut() {
            Some(last) if last.0 == start => last.1 |= 1 << (n & 63),
            _ => list.push((start, 1 << (n & 63))),
        }
    }
    list
}

#[derive(Default)]
struct Counts {
    lines: [usize; 7],            // s i b r u n m
    refused: [[usize; 5]; 3],     // of i, b, u; by number
    shapes: [[usize; 2]; SHAPES], // unites that were accepted, intersects
    changed: [usize; 2],          // unites, intersects that changed the set
    freed: [usize; 2],            // intersects that freed a block, a group
    in_vain: usize,               // unites where a group is announced that the union has not
    beyond: usize,                // unites that fit though what is announced would not
    retaken: usize,               // unites that took a slot in a pool where some had been freed
}

const S: usize = 0;
const I: usize = 1;
const B: usize = 2;
const R: usize = 3;
const U: usize = 4;
const N: usize = 5;
const M: usize = 6;

struct One {
    p: usize,
    q: usize,
    set: Set,
    plain: Plain,
    freed: bool, // a block was freed before
}

impl One {
    // 0, 3 or 4: whether the pools take these members.
    fn refuses(&self, plain: &Plain) -> u8 {
        if groups(plain) > self.p {
            3
        } else if blocks(plain) > self.q {
            4
        } else {
            0
        }
    }

    // The crate's set is the plain one.
    fn check(&self, out: &str) {
        let last = || out.lines().last().unwrap_or("");
        assert!(
            self.set
                .iter()
                .map(|n| n as u64)
                .eq(self.plain.iter().copied()),
            "members differ after {}: crate {:?}, plain {:?}",
            last(),
            self.set.iter().collect::<Vec<_>>(),
            self.plain
        );
        let found = self.set.block_iter().map(|block| block.into_parts());
        assert!(found.eq(words(&self.plain)), "blocks after {}", last());
        assert_eq!(crate_groups(&self.set), groups(&self.plain), "{}", last());
        assert_eq!(crate_blocks(&self.set), blocks(&self.plain), "{}", last());
        assert_eq!(self.set.is_empty(), self.plain.is_empty(), "{}", last());
        assert!(groups(&self.plain) <= self.p && blocks(&self.plain) <= self.q);
    }
}

struct Record<'a> {
    sets: Vec<One>,
    out: &'a mut String,
    counts: &'a mut Counts,
}

impl<'a> Record<'a> {
    fn new(pools: [(usize, usize); 4], out: &'a mut String, counts: &'a mut Counts) -> Self {
        let mut sets = Vec::new();
        for (x, (p, q)) in pools.into_iter().enumerate() {
            writeln!(out, "s {x} {p} {q}").unwrap();
            counts.lines[S] += 1;
            sets.push(One {
                p,
                q,
                set: Set::new(),
                plain: Plain::new(),
                freed: false,
            });
        }
        Record { sets, out, counts }
    }

    fn insert(&mut self, x: usize, n: u64) -> u8 {
        let one = &mut self.sets[x];
        let mut union = one.plain.clone();
        union.insert(n);
        let refused = one.refuses(&union);
        if refused == 0 {
            one.set.insert(n as usize);
            one.plain = union;
        }
        writeln!(self.out, "i {x} {n} {refused}").unwrap();
        one.check(self.out);
        self.counts.lines[I] += 1;
        self.counts.refused[0][refused as usize] += 1;
        refused
    }

    fn insert_block(&mut self, x: usize, start: u64, word: u64) -> u8 {
        assert!(start % 64 == 0 && start < 262080 && word != 0);
        let one = &mut self.sets[x];
        let mut union = one.plain.clone();
        union.extend((0..64).filter(|k| word >> k & 1 == 1).map(|k| start + k));
        let refused = one.refuses(&union);
        if refused == 0 {
            one.set.insert_block(DataBlock::new(start as usize, word));
            one.plain = union;
        }
        writeln!(self.out, "b {x} {start} {word} {refused}").unwrap();
        one.check(self.out);
        self.counts.lines[B] += 1;
        self.counts.refused[1][refused as usize] += 1;
        refused
    }

    fn remove(&mut self, x: usize, n: u64) {
        let one = &mut self.sets[x];
        let before = blocks(&one.plain);
        let was = one.set.remove(n as usize);
        writeln!(self.out, "r {x} {n} {}", if was { 'y' } else { 'n' }).unwrap();
        assert_eq!(was, one.plain.remove(&n));
        one.freed |= blocks(&one.plain) < before;
        one.check(self.out);
        self.counts.lines[R] += 1;
    }

    fn operand(&self, x: usize, shape: usize) -> Plain {
        plain_operand(others(x).map(|k| &self.sets[k].plain), shape)
    }

    // Whether the operand's masks announce a group that the union has not; and
    // whether with all that they announce the pools would not do.
    fn announced(&self, x: usize, shape: usize, union: &Plain) -> (bool, bool) {
        let one = &self.sets[x];
        let with = |shift: u32| {
            let over = |plain: &Plain| -> Plain { plain.iter().map(|n| n >> shift).collect() };
            let parts = others(x).map(|k| over(&self.sets[k].plain));
            &announced([&parts[0], &parts[1], &parts[2]], shape) | &over(&one.plain)
        };
        let (groups_with, blocks_with) = (with(12).len(), with(6).len());
        (
            groups_with > groups(union),
            groups_with > one.p || blocks_with > one.q,
        )
    }

    // The crate's set is merged with the crate's combination of the others.
    fn merge(&mut self, x: usize, shape: usize, unite: bool) {
        let mut target = std::mem::take(&mut self.sets[x].set);
        let operands = others(x).map(|k| &self.sets[k].set);
        merge(&mut target, operands, shape, unite);
        self.sets[x].set = target;
    }

    fn unite(&mut self, x: usize, shape: usize) -> u8 {
        let operand = self.operand(x, shape);
        let union = &self.sets[x].plain | &operand;
        let refused = self.sets[x].refuses(&union);
        if refused == 0 {
            let (in_vain, beyond) = self.announced(x, shape, &union);
            let counts = &mut self.counts;
            counts.in_vain += usize::from(in_vain);
            counts.beyond += usize::from(beyond);
            counts.changed[0] += usize::from(union != self.sets[x].plain);
            counts.shapes[shape][0] += 1;
            let grows = blocks(&union) > blocks(&self.sets[x].plain);
            counts.retaken += usize::from(grows && self.sets[x].freed);
            self.merge(x, shape, true);
            self.sets[x].plain = union;
        }
        writeln!(self.out, "u {x} {shape} {refused}").unwrap();
        self.counts.lines[U] += 1;
        self.counts.refused[2][refused as usize] += 1;
        self.tell(x);
        refused
    }

    fn intersect(&mut self, x: usize, shape: usize) {
        let operand = self.operand(x, shape);
        self.merge(x, shape, false);
        let one = &mut self.sets[x];
        let cut = &one.plain & &operand;
        let counts = &mut self.counts;
        counts.shapes[shape][1] += 1;
        counts.changed[1] += usize::from(cut != one.plain);
        counts.freed[0] += usize::from(blocks(&cut) < blocks(&one.plain));
        counts.freed[1] += usize::from(groups(&cut) < groups(&one.plain));
        counts.lines[N] += 1;
        one.freed |= blocks(&cut) < blocks(&one.plain);
        one.plain = cut;
        writeln!(self.out, "n {x} {shape}").unwrap();
        self.tell(x);
    }

    // What the crate's set has, by its own walk.
    fn tell(&mut self, x: usize) {
        let one = &self.sets[x];
        one.check(self.out);
        let walk = || one.set.iter().map(|n| n as u64);
        let sum = walk()
            .zip(1u64..)
            .fold(0u64, |sum, (n, k)| sum.wrapping_add(n.wrapping_mul(k)));
        let (groups, blocks) = (distinct(walk(), 12), distinct(walk(), 6));
        writeln!(self.out, "m {x} {groups} {blocks} {} {sum}", walk().count()).unwrap();
        self.counts.lines[M] += 1;
    }
}

// --------------------------------------------------------- choice of calls

struct Run<'a> {
    rec: Record<'a>,
    rng: Rng,
    starts: Vec<u64>,  // the blocks that the sets have in common
    numbers: Vec<u64>, // members of them that come often
    room: usize,       // members of a set to aim at
}

impl<'a> Run<'a> {
    // So many groups, and so many blocks in each.
    fn new(
        rec: Record<'a>,
        seed: u64,
        group_count: usize,
        place_count: usize,
        room: usize,
    ) -> Self {
        let mut rng = Rng::new(seed);
        let mut some = |count: usize| {
            let mut list: Vec<u64> = (1..63).collect();
            rng.shuffle(&mut list);
            list.insert(0, 63);
            list.insert(0, 0);
            list.truncate(count);
            list
        };
        let groups = some(group_count);
        let mut starts = Vec::new();
        for &group in &groups {
            for place in some(place_count) {
                starts.push(group << 12 | place << 6);
            }
        }
        let mut numbers = Vec::new();
        for &start in &starts {
            let inside = rng.below(64);
            for bit in [0, 63, inside] {
                numbers.push(start + bit);
            }
        }
        Run {
            rec,
            rng,
            starts,
            numbers,
            room,
        }
    }

    fn word(&mut self) -> u64 {
        match self.rng.below(8) {
            0 => u64::MAX,
            1 => self.rng.next(),
            2 => 1 << 63 | 1,
            3 => 0xFF << self.rng.below(56),
            _ => 1 << self.rng.below(64) | 1 << self.rng.below(64),
        }
    }

    fn put(&mut self, x: usize) -> u8 {
        match self.rng.below(10) {
            0..=5 => {
                let n = self.rng.pick(&self.numbers);
                self.rec.insert(x, n)
            }
            6 => {
                let n = self.rng.pick(&self.starts) + self.rng.below(64);
                self.rec.insert(x, n)
            }
            7 => {
                // a member of another set, or one beside it
                let other = self.rng.pick(&others(x));
                match self.present(other) {
                    Some(n) if self.rng.percent(60) => self.rec.insert(x, n),
                    Some(n) => self.rec.insert(x, n ^ 1),
                    None => 0,
                }
            }
            _ => {
                let start = self.rng.pick(&self.starts).min(262016);
                let word = self.word();
                self.rec.insert_block(x, start, word)
            }
        }
    }

    // A member, over blocks first, so that a dense block is not chosen always.
    fn present(&mut self, x: usize) -> Option<u64> {
        let list = words(&self.rec.sets[x].plain);
        if list.is_empty() {
            return None;
        }
        let (start, word) = self.rng.pick(&list);
        let bits: Vec<u64> = (0..64).filter(|k| word >> k & 1 == 1).collect();
        Some(start as u64 + self.rng.pick(&bits))
    }

    // Removes the members of one small block, or of one group, or some.
    fn drain(&mut self, x: usize) {
        let Some(one) = self.present(x) else { return };
        let shift = self.rng.pick(&[6, 6, 12]);
        let all = self.rec.sets[x].plain.iter().copied();
        let list: Vec<u64> = all.filter(|n| n >> shift == one >> shift).collect();
        for n in list.into_iter().take(12) {
            self.rec.remove(x, n);
        }
        if self.rng.percent(20) {
            self.rec.remove(x, one); // it is there no more, or never was
        }
    }

    fn refill(&mut self, x: usize) {
        let target = self.rng.below(self.room as u64) as usize;
        for _ in 0..2 * self.room {
            if self.rec.sets[x].plain.len() >= target || self.put(x) != 0 {
                break;
            }
        }
    }

    fn round(&mut self) {
        let x = self.rng.below(4) as usize;
        if self.rec.sets[x].plain.len() < self.room / 3 {
            self.refill(x);
        }
        let other = self.rng.pick(&others(x));
        if self.rng.percent(50) || self.rec.sets[other].plain.is_empty() {
            self.put(other);
        }
        let shape = self.rng.below(SHAPES as u64) as usize;
        let cut = self.rec.sets[x].plain.len() > 1 && self.rng.percent(40);
        if !cut {
            let operand = self.rec.operand(x, shape);
            if operand.is_subset(&self.rec.sets[x].plain) && self.rng.percent(60) {
                self.drain(x); // so that there is something to gain
            }
            if self.rec.unite(x, shape) != 0 && self.rng.percent(45) {
                self.drain(x); // room for the next one
                let shape = self.rng.below(SHAPES as u64) as usize;
                self.rec.unite(x, shape);
            }
            return;
        }
        // Of intersects that leave nothing, one of five.
        let kept = &self.rec.operand(x, shape) & &self.rec.sets[x].plain;
        if !kept.is_empty() || self.rng.percent(20) {
            self.rec.intersect(x, shape);
        } else {
            self.rec.intersect(x, 9);
        }
    }

    // Sets that have grown large are cut.
    fn thin(&mut self) {
        for x in 0..4 {
            if self.rec.sets[x].plain.len() > 4 * self.room {
                let shape = self.rng.pick(&[2, 4, 6]);
                self.rec.intersect(x, shape);
            }
        }
    }
}

// Pools of the four sets, seed, groups and blocks in each that the members come
// from, members to aim at, rounds.
type Plan = ([(usize, usize); 4], u64, usize, usize, usize, usize);

fn main() {
    let runs: [Plan; 14] = [
        ([(1, 2), (1, 2), (2, 2), (1, 3)], 1, 2, 3, 5, 80),
        ([(2, 3), (2, 4), (1, 4), (2, 2)], 2, 3, 3, 6, 80),
        ([(3, 4), (2, 8), (4, 4), (3, 6)], 3, 4, 3, 8, 80),
        ([(4, 8), (4, 6), (3, 8), (4, 5)], 4, 4, 4, 14, 90),
        ([(2, 8), (4, 8), (1, 8), (3, 8)], 5, 4, 5, 10, 80),
        ([(4, 2), (4, 5), (3, 3), (3, 4)], 13, 3, 5, 10, 90),
        ([(4, 6), (8, 20), (8, 20), (8, 20)], 6, 6, 4, 12, 80),
        ([(1, 4), (64, 64), (2, 64), (64, 3)], 7, 5, 4, 10, 80),
        ([(8, 20), (6, 24), (10, 16), (8, 32)], 8, 9, 4, 16, 80),
        ([(16, 64), (12, 40), (16, 48), (20, 32)], 9, 18, 4, 30, 80),
        ([(16, 20), (16, 24), (20, 18), (18, 30)], 14, 16, 4, 36, 90),
        ([(0, 0), (0, 4), (3, 0), (64, 4096)], 10, 3, 3, 6, 60),
        ([(64, 4096); 4], 11, 8, 6, 24, 80),
        ([(64, 4096); 4], 12, 64, 3, 40, 80),
    ];
    let mut out = String::new();
    let mut counts = Counts::default();
    for (pools, seed, group_count, place_count, room, rounds) in runs {
        let rec = Record::new(pools, &mut out, &mut counts);
        let mut run = Run::new(rec, seed, group_count, place_count, room);
        for x in 0..4 {
            run.refill(x);
        }
        for _ in 0..rounds {
            run.round();
            run.thin();
        }
    }
    print!("{out}");
    let names = ["s", "i", "b", "r", "u", "n", "m"];
    let lines = out.lines().count();
    assert_eq!(lines, counts.lines.iter().sum::<usize>());
    eprintln!("lines {lines}, bytes {}", out.len());
    for (name, count) in names.iter().zip(counts.lines) {
        eprintln!("{name}: {count}");
    }
    for (name, refused) in ["i", "b", "u"].iter().zip(counts.refused) {
        eprintln!(
            "{name}: accepted {}, refused with 3: {}, with 4: {}",
            refused[0], refused[3], refused[4]
        );
    }
    eprintln!(
        "by shape, accepted unites and intersects: {:?}",
        counts.shapes
    );
    eprintln!(
        "unites, intersects that changed the set: {:?}",
        counts.changed
    );
    eprintln!("intersects that freed a block, a group: {:?}", counts.freed);
    eprintln!("unites with a group announced in vain: {}", counts.in_vain);
    eprintln!(
        "unites that fit, where what is announced would not: {}",
        counts.beyond
    );
    eprintln!(
        "unites that took blocks where some were freed: {}",
        counts.retaken
    );
}
