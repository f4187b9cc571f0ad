// Random calls on the crate's mutable BitSet, with the crate's own answers.
//
// Built against hi_sparse_bitset 0.10.0, config _64bit, debug assertions on
// (edition 2021; only std and the crate). The crate's generic code is compiled
// along with this file, so give both the crate and this file
//   -C debug-assertions=on -C overflow-checks=on
// It takes no argument, writes the list of calls to stdout and its counts to
// stderr. The generator is xorshift64* with fixed seeds, so every run of it
// writes the same list. usize is taken to have 64 bits.
//
// The calls are those on a set over two fixed pools: at most P nonempty groups
// (group of n: n / 4096) and at most Q nonempty blocks (block of n: n / 64).
// Capacity: 64 * 64 * 64 = 262144. Some calls are refused, by number, and then
// change nothing:
//   insert n             1 if n >= 262144;
//                        else 3 if more than P groups would be nonempty;
//                        else 4 if more than Q blocks would be nonempty
//   insert_block start   never with a zero word (which changes nothing);
//                        else 2 if start is no multiple of 64;
//                        else 1 if start >= 262080; else 3, else 4, as above
//   remove n             1 if n >= 262144
//
// Format: one call a line, fields separated by one space, numbers unsigned
// decimal.
//   s P Q            a new, empty set with these pool sizes; begins a run
//   i N A            insert N; A is 0 (accepted) or the refusal number
//   b START WORD A   insert_block: START + k for every one bit k of WORD;
//                    A likewise
//   r N A            remove N; A is 1 (refused), or y / n: whether N was there
//   c N A            contains N; A is y or n
//   u G B            used: number of nonempty groups, of nonempty blocks
//
// What the crate answers: r and c for N < 262144, and B of u. It is given the
// accepted calls of insert and insert_block. It is not asked where it has no
// answer:
//   - refused calls: it panics (1, 2) or, having no pools, accepts (3, 4);
//   - contains N for N >= 262144: its indices are unchecked there, so the
//     read would be out of bounds; the line says n;
//   - insert_block of a zero word at a START that is no multiple of 64: the
//     crate's DataBlock cannot be made; the line says 0.
// A plain BTreeSet beside the crate's set decides the refusals and gives G.
// After every call the crate's whole contents and counts are asserted to equal
// those of the plain set.

use hi_sparse_bitset::{config, BitBlock, BitSet, BitSetInterface, DataBlock};
use std::collections::BTreeSet;
use std::fmt::Write;

type Set = BitSet<config::_64bit>;

const CAPACITY: u64 = 262144;
const START_END: u64 = 262080; // insert_block takes the starts below

// ---------------------------------------------------------------- generator

struct Rng(u64);

impl Rng {
    // xorshift64*
    fn next(&mut self) -> u64 {
        self.0 ^= self.0 >> 12;
        self.0 ^= self.0 << 25;
        self.0 ^= self.0 >> 27;
        self.0.wrapping_mul(0x2545_F491_4F6C_DD1D)
    }
    // 0 .. n
    fn below(&mut self, n: u64) -> u64 {
        (self.next() >> 33) % n
    }
    fn percent(&mut self, p: u64) -> bool {
        self.below(100) < p
    }
    fn pick<T: Copy>(&mut self, from: &[T]) -> T {
        from[self.below(from.len() as u64) as usize]
    }
    fn shuffle<T>(&mut self, list: &mut [T]) {
        for i in (1..list.len()).rev() {
            list.swap(i, self.below(i as u64 + 1) as usize);
        }
    }
}

// ------------------------------------------------- the crate's own counts

// Called over the bound, since the trait that has them is not exported by name.
fn crate_blocks<S: BitSetInterface>(set: S) -> usize {
    let (low, high) = set.data_blocks_size_hint();
    assert_eq!(low, high);
    low
}

fn crate_groups<S: BitSetInterface>(set: S) -> usize {
    set.level0_mask().count_ones()
}

// ----------------------------------------------------- a set and its record

#[derive(Default)]
struct Counts {
    lines: [usize; 6],     // s i b r c u
    asked: [usize; 6],     // given to the crate
    accepted: [usize; 6],  // i, b: accepted
    refused: [usize; 5],   // by number
    past_capacity: usize,  // contains not asked
    zero_off_start: usize, // zero words at an off start, not asked
}

const S: usize = 0;
const I: usize = 1;
const B: usize = 2;
const R: usize = 3;
const C: usize = 4;
const U: usize = 5;

struct Record<'a> {
    p: usize,
    q: usize,
    set: Set,
    plain: BTreeSet<u64>,
    calls: usize,
    out: &'a mut String,
    counts: &'a mut Counts,
}

fn distinct(plain: &BTreeSet<u64>, shift: u32) -> usize {
    let mut last = u64::MAX;
    let mut count = 0;
    for n in plain {
        if n >> shift != last {
            last = n >> shift;
            count += 1;
        }
    }
    count
}

impl<'a> Record<'a> {
    fn new(p: usize, q: usize, out: &'a mut String, counts: &'a mut Counts) -> Self {
        writeln!(out, "s {p} {q}").unwrap();
        counts.lines[S] += 1;
        Record {
            p,
            q,
            set: Set::new(),
            plain: BTreeSet::new(),
            calls: 0,
            out,
            counts,
        }
    }

    fn groups(&self) -> usize {
        distinct(&self.plain, 12)
    }
    fn blocks(&self) -> usize {
        distinct(&self.plain, 6)
    }
    fn has_group(&self, group: u64) -> bool {
        self.plain
            .range(group << 12..(group + 1) << 12)
            .next()
            .is_some()
    }
    fn has_block(&self, block: u64) -> bool {
        self.plain
            .range(block << 6..(block + 1) << 6)
            .next()
            .is_some()
    }

    // 0, 3 or 4: whether the pools take n, which is below the capacity.
    fn pools_refuse(&self, n: u64) -> u8 {
        if self.groups() + usize::from(!self.has_group(n >> 12)) > self.p {
            3
        } else if self.blocks() + usize::from(!self.has_block(n >> 6)) > self.q {
            4
        } else {
            0
        }
    }
    fn insert_refused(&self, n: u64) -> u8 {
        if n >= CAPACITY {
            1
        } else {
            self.pools_refuse(n)
        }
    }
    fn block_refused(&self, start: u64, word: u64) -> u8 {
        if word == 0 {
            0
        } else if start % 64 != 0 {
            2
        } else if start >= START_END {
            1
        } else {
            self.pools_refuse(start)
        }
    }

    // After every call: the crate's set is the plain one.
    fn check(&mut self, kind: usize) {
        self.calls += 1;
        self.counts.lines[kind] += 1;
        assert!(
            self.set
                .iter()
                .map(|n| n as u64)
                .eq(self.plain.iter().copied()),
            "contents differ after call {}: crate {:?}, plain {:?}\n{}",
            self.calls,
            self.set.iter().collect::<Vec<_>>(),
            self.plain,
            self.out
        );
        assert_eq!(crate_blocks(&self.set), self.blocks(), "{}", self.out);
        assert_eq!(self.set.block_iter().count(), self.blocks(), "{}", self.out);
        assert_eq!(crate_groups(&self.set), self.groups(), "{}", self.out);
        assert_eq!(self.set.is_empty(), self.plain.is_empty(), "{}", self.out);
        assert!(self.groups() <= self.p && self.blocks() <= self.q);
    }

    fn insert(&mut self, n: u64) -> u8 {
        let refused = self.insert_refused(n);
        if refused == 0 {
            self.set.insert(n as usize);
            self.plain.insert(n);
            self.counts.asked[I] += 1;
            self.counts.accepted[I] += 1;
        }
        self.counts.refused[refused as usize] += 1;
        writeln!(self.out, "i {n} {refused}").unwrap();
        self.check(I);
        refused
    }

    fn insert_block(&mut self, start: u64, word: u64) -> u8 {
        let refused = self.block_refused(start, word);
        if refused == 0 {
            if start % 64 == 0 {
                self.set.insert_block(DataBlock::new(start as usize, word));
                self.counts.asked[B] += 1;
            } else {
                self.counts.zero_off_start += 1;
            }
            for k in 0..64 {
                if word >> k & 1 == 1 {
                    self.plain.insert(start + k);
                }
            }
            self.counts.accepted[B] += 1;
        }
        self.counts.refused[refused as usize] += 1;
        writeln!(self.out, "b {start} {word} {refused}").unwrap();
        self.check(B);
        refused
    }

    fn remove(&mut self, n: u64) {
        if n >= CAPACITY {
            self.counts.refused[1] += 1;
            writeln!(self.out, "r {n} 1").unwrap();
        } else {
            let was = self.set.remove(n as usize);
            self.counts.asked[R] += 1;
            writeln!(self.out, "r {n} {}", if was { 'y' } else { 'n' }).unwrap();
            assert_eq!(was, self.plain.remove(&n), "{}", self.out);
        }
        self.check(R);
    }

    fn contains(&mut self, n: u64) {
        let is = if n >= CAPACITY {
            self.counts.past_capacity += 1;
            false
        } else {
            self.counts.asked[C] += 1;
            self.set.contains(n as usize)
        };
        writeln!(self.out, "c {n} {}", if is { 'y' } else { 'n' }).unwrap();
        assert_eq!(is, self.plain.contains(&n), "{}", self.out);
        self.check(C);
    }

    fn used(&mut self) {
        self.counts.asked[U] += 1;
        let (groups, blocks) = (self.groups(), crate_blocks(&self.set));
        writeln!(self.out, "u {groups} {blocks}").unwrap();
        self.check(U);
    }
}

// --------------------------------------------------------- choice of calls

const EDGE_NUMBERS: [u64; 22] = [
    0,
    1,
    63,
    64,
    127,
    128,
    4095,
    4096,
    4159,
    8191,
    8192,
    258047,
    258048,
    262079,
    262080,
    262143,
    262144,
    262145,
    1 << 32,
    (1 << 32) + 63,
    1 << 63,
    u64::MAX,
];

const EDGE_STARTS: [u64; 18] = [
    0,
    1,
    32,
    63,
    64,
    65,
    4032,
    4096,
    258048,
    262016,
    262017,
    262080,
    262081,
    262143,
    262144,
    262208,
    u64::MAX - 63, // the last multiple of 64
    u64::MAX,
];

const EDGE_WORDS: [u64; 4] = [1, 1 << 63, u64::MAX, 1 << 63 | 1];

#[derive(Clone, Copy, PartialEq)]
enum Mode {
    Fill,
    Mix,
    Drain,
}

struct Run<'a> {
    rec: Record<'a>,
    rng: Rng,
    groups: Vec<u64>, // the groups that random numbers come from
    places: Vec<u64>, // the blocks within a group, likewise
    dense: u32,       // how many more words of many bits may be accepted
    mode: Mode,
    in_mode: usize,            // calls in this mode
    pool_refusals: [usize; 2], // 3s and 4s in this mode
    new_group: u64,            // percentage of new groups among new blocks
    noise: u64,                // percentage of calls that are not of the mode
    fill_limit: usize,         // most calls of one filling
    to_remove: Vec<u64>,
}

impl<'a> Run<'a> {
    fn new(rec: Record<'a>, seed: u64) -> Self {
        let mut rng = Rng(seed);
        for _ in 0..8 {
            rng.next();
        }
        let (p, q) = (rec.p as u64, rec.q as u64);
        let group_count = (p + 3 + p / 4).min(64);
        let place_count = (2 * q / group_count + 3).min(64);
        let mut some = |count: u64| {
            let mut list: Vec<u64> = (1..63).collect();
            rng.shuffle(&mut list);
            list.insert(0, 63);
            list.insert(0, 0);
            list.truncate(count as usize);
            list
        };
        let groups = some(group_count);
        let places = some(place_count);
        Run {
            dense: match q {
                0..=5 => q as u32 % 2,
                6..=20 => 1,
                _ => 4,
            },
            new_group: if p == q { 100 } else { 60 },
            noise: match q {
                0..=63 => 25,
                64 => 16,
                256 => 7,
                _ => 20,
            },
            fill_limit: if q > 256 { 50 } else { 2 * rec.q + 30 },
            rec,
            rng,
            groups,
            places,
            mode: Mode::Fill,
            in_mode: 0,
            pool_refusals: [0; 2],
            to_remove: Vec::new(),
        }
    }

    fn present(&mut self) -> Option<u64> {
        let all: Vec<u64> = self.rec.plain.iter().copied().collect();
        if all.is_empty() {
            return None;
        }
        // Over blocks first, so that a dense block is not chosen always.
        let mut blocks: Vec<u64> = all.iter().map(|n| n >> 6).collect();
        blocks.dedup();
        let block = self.rng.pick(&blocks);
        let inside: Vec<u64> = all.into_iter().filter(|n| n >> 6 == block).collect();
        Some(self.rng.pick(&inside))
    }

    fn bit(&mut self) -> u64 {
        match self.rng.below(6) {
            0 => 0,
            1 => 63,
            _ => self.rng.below(64),
        }
    }

    fn any(&mut self) -> u64 {
        let (g, b) = (self.rng.pick(&self.groups), self.rng.pick(&self.places));
        g << 12 | b << 6 | self.bit()
    }

    // A number of a block that is empty so far, if one is soon found.
    fn in_new_block(&mut self) -> u64 {
        let want_group = self.rng.percent(self.new_group);
        let mut n = self.any();
        for _ in 0..60 {
            if !self.rec.has_block(n >> 6) && self.rec.has_group(n >> 12) != want_group {
                break;
            }
            n = self.any();
        }
        n
    }

    fn in_old_block(&mut self) -> u64 {
        match self.present() {
            Some(n) => n & !63 | self.bit(),
            None => self.any(),
        }
    }

    // Something at, or just off, a boundary; or past the capacity.
    fn odd(&mut self) -> u64 {
        let old = self.present().unwrap_or(5);
        match self.rng.below(8) {
            0 => old + CAPACITY,
            1 => old + (1 << 32),
            2 => old | 1 << 63,
            3 => old.wrapping_sub(1).min(CAPACITY),
            4 => old + 1,
            _ => self.rng.pick(&EDGE_NUMBERS),
        }
    }

    fn sparse_word(&mut self) -> u64 {
        let mut word = 1 << self.bit();
        for _ in 0..self.rng.below(4) {
            word |= 1 << self.rng.below(64);
        }
        word
    }

    fn word(&mut self) -> u64 {
        match self.rng.below(10) {
            0 => 0,
            1 => 1,
            2 => 1 << 63,
            3 => u64::MAX,
            4 => self.rng.next(),
            5 => 1 << 63 | 1,
            _ => self.sparse_word(),
        }
    }

    fn after(&mut self, n: u64, refused: u8) {
        if refused >= 3 {
            self.pool_refusals[refused as usize - 3] += 1;
            if self.rng.percent(25) {
                self.rec.contains(n);
            }
            if self.rng.percent(30) {
                self.rec.used();
            }
        }
    }

    fn put(&mut self, n: u64) {
        if self.rng.percent(70) {
            let refused = self.rec.insert(n);
            self.after(n, refused);
        } else {
            let word = self.word();
            self.put_block(n & !63, word);
        }
    }

    fn put_block(&mut self, start: u64, word: u64) {
        let mut word = word;
        if word.count_ones() > 6 && self.rec.block_refused(start, word) == 0 {
            if self.dense == 0 {
                word = self.sparse_word();
            } else {
                self.dense -= 1;
            }
        }
        let refused = self.rec.insert_block(start, word);
        self.after(start + u64::from(word.trailing_zeros() % 64), refused);
    }

    // A call that is not of the mode.
    fn other(&mut self) {
        match self.rng.below(24) {
            0..=5 => self.rec.used(),
            6 | 7 | 20..=22 => {
                let n = self.present().unwrap_or(0);
                self.rec.contains(n);
            }
            8 => {
                let n = self.in_old_block();
                self.rec.contains(n);
            }
            9 => {
                let n = self.any();
                self.rec.contains(n);
            }
            10 | 11 => {
                let n = self.odd();
                self.rec.contains(n);
            }
            12 | 23 => {
                let n = self.odd();
                let refused = self.rec.insert(n);
                self.after(n, refused);
            }
            13 => {
                let n = self.odd();
                self.rec.remove(n);
            }
            14 => {
                let n = if self.rng.percent(50) {
                    self.any()
                } else {
                    self.in_new_block()
                };
                self.rec.remove(n);
            }
            15 => {
                // an index that is there already
                if let Some(n) = self.present() {
                    let refused = self.rec.insert(n);
                    self.after(n, refused);
                } else {
                    self.rec.used();
                }
            }
            16 | 17 => {
                let (start, word) = (self.rng.pick(&EDGE_STARTS), self.word());
                if start < START_END {
                    self.put_block(start, word);
                } else {
                    self.rec.insert_block(start, word);
                }
            }
            18 => {
                // an off start in a known block
                let start = (self.in_old_block() & !63) + 1 + self.rng.below(63);
                let word = self.word();
                self.rec.insert_block(start, word);
            }
            19.. => {
                let (start, word) = (self.any() & !63, 0);
                self.rec.insert_block(start, word);
            }
        }
    }

    fn enter(&mut self, mode: Mode) {
        self.mode = mode;
        self.in_mode = 0;
        self.pool_refusals = [0; 2];
        if mode == Mode::Fill {
            let alike = self.rec.p == self.rec.q;
            self.new_group = self.rng.pick(if alike {
                &[50, 100, 100]
            } else {
                &[20, 50, 90]
            });
            if self.rng.percent(50) && self.rec.q < 64 {
                // other blocks than before
                for i in 2..self.places.len() {
                    self.places[i] = 1 + self.rng.below(62);
                }
            }
        }
        if mode == Mode::Drain {
            let one = self.present().unwrap_or(0);
            let all: Vec<u64> = self.rec.plain.iter().copied().collect();
            // a block, a group, or all
            let few = self.rec.q <= 20;
            let shift = match self.rng.below(10) {
                0 | 1 => 6,
                2 if !few => 6,
                2..=4 => 12,
                5 | 6 if !few => 12,
                _ => 18,
            };
            let most = if few { 90 } else { 40 };
            let mut list: Vec<u64> = Vec::new();
            for shift in [shift, 12, 6] {
                list = all
                    .iter()
                    .copied()
                    .filter(|n| n >> shift == one >> shift)
                    .collect();
                if list.len() <= most {
                    break;
                }
            }
            if list.len() > most {
                // a dense block: leave it and take the smallest one
                let smallest = all
                    .iter()
                    .map(|n| n >> 6)
                    .min_by_key(|b| all.iter().filter(|n| *n >> 6 == *b).count())
                    .unwrap();
                list = all.iter().copied().filter(|n| n >> 6 == smallest).collect();
            }
            self.rng.shuffle(&mut list);
            self.to_remove = list;
        }
    }

    fn step(&mut self) {
        self.in_mode += 1;
        if self.rng.percent(self.noise) {
            self.other();
            return;
        }
        match self.mode {
            Mode::Fill => {
                let old = if self.rec.q == 256 { 3 } else { 20 };
                let n = match self.rng.below(100) {
                    x if x < old => self.in_old_block(),
                    x if x < 3 * old / 2 && self.new_group < 100 => self.any(),
                    _ => self.in_new_block(),
                };
                self.put(n);
                let [three, four] = self.pool_refusals;
                if four >= 2 && three + four >= 4 || self.in_mode > self.fill_limit {
                    let drain = self.rng.percent(70);
                    self.enter(if drain { Mode::Drain } else { Mode::Mix });
                } else if self.in_mode % 8 == 0 && three >= 3 {
                    // the groups are full: now their blocks
                    self.new_group = 5;
                }
            }
            Mode::Mix => {
                if self.rng.percent(50) {
                    let n = if self.rng.percent(50) {
                        self.any()
                    } else {
                        self.in_new_block()
                    };
                    self.put(n);
                } else {
                    let n = match self.present() {
                        Some(n) => n,
                        None => self.any(),
                    };
                    self.rec.remove(n);
                }
                if self.in_mode > 24 {
                    self.enter(Mode::Drain);
                }
            }
            Mode::Drain => match self.to_remove.pop() {
                Some(n) => {
                    self.rec.remove(n);
                    if !self.rec.has_block(n >> 6) && self.rng.percent(40) {
                        self.rec.used();
                    }
                    if self.rng.percent(4) {
                        self.rec.remove(n); // again
                    }
                }
                None => {
                    self.rec.used();
                    // Often more than one part is emptied before the next filling.
                    let more = !self.rec.plain.is_empty() && self.rng.percent(35);
                    self.enter(if more { Mode::Drain } else { Mode::Fill });
                }
            },
        }
    }

    // Every edge, in order; an index that was accepted is read and, by turns,
    // removed.
    fn edges(&mut self, count: usize) {
        for (turn, n) in EDGE_NUMBERS.into_iter().enumerate() {
            let refused = self.rec.insert(n);
            if refused == 0 || turn % 3 == 0 {
                self.rec.contains(n);
            }
            if turn % 2 == 1 {
                self.rec.remove(n);
            }
            if turn % 5 == 4 {
                self.rec.used();
            }
        }
        for (turn, start) in EDGE_STARTS.into_iter().enumerate() {
            self.rec.insert_block(start, 0);
            for i in 0..count {
                self.rec
                    .insert_block(start, EDGE_WORDS[(turn + i) % EDGE_WORDS.len()]);
            }
            if turn % 4 == 3 {
                self.rec.used();
            }
        }
    }
}

fn main() {
    // P, Q, seed, number of calls (or one to two more), and, if not 0: first every
    // edge in order, with so many nonzero words at every start
    let runs: [(usize, usize, u64, usize, usize); 15] = [
        (1, 1, 17, 260, 0),
        (1, 2, 18, 260, 0),
        (2, 3, 19, 280, 0),
        (2, 2, 20, 260, 0),
        (3, 5, 21, 300, 0),
        (4, 4, 22, 280, 0),
        (8, 8, 23, 300, 0),
        (8, 20, 24, 320, 0),
        (16, 64, 25, 398, 0),
        (64, 64, 74, 390, 0),
        (64, 256, 27, 398, 0),
        (64, 4096, 28, 300, 2),
        (0, 0, 29, 120, 1),
        (0, 5, 30, 120, 1),
        (5, 0, 31, 120, 1),
    ];
    let mut out = String::new();
    let mut counts = Counts::default();
    for (p, q, seed, calls, words) in runs {
        let seed = 0x9E37_79B9_7F4A_7C15u64.wrapping_mul(seed);
        let mut run = Run::new(Record::new(p, q, &mut out, &mut counts), seed);
        run.rec.used();
        if words > 0 {
            run.edges(words);
        }
        while run.rec.calls < calls - 1 {
            run.step();
        }
        run.rec.used();
    }
    print!("{out}");
    let names = ["s", "i", "b", "r", "c", "u"];
    eprintln!("lines {}, bytes {}", out.lines().count(), out.len());
    for kind in 0..6 {
        eprintln!(
            "{}: lines {}, given to the crate {}, accepted {}",
            names[kind], counts.lines[kind], counts.asked[kind], counts.accepted[kind]
        );
    }
    eprintln!("refused 1..4: {:?}", &counts.refused[1..]);
    eprintln!(
        "contains past the capacity, not asked: {}",
        counts.past_capacity
    );
    eprintln!(
        "zero word at an off start, not asked: {}",
        counts.zero_off_start
    );
}
