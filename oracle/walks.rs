// Walks with many seeks over the crate's lazy combinations of stored sets, with
// the crate's own answers.
//
// Built against hi_sparse_bitset 0.10.0, config _64bit, debug assertions on
// (edition 2021; only std and the crate). The crate's generic code is compiled
// along with this file, so give both the crate and this file
//   -C debug-assertions=on -C overflow-checks=on
// It takes no argument, writes the list of walks to stdout and its counts to
// stderr. The generator is xorshift64* with fixed seeds, so every run of it
// writes the same list. usize is taken to have 64 bits.
//
// Capacity: 64 * 64 * 64 = 262144. Block of n: n / 64; group of n: n / 4096.
// Operands: four stored sets A, B, C, D (numbers 0 to 3), each with fewer than
// 120 members in at most 60 blocks. Shapes, the combination that is walked:
//    0  A
//    1  Or(A,B)
//    2  And(A,B)
//    3  Xor(A,B)
//    4  Sub(A,B)
//    5  Or(And(A,B),C)
//    6  And(Or(A,B),C)
//    7  Xor(Sub(A,B),C)
//    8  Sub(Xor(A,B),C)
//    9  Sub(Or(A,B),And(B,C))
//   10  Xor(And(A,B),Or(C,D))
//   11  And(Sub(Or(A,B),C),D)
//   12  Or(Xor(And(A,B),C),D)
//   13  Sub(Xor(Or(A,B),And(C,D)),Sub(A,D))
//
// Format: one item a line, fields separated by one space, numbers unsigned
// decimal. Members stand in no order, at most 40 a line.
//   s K N N ...      set K is now a new set with exactly these members
//                    (possibly none)
//   + K N N ...      set K gains these members
//   b SHAPE          a new block walk over the shape, from the start
//   i SHAPE          a new index walk over the shape, from the start
//   m S              the present walk is moved to S
//   n START WORD     the present block walk's next answered this block
//   n INDEX          the present index walk's next answered this index
//   n -              the present walk's next answered that it has ended
// The lines m and n belong to the last b or i line; s and + end that walk.
//
// For every family of sets and every shape: a whole block walk to its end and
// one next more; a whole index walk likewise (over 120 members: the first 40);
// a block walk and an index walk of 25 seeks, each followed by nexts.
//
// What is asserted: every answer of the crate equals that of plain rules over
// BTreeSets. Members: those of the combination. Announced blocks: those of
// either operand for Or and Xor, of both for And, of the left one for Sub. A
// block walk gives the announced blocks in order, empty ones too; an index walk
// gives the members in order. After a seek to s, the block walk goes on from
// the first announced block that ends after s, the index walk from the first
// member >= s; from 262144 on there is nothing.

use hi_sparse_bitset::iter::{BlockCursor, BlockIter, IndexCursor, IndexIter};
use hi_sparse_bitset::{apply, config, ops, BitSet, BitSetInterface};
use std::collections::BTreeSet;
use std::fmt::Write;

type Conf = config::_64bit;
type Set = BitSet<Conf>;

const CAPACITY: u64 = 262144;
const SHAPES: usize = 14;
const SEEKS: usize = 25; // of one walk
const WHOLE: usize = 120; // longest index walk that is whole
const BEGIN: usize = 40; // nexts of an index walk that is not
const PER_LINE: usize = 40;

// ---------------------------------------------------------------- generator

struct Rng(u64);

impl Rng {
    fn new(seed: u64) -> Self {
        let mut rng = Rng(0x9E37_79B9_7F4A_7C15u64.wrapping_mul(seed));
        for _ in 0..8 {
            rng.next();
        }
        rng
    }
    // xorshift64*
    fn next(&mut self) -> u64 {
        self.0 ^= self.0 >> 12;
        self.0 ^= self.0 << 25;
        self.0 ^= self.0 >> 27;
        self.0.wrapping_mul(0x2545_F491_4F6C_DD1D)
    }
    // 0 .. n
    fn below(&mut self, n: u64) -> u64 {
        (self.next() >> 33) % n
    }
    fn percent(&mut self, p: u64) -> bool {
        self.below(100) < p
    }
    fn pick<T: Copy>(&mut self, from: &[T]) -> T {
        from[self.below(from.len() as u64) as usize]
    }
    fn shuffle<T>(&mut self, list: &mut [T]) {
        for i in (1..list.len()).rev() {
            list.swap(i, self.below(i as u64 + 1) as usize);
        }
    }
}

// ---------------------------------------------------- walks over the crate

// An answer: (start, word) of a block, (index, 0) of an index.
type Answer = Option<(u64, u64)>;

trait Walk {
    fn next(&mut self) -> Answer;
    fn seek(&mut self, s: u64);
}

// move_to takes the walk by value and gives it back, hence the Option.
struct Blocks<'a, S: BitSetInterface<Conf = Conf>>(Option<BlockIter<&'a S>>);
struct Indices<'a, S: BitSetInterface<Conf = Conf>>(Option<IndexIter<&'a S>>);

impl<'a, S: BitSetInterface<Conf = Conf>> Walk for Blocks<'a, S> {
    fn next(&mut self) -> Answer {
        let block = self.0.as_mut().unwrap().next()?;
        let (start, word) = block.into_parts();
        Some((start as u64, word))
    }
    fn seek(&mut self, s: u64) {
        let walk = self.0.take().unwrap();
        self.0 = Some(walk.move_to(BlockCursor::from(s as usize)));
    }
}

impl<'a, S: BitSetInterface<Conf = Conf>> Walk for Indices<'a, S> {
    fn next(&mut self) -> Answer {
        let index = self.0.as_mut().unwrap().next()?;
        Some((index as u64, 0))
    }
    fn seek(&mut self, s: u64) {
        let walk = self.0.take().unwrap();
        self.0 = Some(walk.move_to(IndexCursor::from(s as usize)));
    }
}

trait Walked {
    fn blocks(&self) -> Box<dyn Walk + '_>;
    fn indices(&self) -> Box<dyn Walk + '_>;
}

impl<S: BitSetInterface<Conf = Conf>> Walked for S {
    fn blocks(&self) -> Box<dyn Walk + '_> {
        Box::new(Blocks(Some(BitSetInterface::block_iter(self))))
    }
    fn indices(&self) -> Box<dyn Walk + '_> {
        Box::new(Indices(Some(BitSetInterface::iter(self))))
    }
}

fn combine<'a>(shape: usize, sets: &'a [Set; 4]) -> Box<dyn Walked + 'a> {
    use ops::{And, Or, Sub, Xor};
    let [a, b, c, d] = sets;
    match shape {
        0 => Box::new(a),
        1 => Box::new(apply(Or, a, b)),
        2 => Box::new(apply(And, a, b)),
        3 => Box::new(apply(Xor, a, b)),
        4 => Box::new(apply(Sub, a, b)),
        5 => Box::new(apply(Or, apply(And, a, b), c)),
        6 => Box::new(apply(And, apply(Or, a, b), c)),
        7 => Box::new(apply(Xor, apply(Sub, a, b), c)),
        8 => Box::new(apply(Sub, apply(Xor, a, b), c)),
        9 => Box::new(apply(Sub, apply(Or, a, b), apply(And, b, c))),
        10 => Box::new(apply(Xor, apply(And, a, b), apply(Or, c, d))),
        11 => Box::new(apply(And, apply(Sub, apply(Or, a, b), c), d)),
        12 => Box::new(apply(Or, apply(Xor, apply(And, a, b), c), d)),
        13 => Box::new(apply(
            Sub,
            apply(Xor, apply(Or, a, b), apply(And, c, d)),
            apply(Sub, a, d),
        )),
        _ => unreachable!(),
    }
}

// ------------------------------------------------------------- plain rules

#[derive(Clone)]
struct Plain {
    blocks: BTreeSet<u64>, // starts of the announced blocks
    members: BTreeSet<u64>,
}

impl Plain {
    fn new(members: &[u64]) -> Self {
        Plain {
            blocks: members.iter().map(|n| n & !63).collect(),
            members: members.iter().copied().collect(),
        }
    }
    // What a walk gives from its start on.
    fn block_answers(&self) -> Vec<(u64, u64)> {
        let word = |start: u64| {
            let inside = self.members.range(start..start + 64);
            inside.fold(0, |word, n| word | 1 << (n - start))
        };
        self.blocks
            .iter()
            .map(|&start| (start, word(start)))
            .collect()
    }
    fn index_answers(&self) -> Vec<(u64, u64)> {
        self.members.iter().map(|&n| (n, 0)).collect()
    }
}

fn or(l: &Plain, r: &Plain) -> Plain {
    Plain {
        blocks: &l.blocks | &r.blocks,
        members: &l.members | &r.members,
    }
}
fn and(l: &Plain, r: &Plain) -> Plain {
    Plain {
        blocks: &l.blocks & &r.blocks,
        members: &l.members & &r.members,
    }
}
fn xor(l: &Plain, r: &Plain) -> Plain {
    Plain {
        blocks: &l.blocks | &r.blocks,
        members: &l.members ^ &r.members,
    }
}
fn sub(l: &Plain, r: &Plain) -> Plain {
    Plain {
        blocks: l.blocks.clone(),
        members: &l.members - &r.members,
    }
}

fn combine_plain(shape: usize, sets: &[Plain; 4]) -> Plain {
    let [a, b, c, d] = sets;
    match shape {
        0 => a.clone(),
        1 => or(a, b),
        2 => and(a, b),
        3 => xor(a, b),
        4 => sub(a, b),
        5 => or(&and(a, b), c),
        6 => and(&or(a, b), c),
        7 => xor(&sub(a, b), c),
        8 => sub(&xor(a, b), c),
        9 => sub(&or(a, b), &and(b, c)),
        10 => xor(&and(a, b), &or(c, d)),
        11 => and(&sub(&or(a, b), c), d),
        12 => or(&xor(&and(a, b), c), d),
        13 => sub(&xor(&or(a, b), &and(c, d)), &sub(a, d)),
        _ => unreachable!(),
    }
}

// --------------------------------------------------------- sets of a family

// Of every boundary, the numbers at both sides.
const BOUNDARIES: [u64; 16] = [
    0, 63, 64, 127, 128, 4095, 4096, 8191, 8192, 12287, 258047, 258048, 258111, 262079, 262080,
    262143,
];

fn clustered(rng: &mut Rng) -> [Vec<u64>; 4] {
    let mut pool = BOUNDARIES.to_vec();
    for _ in 0..18 {
        let group = rng.pick(&[0, 1, 2, 62, 63]);
        let block = rng.pick(&[0, 1, 31, 62, 63]);
        let some = rng.below(64);
        let bit = rng.pick(&[0, 1, 62, 63, some]);
        pool.push(group << 12 | block << 6 | bit);
    }
    let mut sets: [Vec<u64>; 4] = Default::default();
    for &n in &pool {
        let own = rng.below(4) as usize; // so that every number is in some set
        for (k, set) in sets.iter_mut().enumerate() {
            if k == own || rng.percent(40) {
                set.push(n);
            }
        }
    }
    sets
}

fn scattered(rng: &mut Rng) -> [Vec<u64>; 4] {
    let pool: Vec<u64> = (0..64).map(|_| rng.below(CAPACITY)).collect();
    let mut sets: [Vec<u64>; 4] = Default::default();
    for set in &mut sets {
        for &n in &pool {
            if set.len() < 58 {
                match rng.below(100) {
                    0..=64 => set.push(n),                        // shared
                    65..=79 => set.push(n & !63 | rng.below(64)), // its block is
                    _ => {}
                }
            }
        }
        while set.len() < 58 {
            set.push(rng.below(CAPACITY));
        }
    }
    sets
}

fn dense(rng: &mut Rng) -> [Vec<u64>; 4] {
    let mut sets: [Vec<u64>; 4] = Default::default();
    let mut put = |k: usize, group: u64, block: u64, word: u64| {
        let bits = (0..64).filter(|bit| word >> bit & 1 == 1);
        sets[k].extend(bits.map(|bit| group << 12 | block << 6 | bit));
    };
    let even = 0x5555_5555_5555_5555;

    // whole words: one that A and B share, and of which C and D have parts; the
    // last block; one that A has parts of
    put(0, 3, 7, u64::MAX);
    put(1, 3, 7, u64::MAX);
    put(2, 3, 7, 0xFF << 28);
    put(3, 3, 7, 1 << 63 | 1);
    put(2, 63, 63, u64::MAX);
    put(0, 63, 63, 1 << 63);
    put(3, 40, 20, u64::MAX);
    put(0, 40, 20, even & 0xFFFF);
    // the first block
    put(0, 0, 0, 3);
    put(1, 0, 0, 1 << 63 | 2);
    put(3, 0, 0, 1);
    // groups that only one set has
    for k in 0..4 {
        for _ in 0..2 {
            put(k, 10 + k as u64, rng.below(64), 1 << rng.below(64));
        }
        put(k, 50 + k as u64, 63, 1);
    }
    // groups that two sets share, with no common block
    for (group, l, r) in [(20, 0, 1), (21, 2, 3), (22, 0, 2), (23, 1, 3)] {
        for turn in 0..2 {
            let block = 2 * (rng.below(8) + 16 * turn);
            put(l, group, block, 1 << rng.below(64));
            put(r, group, block + 1, 1 << rng.below(64));
        }
    }
    // blocks that two sets share, with no common member
    for (group, l, r) in [(30, 0, 1), (31, 2, 3), (32, 0, 2), (33, 0, 3), (34, 1, 2)] {
        for turn in 0..2 {
            let (block, bit) = (rng.below(32) + 32 * turn, rng.below(62));
            put(l, group, block, 1 << bit);
            put(r, group, block, 2 << bit);
        }
    }
    // blocks that all sets share, with some common members
    for block in [0, 21, 62, 63] {
        let common = 1 << rng.below(64);
        for k in 0..4 {
            put(k, 41, block, common | 1 << rng.below(64));
        }
    }
    sets
}

fn families() -> Vec<[Vec<u64>; 4]> {
    let mut families = vec![
        [vec![5, 70], vec![5, 70], vec![], vec![5]],
        [
            vec![5, 200, 5000],
            vec![200, 201, 4999],
            vec![5, 70, 5000],
            vec![5, 201, 262143],
        ],
        clustered(&mut Rng::new(3)),
        scattered(&mut Rng::new(4)),
        dense(&mut Rng::new(5)),
    ];
    let mut rng = Rng::new(6);
    for sets in &mut families {
        for set in sets {
            set.sort();
            set.dedup();
            let mut blocks: Vec<u64> = set.iter().map(|n| n >> 6).collect();
            blocks.dedup();
            assert!(set.len() < 120 && blocks.len() <= 60);
            assert!(set.iter().all(|&n| n < CAPACITY));
            rng.shuffle(set);
        }
    }
    families
}

// ------------------------------------------------------------------ record

#[derive(Default)]
struct Counts {
    lines: [usize; 7],  // by kind: s + b i m, n of a block walk, n of an index walk
    ended: [usize; 2],  // answers of a block, an index walk that it has ended
    empty: usize,       // answers with an empty word
    forward: usize,     // seeks past the last answer
    back: usize,        // seeks not past it
    fresh: usize,       // seeks of a walk that has not answered yet
    from_end: usize,    // seeks of a walk that has ended
    past: usize,        // seeks to 262144 or more
    inside: [usize; 2], // seeks of a block, an index walk into an announced block, not to its start
}

const S: usize = 0;
const PLUS: usize = 1;
const B: usize = 2;
const I: usize = 3;
const M: usize = 4;
const N: usize = 5;

struct Out {
    text: String,
    counts: Counts,
}

impl Out {
    fn set(&mut self, k: usize, members: &[u64]) {
        let mut rest = members;
        let mut kind = S;
        loop {
            let (line, after) = rest.split_at(rest.len().min(PER_LINE));
            write!(self.text, "{} {k}", if kind == S { 's' } else { '+' }).unwrap();
            for n in line {
                write!(self.text, " {n}").unwrap();
            }
            self.text.push('\n');
            self.counts.lines[kind] += 1;
            if after.is_empty() {
                break;
            }
            rest = after;
            kind = PLUS;
        }
    }
}

// A walk of the crate, and beside it the plain answers.
struct Present<'a> {
    out: &'a mut Out,
    kind: usize, // B or I
    shape: usize,
    walk: Box<dyn Walk + 'a>,
    answers: Vec<(u64, u64)>, // all, in order
    at: usize,                // which of them comes next
    last: Answer,
    begun: bool,
    ended: bool,
}

impl<'a> Present<'a> {
    fn new(
        out: &'a mut Out,
        kind: usize,
        shape: usize,
        walked: &'a dyn Walked,
        plain: &Plain,
    ) -> Self {
        writeln!(out.text, "{} {shape}", if kind == B { 'b' } else { 'i' }).unwrap();
        out.counts.lines[kind] += 1;
        Present {
            out,
            kind,
            shape,
            walk: if kind == B {
                walked.blocks()
            } else {
                walked.indices()
            },
            answers: if kind == B {
                plain.block_answers()
            } else {
                plain.index_answers()
            },
            at: 0,
            last: None,
            begun: false,
            ended: false,
        }
    }

    fn next(&mut self) {
        let answer = self.walk.next();
        match answer {
            Some((start, word)) if self.kind == B => {
                writeln!(self.out.text, "n {start} {word}").unwrap();
                self.out.counts.empty += usize::from(word == 0);
            }
            Some((index, _)) => writeln!(self.out.text, "n {index}").unwrap(),
            None => {
                writeln!(self.out.text, "n -").unwrap();
                self.out.counts.ended[self.kind - B] += 1;
            }
        }
        self.out.counts.lines[N + self.kind - B] += 1;
        assert_eq!(
            answer,
            self.answers.get(self.at).copied(),
            "shape {}: crate, plain; after\n{}",
            self.shape,
            self.out.text
        );
        self.at = self.answers.len().min(self.at + 1);
        self.begun = true;
        self.ended = answer.is_none();
        if answer.is_some() {
            self.last = answer;
        }
    }

    fn seek(&mut self, s: u64) {
        let counts = &mut self.out.counts;
        counts.fresh += usize::from(!self.begun);
        counts.from_end += usize::from(self.ended);
        counts.past += usize::from(s >= CAPACITY);
        if let Some((last, _)) = self.last {
            let end = last + if self.kind == B { 63 } else { 0 };
            counts.forward += usize::from(s > end);
            counts.back += usize::from(s <= end);
        }
        counts.lines[M] += 1;
        writeln!(self.out.text, "m {s}").unwrap();
        self.walk.seek(s);
        let length = if self.kind == B { 64 } else { 1 };
        self.at = self.answers.partition_point(|&(n, _)| n + length <= s);
        self.begun = true;
    }
}

// -------------------------------------------------------- choice of seeks

const PAST: [u64; 7] = [
    262144,
    262145,
    u64::MAX,
    262144 + 64,
    1 << 32,
    1 << 63,
    u64::MAX - 63,
];

#[derive(Clone, Copy, PartialEq)]
enum Action {
    Any,
    To(u64),
    Inside, // of a block
    End,    // to the last answer, and on until the walk has ended
}

struct Places {
    stored: Vec<u64>,  // members of the operands
    members: Vec<u64>, // of the combination; else of the operands
    blocks: Vec<u64>,  // announced ones; else of the operands
}

impl Places {
    fn new(plain: &Plain, operands: &[Plain; 4]) -> Self {
        let all = operands[1..]
            .iter()
            .fold(operands[0].clone(), |l, r| or(&l, r));
        let listed = |set: &BTreeSet<u64>, instead: &BTreeSet<u64>| -> Vec<u64> {
            let from = if set.is_empty() { instead } else { set };
            from.iter().copied().collect()
        };
        Places {
            stored: all.members.iter().copied().collect(),
            members: listed(&plain.members, &all.members),
            blocks: listed(&plain.blocks, &all.blocks),
        }
    }

    // Not the start of a block; best between two members of it.
    fn inside(&self, rng: &mut Rng) -> u64 {
        let pairs: Vec<u64> = self
            .members
            .windows(2)
            .filter(|pair| pair[0] >> 6 == pair[1] >> 6)
            .map(|pair| pair[0] + 1)
            .collect();
        if pairs.is_empty() || rng.percent(30) {
            rng.pick(&self.blocks) + 1 + rng.below(63)
        } else {
            rng.pick(&pairs)
        }
    }

    fn any(&self, rng: &mut Rng, last: Answer) -> u64 {
        let member = rng.pick(&self.members);
        let stored = rng.pick(&self.stored);
        let block = rng.pick(&self.blocks);
        let last = last.map_or(stored, |(n, _)| n);
        match rng.below(30) {
            0..=3 => member,
            4 | 5 => member.saturating_sub(1),
            6 | 7 => member + 1,
            8 => stored,
            9 => stored.saturating_sub(1),
            10 => stored + 1,
            11 | 12 => block,
            13 => block.saturating_sub(1),
            14 => block + 63,
            15 | 16 => block + 64,
            17 | 18 => self.inside(rng),
            19 => stored & !4095,
            20 => (stored & !4095).saturating_sub(1),
            21 => stored | 4095,
            22 => (stored | 4095) + 1,
            23 => last,
            24 => last + 1,
            25 => last + 64,
            26 => rng.pick(&BOUNDARIES),
            27 => rng.below(CAPACITY),
            28 => last.saturating_sub(1 + rng.below(200)),
            _ => match rng.below(5) {
                0 => member + CAPACITY,
                1 => member + (1 << 32),
                2 => member | 1 << 63,
                _ => rng.pick(&PAST),
            },
        }
    }
}

// To the end, and one next more; or, of a long index walk, the beginning.
fn whole(mut walk: Present) {
    if walk.kind == I && walk.answers.len() > WHOLE {
        for _ in 0..BEGIN {
            walk.next();
        }
    } else {
        while !walk.ended {
            walk.next();
        }
        walk.next();
    }
}

fn seeks(mut walk: Present, places: &Places, turn: usize, rng: &mut Rng) {
    // Some actions come in every walk, at places of their own.
    let mut plan = [Action::Any; SEEKS];
    let mut slots: Vec<usize> = (2..SEEKS - 1).collect();
    rng.shuffle(&mut slots);
    let fixed = [
        Action::To(0),
        Action::To(CAPACITY - 1),
        Action::To(PAST[turn % PAST.len()]),
        Action::Inside,
        Action::End,
    ];
    for (slot, action) in slots.into_iter().zip(fixed) {
        plan[slot] = action;
    }
    match turn % 4 {
        0 => plan[0] = Action::To(PAST[turn / 4 % 3]), // past everything at once, then back
        1 => {
            for _ in 0..=rng.below(3) {
                walk.next();
            }
        }
        _ => {} // a seek before the first next
    }
    if turn % 8 == 0 {
        plan[1] = Action::To(0);
    }
    for action in plan {
        let s = match action {
            Action::Any => places.any(rng, walk.last),
            Action::To(s) => s,
            Action::Inside => places.inside(rng),
            Action::End => walk.answers.last().map_or(0, |&(n, _)| n),
        };
        if s % 64 != 0 && places.blocks.contains(&(s & !63)) {
            walk.out.counts.inside[walk.kind - B] += 1;
        }
        walk.seek(s);
        for _ in 0..=rng.below(3) {
            walk.next();
        }
        if action == Action::End {
            while !walk.ended {
                walk.next();
            }
            walk.next();
        }
    }
}

fn main() {
    let mut out = Out {
        text: String::new(),
        counts: Counts::default(),
    };
    let mut rng = Rng::new(7);
    for (family, lists) in families().iter().enumerate() {
        for (k, members) in lists.iter().enumerate() {
            out.set(k, members);
        }
        let sets = [0, 1, 2, 3].map(|k| -> Set { lists[k].iter().map(|&n| n as usize).collect() });
        let operands = [0, 1, 2, 3].map(|k| Plain::new(&lists[k]));
        for shape in 0..SHAPES {
            let walked = combine(shape, &sets);
            let plain = combine_plain(shape, &operands);
            assert!(plain
                .members
                .iter()
                .all(|n| plain.blocks.contains(&(n & !63))));
            let places = Places::new(&plain, &operands);

            let turn = family * SHAPES + shape;
            whole(Present::new(&mut out, B, shape, &*walked, &plain));
            whole(Present::new(&mut out, I, shape, &*walked, &plain));
            let walk = Present::new(&mut out, B, shape, &*walked, &plain);
            seeks(walk, &places, turn, &mut rng);
            let walk = Present::new(&mut out, I, shape, &*walked, &plain);
            seeks(walk, &places, turn + 2, &mut rng);
        }
    }
    print!("{}", out.text);

    let counts = &out.counts;
    let lines = out.text.lines().count();
    assert_eq!(lines, counts.lines.iter().sum::<usize>());
    eprintln!("lines {lines}, bytes {}", out.text.len());
    let names = ["s", "+", "b", "i", "m", "n of b", "n of i"];
    for (name, count) in names.iter().zip(counts.lines) {
        eprintln!("{name}: {count}");
    }
    eprintln!("answers that the walk has ended: {:?} (b, i)", counts.ended);
    eprintln!("answers with an empty word: {}", counts.empty);
    eprintln!(
        "seeks: forward {}, back {}, before the first next {}, after the end {}, \
         to 262144 or more {}, inside an announced block {:?} (b, i)",
        counts.forward, counts.back, counts.fresh, counts.from_end, counts.past, counts.inside
    );
}
