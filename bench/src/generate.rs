//! Sessions, and lists of a factory's calls, made from a seed: mostly sensible calls, with wrong ones and damaged lines mixed in.
use crate::factory::Factory;
use crate::machine::{Book, Stage};
use crate::passes::walk;

pub struct Random(u64);

impl Random {
    pub fn new(seed: u64) -> Random {
        Random(seed.wrapping_mul(0x9E37_79B9_7F4A_7C15) ^ 0xD1B5_4A32_D192_ED03)
    }

    pub fn next(&mut self) -> u64 {
        self.0 ^= self.0 << 13;
        self.0 ^= self.0 >> 7;
        self.0 ^= self.0 << 17;
        self.0.wrapping_mul(0x2545_F491_4F6C_DD1D)
    }

    /// A number below `n`.
    pub fn below(&mut self, n: u64) -> u64 {
        (self.next() >> 16) % n
    }

    fn chance(&mut self, percent: u64) -> bool {
        self.below(100) < percent
    }

    fn pick(&mut self, values: &[u64]) -> u64 {
        values[self.below(values.len() as u64) as usize]
    }
}

fn amount(r: &mut Random) -> u64 {
    match r.below(6) {
        0 => r.pick(&[0, 1, 999_999_999_999_999, 1_000_000_000_000_000, 1_000_000_000_000_001]),
        1 => r.below(1_000),
        _ => r.below(100_000_000_000),
    }
}

fn units(r: &mut Random) -> u64 {
    match r.below(12) {
        0 => r.pick(&[0, 1, 999, 1_000, 1_001]),
        1 => r.below(300),
        _ => 1 + r.below(6),
    }
}

fn near(r: &mut Random, limits: &[u64]) -> u64 {
    let x = r.pick(limits);
    match r.below(3) {
        0 => x.saturating_sub(1),
        1 => x,
        _ => x + 1,
    }
}

/// A price; now and then one that meets heats at which step 2 of the coal price is an exact half, or one at which steps 3 and 4 come just to 0.
fn price(r: &mut Random) -> u64 {
    match r.below(20) {
        0 => r.pick(&[0, 1, 1_000_000, 1_000_001]),
        1..=6 => r.pick(&[2_750, 8_250, 90_750, 3_125, 9_375, 5_000, 15_000, 11_250, 33_750, 225_000]),
        7..=9 => near(r, &[400, 500, 2_800, 3_300]),
        _ => 1 + r.below(1_000_000),
    }
}

/// An account's number, now and then one that is not there.
fn number(r: &mut Random, accounts: u64) -> u64 {
    let beyond = if r.chance(2) { 2 } else { 0 };
    r.below(accounts + beyond)
}

/// A budget of Close, now and then one out of its range.
fn budget(r: &mut Random) -> u64 {
    match r.below(12) {
        0 => r.pick(&[1_024, 1_025, 9_999, 999_999_999_999_999_999]),
        1 => r.pick(&[1, 2, 1_022]),
        2 | 3 => 0,
        4 | 5 => r.below(64),
        6..=8 => r.below(1_024),
        _ => 1_023,
    }
}

/// A vessel's due kilograms: what the vessels before it left of match `j`, or in `parts` of 100 a part of that; now and then none, too many, or those of some units.
fn due(r: &mut Random, book: &Book, j: u64, parts: u64) -> u64 {
    let of_units = |units: u64| units * book.tonnes * 1_000;
    let left = book.matches.get(j as usize).map_or(of_units(1), |m| of_units(m.units) - m.vessels.iter().map(|vessel| vessel.due).sum::<u64>());
    match r.below(12) {
        0 => r.pick(&[0, left + 1, (1 << 32) + left, 999_999_999_999_999_999]),
        1 => of_units(1 + r.below(6)),
        _ if r.chance(parts) => if r.chance(50) { left / (2 + r.below(7)) } else { r.below(left + 1) },
        _ => left,
    }
}

/// A cargo, weighed and measured: W, Q, M, S, F and A.
fn cargo(r: &mut Random, due: u64) -> [u64; 6] {
    let due = due.min(20_000_000_000);
    [
        match r.below(4) {
            0 => near(r, &[19_500_000, 20_000_000, 20_500_000, 40_000_000_000]),
            1 => near(r, &[due.saturating_sub(500_000), due, due + 500_000]),
            _ => r.below(100_000_000),
        },
        if r.chance(60) { 3_500 + r.below(4_000) } else { near(r, &[4_000, 4_300, 4_500, 4_800, 4_875, 5_300, 5_302, 5_499, 5_500, 6_000, 10_000]) },
        if r.chance(50) { r.below(10_001) } else { near(r, &[2_500, 2_505, 2_632, 10_000]) },
        if r.chance(50) { r.below(400) } else { near(r, &[80, 85, 150, 250, 10_000]) },
        if r.chance(50) { r.below(10_001) } else { near(r, &[3_000, 4_200, 10_000]) },
        if r.chance(50) { r.below(10_001) } else { near(r, &[3_000, 10_000]) },
    ]
}

/// A Measure of match `j`: `14 match W Q M S F A due`.
fn measure(r: &mut Random, book: &Book, j: u64, parts: u64) -> Vec<u64> {
    let due = due(r, book, j, parts);
    [&[14, j], &cargo(r, due)[..], &[due]].concat()
}

/// One call of a session over `accounts` accounts, which has led to this book; `late` is how far the session has come, in percent.
fn call(r: &mut Random, book: &Book, accounts: u64, late: u64) -> Vec<u64> {
    let board = book.board;
    let k = number(r, accounts);
    let l = number(r, accounts);
    let j = if r.chance(90) { r.below(1 + late * accounts / 40 + 4) } else { r.below(130) };
    let kind = match r.below(100) {
        x if late < 60 => match x {
            0..=4 => 1,
            5..=19 => 2,
            20..=22 => 3,
            23..=44 => 4,
            45..=56 => if board { 7 } else { 5 },
            57..=59 => 11,
            60..=62 => 6,
            63..=74 => 8,
            75..=77 => 9,
            78..=88 => 10,
            89..=91 => 11,
            92..=93 => 13,
            94 => 17,
            95 => 14,
            96 => 15,
            97 => if board == r.chance(90) { 16 } else { 18 },
            98 => if late > 40 { 12 } else { 4 },
            _ => if board { 5 } else { 7 },
        },
        x => match x {
            0..=4 => 12,
            5..=19 => 11,
            20..=49 => 13,
            50..=51 => 17,
            52..=59 => if board { 13 } else { 17 },
            60..=69 => if board { 14 } else { 17 },
            70..=82 => 15,
            83..=89 => if board == r.chance(90) { 16 } else { 18 },
            90..=93 => 2,
            94..=95 => 3,
            96..=97 => 6,
            _ => 4,
        },
    };
    let mut c = vec![kind];
    match kind {
        1 => c.extend([r.below(2), if r.chance(85) { 1 } else { r.below(3) }]),
        2 | 3 => c.extend([k, amount(r)]),
        4 => c.extend([k, l, units(r)]),
        5 => c.extend([k, if r.chance(95) { r.below(2) } else { 2 }]),
        6 => c.extend([k, r.below(40)]),
        7 => c.extend([k, if r.chance(80) { 4_300 + r.below(3_000) } else { near(r, &[4_300, 10_000]) }]),
        8 => c.extend([k, units(r)]),
        9 => c.push(k),
        10 => c.extend([k, l]),
        11 => c.push(price(r)),
        12 => c.push(budget(r)),
        13 | 15 | 17 => c.push(j),
        18 => c.extend([j, k, if r.chance(30) { 0 } else { amount(r) }]),
        14 => return measure(r, book, j, 20),
        _ => {
            let parties = if r.chance(95) { 3 } else { 5 };
            c.extend([j, r.below(parties)]);
        }
    }
    c
}

fn write_line(out: &mut Vec<u8>, values: &[u64]) {
    for (n, v) in values.iter().enumerate() {
        if n > 0 {
            out.push(b' ');
        }
        out.extend_from_slice(v.to_string().as_bytes());
    }
    out.push(b'\n');
}

/// A session's lines so far, and the book after them.
struct Written {
    text: Vec<u8>,
    book: Book,
}

impl Written {
    fn open(kind: u64, tonnes: u64, rate: u64, price: u64) -> Written {
        let mut text = Vec::new();
        write_line(&mut text, &[0, kind, tonnes, rate, price]);
        Written { text, book: Book::open(None, kind, tonnes, rate, price).expect("in range") }
    }

    fn write(&mut self, call: &[u64]) {
        write_line(&mut self.text, call);
        let _ = self.book.call(call[0], &call[1..]);
    }
}

/// A session of `calls` calls from a seed, without damage.
pub fn session(seed: u64, calls: usize) -> Vec<u8> {
    let mut r = Random::new(seed);
    let board = r.chance(40);
    let tonnes = if board && r.chance(70) { 20_000 } else { 1 + r.below(20_000) };
    let mut written = Written::open(board as u64, tonnes, r.below(101), 1 + r.below(1_000_000));
    let accounts = 2 + r.below(31);
    for n in 0..calls {
        let c = if (n as u64) < accounts {
            let fit = r.chance(85) as u64;
            vec![1, r.below(2), fit]
        } else {
            call(&mut r, &written.book, accounts, n as u64 * 100 / calls as u64)
        };
        written.write(&c);
    }
    written.text
}

/// A call of a session of short lines: numbers of one digit, but for matches and heats.
fn short_call(r: &mut Random, board: bool, accounts: u64, late: u64) -> Vec<u64> {
    let k = r.below(accounts);
    let l = r.below(accounts);
    let small = 1 + r.below(9);
    let j = r.below(1 + late / 2);
    match (r.below(100), late < 60) {
        (0..=19, true) | (75..=89, false) => vec![2, k, small],
        (20..=24, true) | (90..=96, false) => vec![3, k, small],
        (25..=39, true) => vec![4, k, l, small],
        (40..=51, true) => if board { vec![7, k, 5_000] } else { vec![5, k, r.below(2)] },
        (52..=54, true) => vec![6, k, small],
        (55..=64, true) => vec![8, k, small],
        (65..=67, true) => vec![9, k],
        (68..=77, true) => vec![10, k, l],
        (78..=87, true) | (0..=14, false) => vec![11, small],
        (88..=94, true) | (15..=44, false) => vec![13, j],
        (45..=64, false) => vec![17, j],
        (65..=69, false) => vec![18, j, k, if r.chance(30) { 0 } else { small }],
        (70..=74, false) => vec![15, j],
        (97..=99, false) => vec![12, r.pick(&[0, 9, 99, 999, 1_023, 1_024])],
        _ => vec![15, j],
    }
}

/// A session of short lines from a seed: 10,000 calls are within 65,536 bytes.
pub fn short_session(seed: u64, calls: usize) -> Vec<u8> {
    let mut r = Random::new(seed);
    let board = r.chance(40);
    let mut out = Vec::new();
    write_line(&mut out, &[0, board as u64, 5, 20, 9]);
    let accounts = 2 + r.below(8);
    for n in 0..calls {
        if (n as u64) < accounts {
            write_line(&mut out, &[1, r.below(2), 1]);
        } else {
            let c = short_call(&mut r, board, accounts, n as u64 * 100 / calls as u64);
            write_line(&mut out, &c);
        }
    }
    out
}

/// A coal port's session from a seed, of at most `calls` calls and mostly of Measures: up to 60 matches, three at a time loaded on one vessel to eight.
pub fn vessels(seed: u64, calls: usize) -> Vec<u8> {
    let mut r = Random::new(seed);
    let tonnes = match r.below(4) {
        0 => 1 + r.below(20),
        1 => 1 + r.below(20_000),
        _ => 20_000,
    };
    let mut written = Written::open(1, tonnes, r.below(101), 1 + r.below(1_000_000));
    let mut first = vec![vec![1, r.below(2), 1], vec![1, r.below(2), 1], vec![2, 0, 1_000_000_000_000_000], vec![4, 0, 1, 1_000]];
    let matches = 1 + r.below((calls as u64 / 12).clamp(1, 60));
    for _ in 0..matches {
        let (heat, units, price) = (4_300 + r.below(3_000), 1 + r.below(1_000 / matches), 1 + r.below(1_000_000));
        first.extend([vec![7, 1, heat], vec![8, 1, units], vec![10, 0, 1], vec![11, price]]);
    }
    first.push(vec![11, 1]);
    for c in first.iter().take(calls) {
        written.write(c);
    }
    let parts = 10 + r.below(80);
    for _ in first.len()..calls {
        let book = &written.book;
        let open = |&j: &usize| !matches!(book.matches[j].stage, Stage::Closed | Stage::Ended);
        let front: Vec<usize> = (0..book.matches.len()).filter(open).take(3).collect();
        if front.is_empty() {
            break;
        }
        let place = front[r.below(front.len() as u64) as usize];
        let j = place as u64;
        let c = match (r.below(100), book.matches[place].stage) {
            (0..=7, _) => call(&mut r, book, 2, 100),
            (8..=10, Stage::Prepaid) => vec![16, j, r.below(3)],
            (11..=90, Stage::Held) => vec![15, j],
            (_, Stage::Paired) => vec![13, j],
            _ => measure(&mut r, book, j, parts),
        };
        written.write(&c);
    }
    written.text
}

/// A session of clearing staff from a seed, of at most `calls` calls: up to 16 buyers and as many sellers, some unfit or short of cash, receipts or a declared heat, whose matches are then paid and handed over in any order.
pub fn clerks(seed: u64, calls: usize) -> Vec<u8> {
    let mut r = Random::new(seed);
    let board = r.chance(30);
    let (tonnes, price) = (1 + r.below(20), 1 + r.below(1_000));
    let mut written = Written::open(board as u64, tonnes, r.below(101), price);
    let sides = 2 + r.below((calls as u64 / 15).clamp(1, 15));
    let mut first: Vec<Vec<u64>> = (0..2 * sides).map(|_| vec![1, r.below(2), r.chance(85) as u64]).collect();
    for _ in 0..sides + r.below(2 * sides) {
        let (buyer, seller, units) = (2 * r.below(sides), 2 * r.below(sides) + 1, 1 + r.below(3));
        let value = units * price * tonnes;
        first.extend([vec![4, buyer, seller, units], vec![2, buyer, r.pick(&[1, value - 1, value, value, 2 * value])]]);
        if board {
            first.extend(r.chance(80).then(|| vec![7, seller, 5_000]));
        } else {
            let lodged = units - r.chance(20) as u64;
            first.extend((0..lodged).map(|_| vec![5, seller, r.below(2)]));
        }
        first.extend([vec![8, seller, units], vec![10, buyer, seller]].into_iter().filter(|_| r.chance(80)));
    }
    first.extend([vec![12, budget(&mut r)], vec![11, price], vec![11, price]].into_iter().filter(|_| r.chance(80)));
    for c in first.iter().take(calls) {
        written.write(c);
    }
    for _ in first.len()..calls {
        let matches = &written.book.matches;
        let open = |&j: &usize| matches!(matches[j].stage, Stage::Paired | Stage::Funded);
        let open: Vec<usize> = (0..matches.len()).filter(open).collect();
        if open.is_empty() {
            break;
        }
        let place = open[r.below(open.len() as u64) as usize];
        let c = match (r.below(100), matches[place].stage) {
            (0..=7, _) => call(&mut r, &written.book, 2 * sides, 100),
            (8..=11, _) => vec![11, price],
            (12..=15, _) => vec![13 + 4 * r.below(2), r.below(matches.len() as u64 + 1)],
            (16..=90, Stage::Funded) | (91..=99, Stage::Paired) => vec![17, place as u64],
            _ => vec![13, place as u64],
        };
        written.write(&c);
    }
    written.text
}

/// Units for `n` accounts, each with whether it is long: groups of one account against some of the other side, with up to `most` units each, that have as many together; in `long` groups of 100 the one is long.
fn groups(r: &mut Random, n: u64, most: u64, long: u64) -> Vec<(bool, u64)> {
    let (mut units, mut left) = (Vec::new(), n);
    while left > 0 {
        let size = if left < 6 { left } else { 3 + r.below(3.min(left - 5)) };
        let others: Vec<u64> = (1..size).map(|_| 1 + r.below(most)).collect();
        let one_long = r.chance(long);
        units.push((one_long, others.iter().sum()));
        units.extend(others.iter().map(|&x| (!one_long, x)));
        left -= size;
    }
    units
}

/// A session from a seed, of at most `calls` calls, for Close's passes after the first: two to fourteen accounts long or short, mostly by few units, in groups that make balanced masks, and up to three with none; in a receipts book overseas buyers and bonded receipts, with which the first pass takes some away.
pub fn few(seed: u64, calls: usize) -> Vec<u8> {
    let mut r = Random::new(seed);
    let board = r.chance(50);
    let mut written = Written::open(board as u64, 1 + r.below(20), r.below(101), 1 + r.below(1_000));
    let remaining = (if r.chance(60) { 6 + r.below(5) } else { 2 + r.below(13) }).min(2 + calls as u64 / 6);
    let (most, long) = (r.pick(&[1, 3, 4, 9, 40, 200]), r.pick(&[0, 50, 100]));
    let sides = groups(&mut r, remaining, most, long);
    let mut numbers: Vec<u64> = (0..remaining + r.below(4)).collect();
    for k in 1..numbers.len() {
        numbers.swap(k, r.below(k as u64 + 1) as usize);
    }
    let mut first: Vec<Vec<u64>> = numbers.iter().map(|_| vec![1, r.below(2), r.chance(85) as u64]).collect();
    let on_side = |is_long: bool| sides.iter().zip(&numbers).filter(|x| x.0 .0 == is_long).map(|(&(_, units), &k)| (k as usize, units)).collect();
    for (buyer, seller, units) in walk(on_side(true), on_side(false)) {
        first.push(vec![4, buyer as u64, seller as u64, units]);
        let lodged = if board || r.chance(60) { 0 } else { r.below(units.min(6) + 2) };
        first.extend((0..lodged).map(|_| vec![5, seller as u64, r.chance(80) as u64]));
        first.extend(r.chance(5).then(|| vec![11, 1 + r.below(1_000)]));
    }
    let last = (1 << remaining.min(10)) - 1;
    let tests = match r.below(10) {
        0 | 1 => near(&mut r, &[last]),
        2..=5 => budget(&mut r),
        _ => 1_023,
    };
    first.extend([vec![12, tests], vec![12, 1_023], vec![11, 1 + r.below(1_000)]]);
    for c in first.iter().take(calls) {
        written.write(c);
    }
    for _ in first.len()..calls {
        let c = call(&mut r, &written.book, remaining, 100);
        written.write(&c);
    }
    written.text
}

/// A coal port's session in which a cargo of one tonne is measured at this heat, at this price: its 12 lines are accepted.
pub fn measured(heat: u64, price: u64) -> Vec<u8> {
    format!("0 1 1 20 {price}\n1 0 1\n1 0 1\n2 0 1000000\n7 1 5800\n4 0 1 1\n8 1 1\n10 0 1\n11 1\n11 1\n13 0\n14 0 1000 {heat} 0 0 3500 1000 1000\n").into_bytes()
}

/// A number out of every range of a factory, in whose lowest bits is `x`.
fn wide(r: &mut Random, x: u64) -> u64 {
    r.pick(&[1 << 10, 1 << 16, 1 << 32, 1 << 58]) + x
}

/// A factory's daily units, small or large; in a short list now and then out of range.
fn daily(r: &mut Random, short: bool) -> u64 {
    match r.below(20) {
        0 | 1 if short => r.pick(&[0, 1_001, 999_999_999_999_999_999]),
        2 if short => wide(r, 5),
        3 => r.pick(&[1, 999, 1_000]),
        4..=9 => 1 + r.below(1_000),
        10..=14 => 1 + r.below(100),
        _ => 1 + r.below(12),
    }
}

/// What an arriving holder has to collect: mostly up to `most`, now and then out of range.
fn claim(r: &mut Random, most: u64) -> u64 {
    match r.below(40) {
        0 | 1 => near(r, &[1_000]),
        2 => wide(r, most),
        3..=5 => r.below(2),
        _ => r.below(most + 1),
    }
}

/// A leaver's place, now and then an empty one.
fn place(r: &mut Random, holders: u64) -> u64 {
    match r.below(20) {
        0 => near(r, &[holders, 32]),
        1 => wide(r, 0),
        _ => r.below(holders.max(1)),
    }
}

/// Lines of numbers that are no calls on a factory.
const NO_CALLS: [&[u64]; 10] = [&[0, 5], &[0], &[1], &[1, 5, 5], &[2], &[2, 0, 0], &[3, 0], &[4], &[4, 0], &[1 << 32 | 3]];

/// One call on a factory which has mostly `aim` holders, that claim up to `most`.
fn factory_call(r: &mut Random, factory: &Factory, aim: u64, most: u64) -> Vec<u64> {
    let holders = factory.holders.len() as u64;
    let (arrivals, leavers) = if holders < aim { (45, 10) } else { (10, 30) };
    match r.below(100) {
        0 => NO_CALLS[r.below(10) as usize].to_vec(),
        x if x <= arrivals => vec![1, claim(r, most)],
        x if x <= arrivals + leavers => vec![2, place(r, holders)],
        _ => vec![3],
    }
}

/// A list of a factory's calls from a seed: line one and then so many calls, now and then days in a row, mostly until nobody waits. Where line one is refused, the calls are for the nearest factory.
pub fn factory_list(seed: u64, calls: usize) -> Vec<u8> {
    let mut r = Random::new(seed);
    let daily = daily(&mut r, calls < 50);
    let mut out = Vec::new();
    write_line(&mut out, &[0, daily]);
    let mut factory = Factory::new(daily.clamp(1, 1_000)).expect("in range");
    let (aim, most) = (r.pick(&[1, 2, 5, 12, 31, 32]), r.pick(&[2, 30, 200, 1_000]));
    let mut in_a_row = false;
    for _ in 0..calls {
        let waits = factory.holders.iter().any(|&left| left > 0);
        in_a_row = waits && r.chance(if in_a_row { 95 } else { 3 });
        let c = if in_a_row { vec![3] } else { factory_call(&mut r, &factory, aim, most) };
        write_line(&mut out, &c);
        let _ = factory.call(&c);
    }
    out
}

/// Damage: bytes changed, put in, taken out, lines blanked or cut, the end lost.
pub fn damage(r: &mut Random, text: &mut Vec<u8>) {
    for _ in 0..1 + r.below(8) {
        if text.is_empty() {
            return;
        }
        let at = r.below(text.len() as u64) as usize;
        let byte = *b"0123456789 \n-+\r\t00x\xff".get(r.below(20) as usize).unwrap();
        match r.below(6) {
            0 => text[at] = byte,
            1 => text.insert(at, byte),
            2 => {
                text.remove(at);
            }
            3 => text.truncate(at),
            4 => text.insert(at, b'\n'),
            _ => {
                let digits = b"1234567890123456789".iter().take(17 + r.below(3) as usize).copied();
                text.splice(at..at, digits);
            }
        }
    }
}

/// The bytes of a heat table, most significant byte first.
fn table_bytes(count: u64, entries: &[u64]) -> Vec<u8> {
    std::iter::once(&count).chain(entries).flat_map(|n| n.to_be_bytes()).collect()
}

/// The greatest entry of a heat table.
const MOST: u64 = 5_400_000_000;

/// The entries of a port's own heat table.
fn entries(r: &mut Random) -> Vec<u64> {
    let mut entries: Vec<u64> = match r.below(6) {
        0 => (4_300..=6_000).map(crate::machine::numerator).collect(),
        1 => vec![r.pick(&[1, 2_475_000_000, 4_950_000_000, MOST]); 1_701],
        2 => (0..1_701).map(|k| 1 + k * r.pick(&[1, 3_000_000])).map(|x| x.min(MOST)).collect(),
        _ => (0..1_701).map(|_| 1 + r.below(MOST)).collect(),
    };
    entries.sort();
    entries
}

pub fn own_table(r: &mut Random) -> Vec<u8> {
    table_bytes(1_701, &entries(r))
}

/// A port's own heat table, one in three of them broken: in its count, its length, an entry out of range or two that fall.
pub fn heat_table(r: &mut Random) -> Vec<u8> {
    let mut entries = entries(r);
    if r.chance(67) {
        return table_bytes(1_701, &entries);
    }
    let place = r.pick(&[0, 1, 2, 850, 1_699, 1_700]) as usize;
    match r.below(8) {
        0 => table_bytes(r.pick(&[0, 1_700, 1_702, 1_701 << 56, (1 << 32) + 1_701]), &entries),
        1 => table_bytes(1_701, &entries[1..]),
        2 => table_bytes(1_701, &[entries, vec![MOST]].concat()),
        3 => {
            let mut bytes = table_bytes(1_701, &entries);
            bytes.pop();
            bytes
        }
        4 => {
            let mut bytes = table_bytes(1_701, &entries);
            bytes.push(0);
            bytes
        }
        5 => {
            entries[place] = r.pick(&[0, MOST + 1, 1 << 32 | MOST, u64::MAX]);
            table_bytes(1_701, &entries)
        }
        6 => {
            // equal ones stay in order
            let other = (place + 1) % 1_701;
            entries.swap(place, other);
            table_bytes(1_701, &entries)
        }
        _ => entries.iter().flat_map(|n| n.to_le_bytes()).collect(),
    }
}
