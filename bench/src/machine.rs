//! The machine: a book and its eighteen calls, changed in place.

use crate::passes::{later_passes, walk, Later, Pair, Units};
use std::cmp::Ordering;

#[derive(Clone, Copy, PartialEq, Eq)]
pub enum Side {
    Flat,
    Long,
    Short,
}

#[derive(Clone, Copy, PartialEq, Eq)]
pub enum State {
    Free,
    Frozen(usize),
    Struck,
}

#[derive(Clone, Copy, PartialEq, Eq)]
pub enum Stage {
    Paired,
    Prepaid,
    Held,
    Closed,
    Ended,
    Funded,
    Awaiting,
}

/// An opening day with its units (document 02, Job 5).
#[derive(Clone, Copy, Default, PartialEq)]
pub struct Lot {
    pub day: u64,
    pub units: u64,
}

#[derive(Clone, PartialEq)]
pub struct Account {
    pub overseas: bool,
    pub fit: bool,
    pub cash: i128,
    pub side: Side,
    pub units: u64,
    /// The first `lot_count` are in use, the oldest first.
    pub lots: [Lot; 4],
    pub lot_count: usize,
    pub heat: Option<u64>,
    pub offer: Option<u64>,
}

impl Account {
    fn needs_fifth_day(&self, day: u64) -> bool {
        self.lot_count == 4 && self.lots[3].day != day
    }

    fn add_units(&mut self, units: u64, day: u64) {
        let n = self.lot_count;
        if n == 0 || self.lots[n - 1].day != day {
            self.lots[n] = Lot { day, units: 0 };
            self.lot_count = n + 1;
        }
        self.lots[self.lot_count - 1].units += units;
        self.units += units;
    }

    /// The oldest lots are used up first; one at 0 units goes.
    fn use_up(&mut self, units: u64) {
        let mut left = units;
        let mut gone = 0;
        for lot in self.lots[..self.lot_count].iter_mut() {
            let part = left.min(lot.units);
            lot.units -= part;
            left -= part;
            if lot.units == 0 {
                gone += 1;
            }
        }
        self.lots.copy_within(gone.., 0);
        self.lot_count -= gone;
        self.units -= units;
        if self.units == 0 {
            self.side = Side::Flat;
        }
    }
}

#[derive(Clone, PartialEq)]
pub struct Receipt {
    pub owner: usize,
    pub bonded: bool,
    pub state: State,
}

/// A vessel of a match: its due kilograms and its amount (document 02, Job 11).
#[derive(Clone, PartialEq)]
pub struct Vessel {
    pub due: u64,
    pub amount: u128,
}

#[derive(Clone, PartialEq)]
pub struct Match {
    pub buyer: usize,
    pub seller: usize,
    pub units: u64,
    pub price: u64,
    pub due: u64,
    pub heat: Option<u64>,
    pub held: u128,
    pub stage: Stage,
    /// The vessels recorded.
    pub vessels: Vec<Vessel>,
}

#[derive(Clone, PartialEq)]
pub struct Book {
    pub board: bool,
    pub tonnes: u64,
    pub rate: u64,
    pub heats: Option<Vec<u64>>,
    pub price: u64,
    pub day: u64,
    pub open: bool,
    pub fund: u128,
    pub deposited: u128,
    pub accounts: Vec<Account>,
    pub receipts: Vec<Receipt>,
    pub matches: Vec<Match>,
}

/// What an accepted call carries: a number, or of Close "pairs made, tests made and a gap" (document 02, Job 13).
#[derive(Clone, Copy, PartialEq, Eq)]
pub enum Carried {
    Number(u64),
    Closed { pairs: u64, tests: u64, gap: u64 },
}

/// What an accepted call carries, or the number of the refusal.
pub type Answer<T = u64> = Result<T, u64>;

fn half_up(n: u128, d: u128) -> u128 {
    (2 * n + d) / (2 * d)
}

/// To nearest; an exact half to the even one (document 02, Job 3).
fn half_even(n: u128, d: u128) -> u128 {
    let down = n / d;
    match (2 * (n % d)).cmp(&d) {
        Ordering::Less => down,
        Ordering::Greater => down + 1,
        Ordering::Equal if down % 2 == 0 => down,
        Ordering::Equal => down + 1,
    }
}

fn percent_down(percent: u64, n: u128) -> u128 {
    n * percent as u128 / 100
}

fn percent_half_up(percent: u64, n: u128) -> u128 {
    half_up(n * percent as u128, 100)
}

/// Coal price, steps 1 to 5: step 2 rounds an exact half to even, and step 5 takes 80% once, if volatiles or ash are outside (document 02, Jobs 3 and 8). With a port's own heat table step 2 is by its entry from 4,300 on (Job 10).
#[allow(clippy::too_many_arguments)]
pub fn coal_price(heats: Option<&[u64]>, p: u64, h: u64, q: u64, s: u64, f: u64, a: u64) -> u128 {
    let mut e = if q >= h + 300 { h + 300 } else { q };
    if e > 6_000 {
        e = 6_000;
    }
    let n = p as u128 * e as u128;
    let mut x = match e {
        4_300.. if heats.is_some() => half_even(p as u128 * heats.unwrap()[e as usize - 4_300] as u128, 4_950_000_000),
        5_300.. => half_even(n, 5_500),
        4_800.. => half_even(n * 8_768, 50_000_000),
        4_300.. => half_even(n * 7_687, 45_000_000),
        _ => half_even(n * 7_687, 90_000_000),
    };
    if q + 300 < h {
        x = x.saturating_sub(500);
    }
    let counted = s.min(150);
    if counted > 80 {
        x = x.saturating_sub(400 * ((counted - 80 + 5) / 10) as u128);
    }
    if s > 250 {
        x = percent_half_up(50, x);
    } else if s > 150 {
        x = percent_half_up(80, x);
    }
    if !(3_000..=4_200).contains(&f) || a > 3_000 {
        x = percent_half_up(80, x);
    }
    x
}

/// The numerator of a heat from 4,300 on, over 4,950,000,000 (document 02, Job 9). `coal_price` is by the bands, so that the proved price, which is looked up, is compared with them.
pub fn numerator(heat: u64) -> u64 {
    match heat {
        5_300.. => heat * 900_000,
        4_800.. => heat * 868_032,
        _ => heat * 845_570,
    }
}

/// The heat table as it is printed: heats 4,300 to 6,000, one decimal number to a line, lowest heat first.
pub fn heat_table() -> String {
    (4_300..=6_000).map(|heat| format!("{}\n", numerator(heat))).collect()
}

/// A port's own heat table: 8-byte numbers, most significant byte first, the count 1,701 and then the entries; or 31 (document 02, Job 10).
pub fn load(bytes: &[u8]) -> Result<Vec<u64>, u64> {
    no(bytes.len() != 8 * 1_702, 31)?;
    let numbers: Vec<u64> = bytes.chunks(8).map(|word| word.iter().fold(0, |n, &byte| n << 8 | byte as u64)).collect();
    let (count, entries) = numbers.split_first().expect("1,702 numbers");
    no(*count != 1_701, 31)?;
    no(entries.iter().any(|entry| !(1..=5_400_000_000).contains(entry)), 31)?;
    no(entries.windows(2).any(|pair| pair[1] < pair[0]), 31)?;
    Ok(entries.to_vec())
}

/// The weight that is paid for, and the kilograms over: those above D + 500,000, before moisture (document 02, Job 2).
pub fn coal_weight(d: u64, w: u64, m: u64) -> (u128, u64) {
    let least = d.saturating_sub(500_000);
    let mut x = if w < least {
        (2 * w).saturating_sub(least)
    } else if w > d + 500_000 {
        d + 500_000
    } else {
        w
    } as u128;
    if m > 2_500 {
        let k = (m - 2_500 + 5) / 10;
        x = half_up(x * 1_000u64.saturating_sub(k) as u128, 1_000);
    }
    (x, w.saturating_sub(d + 500_000))
}

pub(crate) fn no(condition: bool, number: u64) -> Result<(), u64> {
    if condition {
        Err(number)
    } else {
        Ok(())
    }
}

impl Book {
    /// With a port's own heat table, or none: it keeps the one it was opened with.
    pub fn open(heats: Option<&[u64]>, kind: u64, tonnes: u64, rate: u64, price: u64) -> Result<Book, u64> {
        no(kind > 1, 1)?;
        no(!(1..=20_000).contains(&tonnes), 1)?;
        no(rate > 100, 1)?;
        no(!(1..=1_000_000).contains(&price), 1)?;
        Ok(Book {
            board: kind == 1,
            tonnes,
            rate,
            heats: heats.map(<[u64]>::to_vec),
            price,
            day: 0,
            open: true,
            fund: 0,
            deposited: 0,
            accounts: Vec::new(),
            receipts: Vec::new(),
            matches: Vec::new(),
        })
    }

    /// One call: its number, then its arguments.
    pub fn call(&mut self, number: u64, a: &[u64]) -> Answer<Carried> {
        let n = match number {
            1 => self.join(a[0], a[1]),
            2 => self.deposit(a[0], a[1]),
            3 => self.withdraw(a[0], a[1]),
            4 => self.trade(a[0], a[1], a[2]),
            5 => self.lodge(a[0], a[1]),
            6 => self.strike(a[0], a[1]),
            7 => self.declare(a[0], a[1]),
            8 => self.offer(a[0], a[1]),
            9 => self.retract(a[0]),
            10 => self.take(a[0], a[1]),
            11 => self.next_day(a[0]),
            12 => return self.close(a[0]),
            13 => self.pay_match(a[0]),
            14 => self.measure(a[0], a[1], a[2], a[3], a[4], a[5], a[6], a[7]),
            15 => self.invoice(a[0]),
            16 => self.terminate(a[0], a[1]),
            17 => self.hand_over(a[0]),
            _ => self.auction(a[0], a[1], a[2]),
        }?;
        Ok(Carried::Number(n))
    }

    fn account(&self, k: u64) -> Result<usize, u64> {
        no(k >= self.accounts.len() as u64, 6)?;
        Ok(k as usize)
    }

    fn match_number(&self, j: u64) -> Result<usize, u64> {
        no(j >= self.matches.len() as u64, 21)?;
        Ok(j as usize)
    }

    fn is_free(r: &Receipt, owner: usize, bonded_only: bool) -> bool {
        r.owner == owner && r.state == State::Free && (r.bonded || !bonded_only)
    }

    fn free_receipts(&self, owner: usize, bonded_only: bool) -> u64 {
        self.receipts.iter().filter(|r| Self::is_free(r, owner, bonded_only)).count() as u64
    }

    fn value(&self, j: usize) -> u128 {
        let m = &self.matches[j];
        m.units as u128 * m.price as u128 * self.tonnes as u128
    }

    fn pay(&mut self, k: usize, x: u128) {
        self.accounts[k].cash += x as i128;
    }

    fn charge(&mut self, k: usize, x: u128) {
        self.accounts[k].cash -= x as i128;
    }

    fn join(&mut self, residence: u64, fitness: u64) -> Answer {
        no(self.accounts.len() >= 32, 3)?;
        no(residence > 1 || fitness > 1, 8)?;
        self.accounts.push(Account {
            overseas: residence == 1,
            fit: fitness == 1,
            cash: 0,
            side: Side::Flat,
            units: 0,
            lots: [Lot::default(); 4],
            lot_count: 0,
            heat: None,
            offer: None,
        });
        Ok(self.accounts.len() as u64 - 1)
    }

    fn deposit(&mut self, k: u64, x: u64) -> Answer {
        let k = self.account(k)?;
        no(!(1..=1_000_000_000_000_000).contains(&x), 8)?;
        no(self.deposited + x as u128 > 100_000_000_000_000_000, 25)?;
        self.deposited += x as u128;
        self.pay(k, x as u128);
        Ok(0)
    }

    fn withdraw(&mut self, k: u64, x: u64) -> Answer {
        let k = self.account(k)?;
        no(!(1..=1_000_000_000_000_000).contains(&x), 8)?;
        no(x as i128 > self.accounts[k].cash, 11)?;
        self.charge(k, x as u128);
        Ok(0)
    }

    fn trade(&mut self, buyer: u64, seller: u64, units: u64) -> Answer {
        no(!self.open, 5)?;
        let (i, j) = (self.account(buyer)?, self.account(seller)?);
        no(i == j, 7)?;
        no(!(1..=1_000).contains(&units), 8)?;
        no(self.accounts[i].side == Side::Short || self.accounts[j].side == Side::Long, 9)?;
        no(self.accounts[i].units + units > 1_000 || self.accounts[j].units + units > 1_000, 10)?;
        let day = self.day;
        no(self.accounts[i].needs_fifth_day(day) || self.accounts[j].needs_fifth_day(day), 28)?;
        for (k, side) in [(i, Side::Long), (j, Side::Short)] {
            let a = &mut self.accounts[k];
            a.add_units(units, day);
            a.side = side;
        }
        Ok(0)
    }

    fn lodge(&mut self, owner: u64, class: u64) -> Answer {
        no(self.board, 4)?;
        let owner = self.account(owner)?;
        no(class > 1, 8)?;
        no(self.receipts.len() >= 256, 16)?;
        self.receipts.push(Receipt { owner, bonded: class == 1, state: State::Free });
        Ok(self.receipts.len() as u64 - 1)
    }

    fn strike(&mut self, owner: u64, receipt: u64) -> Answer {
        no(self.board, 4)?;
        let owner = self.account(owner)?;
        no(receipt >= self.receipts.len() as u64, 17)?;
        let r = &mut self.receipts[receipt as usize];
        no(r.owner != owner || r.state == State::Struck, 17)?;
        no(r.state != State::Free, 18)?;
        r.state = State::Struck;
        Ok(0)
    }

    fn declare(&mut self, k: u64, heat: u64) -> Answer {
        no(!self.board, 4)?;
        let k = self.account(k)?;
        no(!(4_300..=10_000).contains(&heat), 8)?;
        self.accounts[k].heat = Some(heat);
        Ok(0)
    }

    fn offer(&mut self, seller: u64, units: u64) -> Answer {
        no(!self.open, 5)?;
        let k = self.account(seller)?;
        no(!(1..=1_000).contains(&units), 8)?;
        let a = &self.accounts[k];
        no(a.offer.is_some(), 12)?;
        no(units > if a.side == Side::Short { a.units } else { 0 }, 14)?;
        no(!self.board && units > self.free_receipts(k, false), 15)?;
        no(self.board && self.accounts[k].heat.is_none(), 19)?;
        self.accounts[k].offer = Some(units);
        Ok(0)
    }

    fn retract(&mut self, seller: u64) -> Answer {
        no(!self.open, 5)?;
        let k = self.account(seller)?;
        no(self.accounts[k].offer.is_none(), 13)?;
        self.accounts[k].offer = None;
        Ok(0)
    }

    fn take(&mut self, buyer: u64, seller: u64) -> Answer {
        no(!self.open, 5)?;
        let (i, j) = (self.account(buyer)?, self.account(seller)?);
        no(i == j, 7)?;
        let units = self.accounts[j].offer.ok_or(13u64)?;
        let a = &self.accounts[i];
        no(units > if a.side == Side::Long { a.units } else { 0 }, 14)?;
        no(!self.board && units > self.free_receipts(j, false), 15)?;
        no(self.matches.len() >= 64, 20)?;
        self.pair(i, j, units, 2, false);
        self.accounts[j].offer = None;
        Ok(self.matches.len() as u64 - 1)
    }

    fn pair(&mut self, buyer: usize, seller: usize, units: u64, days: u64, bonded_only: bool) {
        let number = self.matches.len();
        self.matches.push(Match {
            buyer,
            seller,
            units,
            price: self.price,
            due: self.day + days,
            heat: self.accounts[seller].heat,
            held: 0,
            stage: Stage::Paired,
            vessels: Vec::new(),
        });
        for k in [buyer, seller] {
            self.accounts[k].use_up(units);
        }
        if !self.board {
            let mut left = units;
            for r in self.receipts.iter_mut() {
                if left == 0 {
                    break;
                }
                if Self::is_free(r, seller, bonded_only) {
                    r.state = State::Frozen(number);
                    left -= 1;
                }
            }
        }
    }

    fn next_day(&mut self, price: u64) -> Answer {
        no(!(1..=1_000_000).contains(&price), 1)?;
        no(self.day >= 1_000, 2)?;
        self.day += 1;
        self.price = price;
        Ok(self.day)
    }

    fn on_side(&self, side: Side) -> Vec<Units> {
        let of = |k: usize| (k, self.accounts[k].units);
        (0..self.accounts.len()).filter(|&k| self.accounts[k].side == side).map(of).collect()
    }

    /// The overseas buyers' lots, "by day, then account number".
    fn overseas_lots(&self) -> Vec<Units> {
        let mut lots = Vec::new();
        for (k, a) in self.accounts.iter().enumerate() {
            if a.overseas && a.side == Side::Long {
                lots.extend(a.lots[..a.lot_count].iter().map(|lot| (lot.day, k, lot.units)));
            }
        }
        lots.sort();
        lots.iter().map(|&(_, k, units)| (k, units)).collect()
    }

    fn first_pass(&self) -> Vec<Pair> {
        let mut sellers = self.on_side(Side::Short);
        for s in sellers.iter_mut() {
            s.1 = s.1.min(self.free_receipts(s.0, true));
        }
        sellers.retain(|s| s.1 > 0);
        // "neighbouring units of one pair still make one match"
        let mut joined: Vec<Pair> = Vec::new();
        for (buyer, seller, units) in walk(self.overseas_lots(), sellers) {
            match joined.last_mut() {
                Some(last) if last.0 == buyer && last.1 == seller => last.2 += units,
                _ => joined.push((buyer, seller, units)),
            }
        }
        joined
    }

    /// "pairs are those made after the first pass" (document 02, Job 13).
    fn close(&mut self, budget: u64) -> Answer<Carried> {
        no(!self.open, 5)?;
        no(budget > 1_023, 8)?;
        if !self.board {
            for (buyer, seller, units) in self.first_pass() {
                self.pair(buyer, seller, units, 1, true);
            }
        }
        let Later { pairs, tests, gap } = later_passes(self.on_side(Side::Long), self.on_side(Side::Short), budget);
        for &(buyer, seller, units) in &pairs {
            self.pair(buyer, seller, units, 1, false);
        }
        for a in self.accounts.iter_mut() {
            a.offer = None;
        }
        self.open = false;
        Ok(Carried::Closed { pairs: pairs.len() as u64, tests, gap })
    }

    /// By the percent of the buyer's fault and of the seller's.
    fn punish(&mut self, j: usize, buyer_fault: Option<u64>, seller_fault: Option<u64>) {
        let v = self.value(j);
        let (buyer, seller) = (self.matches[j].buyer, self.matches[j].seller);
        match (buyer_fault, seller_fault) {
            (None, None) => {}
            (Some(x), None) => {
                self.charge(buyer, percent_down(x, v));
                self.pay(seller, percent_down(x, v));
            }
            (None, Some(y)) => {
                self.charge(seller, percent_down(y, v));
                self.pay(buyer, percent_down(y, v));
            }
            (Some(x), Some(y)) => {
                self.charge(buyer, percent_down(x, v));
                self.charge(seller, percent_down(y, v));
                self.fund += percent_down(x, v) + percent_down(y, v);
            }
        }
    }

    /// The percent of the buyer's fault and of the seller's.
    pub fn faults(&self, j: usize) -> (Option<u64>, Option<u64>) {
        let m = &self.matches[j];
        let frozen = self.receipts.iter().filter(|r| r.state == State::Frozen(j)).count() as u64;
        let lacking = if self.board { m.heat.is_none() } else { frozen < m.units };
        let poor = self.accounts[m.buyer].cash < self.value(j) as i128;
        let fault = |fit: bool, failed: bool| match (fit, failed) {
            (false, _) => Some(10),
            (true, true) => Some(self.rate),
            (true, false) => None,
        };
        (fault(self.accounts[m.buyer].fit, poor), fault(self.accounts[m.seller].fit, lacking))
    }

    /// Document 02, Job 6: faults are judged here, and V is held from here on.
    fn pay_match(&mut self, j: u64) -> Answer {
        let j = self.match_number(j)?;
        no(self.matches[j].stage != Stage::Paired, 22)?;
        no(self.day < self.matches[j].due, 23)?;
        let v = self.value(j);
        let buyer = self.matches[j].buyer;
        let (buyer_fault, seller_fault) = self.faults(j);
        if buyer_fault.is_some() || seller_fault.is_some() {
            self.punish(j, buyer_fault, seller_fault);
            self.matches[j].stage = Stage::Ended;
            for r in self.receipts.iter_mut().filter(|r| r.state == State::Frozen(j)) {
                r.state = State::Free;
            }
            return Ok(0);
        }
        self.charge(buyer, v);
        self.matches[j].held = v;
        let ordinary = self.receipts.iter().any(|r| r.state == State::Frozen(j) && !r.bonded);
        self.matches[j].stage = match (self.board, self.accounts[buyer].overseas && ordinary) {
            (true, _) => Stage::Prepaid,
            (false, true) => Stage::Awaiting,
            (false, false) => Stage::Funded,
        };
        Ok(0)
    }

    /// A match is loaded on up to eight vessels; it "stays prepaid until the dues add up to D; then B, the sum, is paid" (document 02, Job 11).
    #[allow(clippy::too_many_arguments)]
    fn measure(&mut self, j: u64, w: u64, q: u64, m: u64, s: u64, f: u64, a: u64, due: u64) -> Answer {
        no(!self.board, 4)?;
        let j = self.match_number(j)?;
        no(self.matches[j].stage != Stage::Prepaid, 22)?;
        no(w > 40_000_000_000 || [q, m, s, f, a].iter().any(|&x| x > 10_000), 24)?;
        let v = self.value(j);
        let x = &mut self.matches[j];
        let d = (x.units * self.tonnes * 1_000) as u128;
        let dues = x.vessels.iter().map(|vessel| vessel.due as u128).sum::<u128>() + due as u128;
        no(due == 0 || dues > d || (x.vessels.len() == 7 && dues < d), 32)?;
        let price = coal_price(self.heats.as_deref(), x.price, x.heat.unwrap_or(0), q, s, f, a);
        let (weight, over) = coal_weight(due, w, m);
        x.vessels.push(Vessel { due, amount: half_up(price * weight, 1_000) });
        if dues == d {
            let amount = x.vessels.iter().map(|vessel| vessel.amount).sum();
            let part = percent_down(80, amount);
            x.held = amount - part;
            x.stage = Stage::Held;
            let (buyer, seller) = (x.buyer, x.seller);
            self.pay(buyer, v);
            self.charge(buyer, amount);
            self.pay(seller, part);
        }
        Ok(over)
    }

    fn invoice(&mut self, j: u64) -> Answer {
        let j = self.match_number(j)?;
        no(self.matches[j].stage != Stage::Held, 22)?;
        let (seller, held) = (self.matches[j].seller, self.matches[j].held);
        self.pay(seller, held);
        self.matches[j].held = 0;
        self.matches[j].stage = Stage::Closed;
        Ok(0)
    }

    fn terminate(&mut self, j: u64, party: u64) -> Answer {
        no(!self.board, 4)?;
        no(party > 2, 8)?;
        let j = self.match_number(j)?;
        no(self.matches[j].stage != Stage::Prepaid, 22)?;
        let v = self.value(j);
        self.pay(self.matches[j].buyer, v);
        let fault = |named: bool| if named { Some(self.rate) } else { None };
        let (buyer_fault, seller_fault) = (fault(party != 1), fault(party != 0));
        self.punish(j, buyer_fault, seller_fault);
        // "Terminate after a first vessel drops the vessels recorded"
        self.matches[j].vessels.clear();
        self.matches[j].held = 0;
        self.matches[j].stage = Stage::Ended;
        Ok(0)
    }

    fn hand_over(&mut self, j: u64) -> Answer {
        let j = self.match_number(j)?;
        no(self.matches[j].stage != Stage::Funded, 22)?;
        let v = self.value(j);
        self.deliver(j, v, self.matches[j].buyer);
        Ok(0)
    }

    /// The seller gets 80% of V, the rest is held, and the receipts are `taker`'s, free.
    fn deliver(&mut self, j: usize, v: u128, taker: usize) {
        let part = percent_down(80, v);
        self.pay(self.matches[j].seller, part);
        self.matches[j].held = v - part;
        self.matches[j].stage = Stage::Held;
        for r in self.receipts.iter_mut().filter(|r| r.state == State::Frozen(j)) {
            r.state = State::Free;
            r.owner = taker;
        }
    }

    fn auction(&mut self, j: u64, winner: u64, proceeds: u64) -> Answer {
        let winner = self.account(winner)?;
        no(proceeds > 1_000_000_000_000_000, 8)?;
        let j = self.match_number(j)?;
        no(self.matches[j].stage != Stage::Awaiting, 22)?;
        no(proceeds > 0 && self.accounts[winner].overseas, 29)?;
        no(proceeds > 0 && self.accounts[winner].cash < proceeds as i128, 30)?;
        let v = self.value(j);
        let (buyer, seller) = (self.matches[j].buyer, self.matches[j].seller);
        if proceeds > 0 {
            self.charge(winner, proceeds as u128);
            self.pay(buyer, proceeds as u128);
            self.deliver(j, v, winner);
        } else {
            let part = percent_down(20, v);
            self.pay(buyer, v);
            self.charge(buyer, part);
            self.pay(seller, part);
            self.matches[j].held = 0;
            self.matches[j].stage = Stage::Ended;
            for r in self.receipts.iter_mut().filter(|r| r.state == State::Frozen(j)) {
                r.state = State::Free;
            }
        }
        Ok(0)
    }
}
