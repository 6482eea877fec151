//! The session program: from the bytes of the input to the bytes of the output, or to the page of the book after it.
use crate::machine::{load, Answer, Book, Carried, Side, Stage, State};
use std::io::Write;

pub(crate) const LARGEST: usize = 65_536;

/// How many arguments each call has, by number; `None` for no call.
fn arguments(number: u64) -> Option<usize> {
    const COUNTS: [usize; 19] = [4, 2, 2, 2, 3, 2, 2, 2, 2, 1, 2, 1, 1, 1, 8, 1, 2, 1, 3];
    COUNTS.get(usize::try_from(number).ok()?).copied()
}

/// The decimal numbers of a line, of which there are at most nine; `None` where the line is not of the form.
pub(crate) fn decimals(line: &[u8], values: &mut [u64; 9]) -> Option<usize> {
    let (&last, body) = line.split_last()?;
    if last != b'\n' {
        return None;
    }
    let mut count = 0;
    for word in body.split(|&c| c == b' ') {
        if word.is_empty() || word.len() > 18 || (word.len() > 1 && word[0] == b'0') || count == 9 {
            return None;
        }
        let mut value = 0u64;
        for &c in word {
            if !c.is_ascii_digit() {
                return None;
            }
            value = value * 10 + (c - b'0') as u64;
        }
        values[count] = value;
        count += 1;
    }
    Some(count)
}

/// The numbers of a line that is a call with just its arguments.
pub(crate) fn numbers(line: &[u8], values: &mut [u64; 9]) -> Option<usize> {
    let count = decimals(line, values)?;
    (arguments(values[0])? + 1 == count).then_some(count)
}

fn stage(s: Stage) -> u64 {
    match s {
        Stage::Paired => 0,
        Stage::Prepaid => 1,
        Stage::Held => 2,
        Stage::Closed => 3,
        Stage::Ended => 4,
        Stage::Funded => 5,
        Stage::Awaiting => 6,
    }
}

fn ledger(book: &Book, out: &mut Vec<u8>) {
    let side = |s: Side| match s {
        Side::Flat => 0,
        Side::Long => 1,
        Side::Short => 2,
    };
    let state = |s: State| match s {
        State::Free => 0,
        State::Frozen(_) => 1,
        State::Struck => 2,
    };
    writeln!(out, "accounts {}", book.accounts.len()).unwrap();
    for (k, a) in book.accounts.iter().enumerate() {
        writeln!(out, "{} {} {} {}", k, a.cash, side(a.side), a.units).unwrap();
    }
    writeln!(out, "receipts {}", book.receipts.len()).unwrap();
    for (i, r) in book.receipts.iter().enumerate() {
        writeln!(out, "{} {} {} {}", i, r.owner, r.bonded as u8, state(r.state)).unwrap();
    }
    writeln!(out, "matches {}", book.matches.len()).unwrap();
    for (j, m) in book.matches.iter().enumerate() {
        writeln!(out, "{} {} {} {} {} {} {}", j, m.buyer, m.seller, m.units, m.price, stage(m.stage), m.held).unwrap();
    }
    writeln!(out, "fund {}", book.fund).unwrap();
}

/// Fen in yuan with two decimals, and a minus sign where due.
fn yuan(cash: i128) -> String {
    let fen = cash.unsigned_abs();
    format!("{}{}.{:02}", if cash < 0 { "-" } else { "" }, fen / 100, fen % 100)
}

/// The ledger page: lines of 40 characters and a newline.
fn ledger_page(book: &Book, out: &mut Vec<u8>) {
    let side = |s: Side| match s {
        Side::Flat => "none",
        Side::Long => "long",
        Side::Short => "short",
    };
    let state = |s: State| match s {
        State::Free => "free",
        State::Frozen(_) => "frozen",
        State::Struck => "struck",
    };
    let mut line = |text: String| writeln!(out, "{:<40}", text).unwrap();
    line(format!("accounts {}", book.accounts.len()));
    for (k, a) in book.accounts.iter().enumerate() {
        line(format!("{:>3}{:>22}{:>7}{:>8}", k, yuan(a.cash), side(a.side), a.units));
    }
    line(format!("receipts {}", book.receipts.len()));
    for (i, r) in book.receipts.iter().enumerate() {
        line(format!("{:>4}{:>4}{:>12}{:>20}", i, r.owner, if r.bonded { "bonded" } else { "ordinary" }, state(r.state)));
    }
    line(format!("matches {}", book.matches.len()));
    for (j, m) in book.matches.iter().enumerate() {
        line(format!("{:>3}{:>3}{:>3}{:>5}{:>8}{:>2}{:>16}", j, m.buyer, m.seller, m.units, m.price, stage(m.stage), m.held));
    }
    line(format!("fund {}", book.fund));
}

/// Runs the lines of a session, with a port's own heat table or none, and hands each answer to `tell`: the book after them, or none where line one is refused.
fn play(heats: Option<&[u64]>, input: &[u8], mut tell: impl FnMut(Answer<Carried>)) -> Option<Book> {
    if input.is_empty() || input.len() > LARGEST {
        tell(Err(26));
        return None;
    }
    let mut lines = input.split_inclusive(|&c| c == b'\n');
    let mut values = [0u64; 9];
    let opened = match lines.next().and_then(|l| numbers(l, &mut values)) {
        Some(5) if values[0] == 0 => Book::open(heats, values[1], values[2], values[3], values[4]),
        _ => Err(26),
    };
    let mut book = match opened {
        Ok(book) => book,
        Err(n) => {
            tell(Err(n));
            return None;
        }
    };
    tell(Ok(Carried::Number(0)));
    for line in lines {
        tell(match numbers(line, &mut values) {
            Some(count) if values[0] != 0 => book.call(values[0], &values[1..count]),
            _ => Err(26),
        });
    }
    Some(book)
}

fn answer_line(answer: Answer<Carried>, out: &mut Vec<u8>) {
    match answer {
        Ok(Carried::Number(n)) => writeln!(out, "ok {}", n).unwrap(),
        Ok(Carried::Closed { pairs, tests, gap }) => writeln!(out, "ok {} {} {}", pairs, tests, gap).unwrap(),
        Err(n) => writeln!(out, "no {}", n).unwrap(),
    }
}

/// The whole output of a session with a heat table; answers how many bytes it has.
fn run_with(heats: Option<&[u64]>, input: &[u8], out: &mut Vec<u8>) -> usize {
    out.clear();
    if let Some(book) = play(heats, input, |answer| answer_line(answer, out)) {
        ledger(&book, out);
    }
    out.len()
}

/// The page of the book after a session with a heat table, or line one's refusal; answers how many bytes it has.
fn page_with(heats: Option<&[u64]>, input: &[u8], out: &mut Vec<u8>) -> usize {
    out.clear();
    let mut first = None;
    match play(heats, input, |answer| {
        first.get_or_insert(answer);
    }) {
        Some(book) => ledger_page(&book, out),
        None => answer_line(first.expect("line one is answered"), out),
    }
    out.len()
}

/// The book after a session, by the printed heat table, or none where line one is refused.
pub fn book(input: &[u8]) -> Option<Book> {
    play(None, input, |_| {})
}

pub fn run(input: &[u8], out: &mut Vec<u8>) -> usize {
    run_with(None, input, out)
}

pub fn page(input: &[u8], out: &mut Vec<u8>) -> usize {
    page_with(None, input, out)
}

/// With the table that is loaded from these bytes, or `no 31` and nothing else.
fn by_table(table: &[u8], out: &mut Vec<u8>, write: impl Fn(Option<&[u64]>, &mut Vec<u8>) -> usize) -> usize {
    match load(table) {
        Ok(heats) => write(Some(&heats), out),
        Err(n) => {
            out.clear();
            answer_line(Err(n), out);
            out.len()
        }
    }
}

pub fn run_by_table(table: &[u8], input: &[u8], out: &mut Vec<u8>) -> usize {
    by_table(table, out, |heats, out| run_with(heats, input, out))
}

pub fn page_by_table(table: &[u8], input: &[u8], out: &mut Vec<u8>) -> usize {
    by_table(table, out, |heats, out| page_with(heats, input, out))
}
