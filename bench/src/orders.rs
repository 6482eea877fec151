//! Settling in either order (document 02, Job 12): Pay and Hand over of matches with no account in common.
use crate::machine::{Answer, Book, Carried, Stage};
use crate::session::numbers;
use std::collections::BTreeMap;
use std::fmt;

const PAY: u64 = 13;
const HAND_OVER: u64 = 17;

/// Whether no account is buyer or seller of both; a number that is no match has none.
fn apart(book: &Book, i: u64, j: u64) -> bool {
    match (book.matches.get(i as usize), book.matches.get(j as usize)) {
        (Some(m), Some(n)) => ![m.buyer, m.seller].iter().any(|k| [n.buyer, n.seller].contains(k)),
        _ => true,
    }
}

/// What an accepted call does with match `j`.
fn kind(book: &Book, number: u64, j: usize, after: &Book) -> &'static str {
    let fit = |k: usize| book.accounts[k].fit;
    let m = &book.matches[j];
    match book.faults(j) {
        _ if number == HAND_OVER => "handed over",
        (None, None) if after.matches[j].stage == Stage::Awaiting => "to auction",
        (None, None) => "without fault",
        (Some(_), None) => if fit(m.buyer) { "buyer short of cash" } else { "buyer unfit" },
        (None, Some(_)) => if fit(m.seller) { "seller short of receipts or heat" } else { "seller unfit" },
        (Some(_), Some(_)) => "both at fault",
    }
}

/// A call on a book: its answer, its kind where it is accepted, and the book after it, where that is another.
struct Settling {
    number: u64,
    i: u64,
    answer: Answer<Carried>,
    kind: Option<&'static str>,
    after: Option<Book>,
}

impl Settling {
    fn new(book: &Book, number: u64, i: u64) -> Settling {
        let mut after = book.clone();
        let answer = after.call(number, &[i]);
        let kind = answer.is_ok().then(|| kind(book, number, i as usize, &after));
        Settling { number, i, answer, kind, after: (after != *book).then_some(after) }
    }
}

/// Whether each of two calls on a book answers after the other as before it, and both orders leave the same book.
fn agree(book: &Book, a: &Settling, b: &Settling) -> bool {
    if a.after.is_none() && b.after.is_none() {
        return true; // each finds the book as it was
    }
    let [mut one, mut other] = [a, b].map(|first| first.after.as_ref().unwrap_or(book).clone());
    one.call(b.number, &[b.i]) == b.answer && other.call(a.number, &[a.i]) == a.answer && one == other
}

/// The pairs that were tried, and of those with both calls accepted how many had one of each kind.
#[derive(Default)]
pub struct Tried {
    books: usize,
    pairs: usize,
    accepted: usize,
    kinds: BTreeMap<&'static str, usize>,
}

impl fmt::Display for Tried {
    fn fmt(&self, f: &mut fmt::Formatter) -> fmt::Result {
        let kinds: Vec<String> = self.kinds.iter().map(|(kind, count)| format!("{count} {kind}")).collect();
        write!(f, "{} pairs on {} plain books, {} with a refusal and {} with both accepted ({})", self.pairs, self.books, self.pairs - self.accepted, self.accepted, kinds.join(", "))
    }
}

impl Tried {
    /// Tries every two calls on a book, of each two numbers up to the first that is no match, with no account in common; names two that do not agree.
    pub fn orders(&mut self, book: &Book) -> Result<(), String> {
        let calls: Vec<Settling> = (0..=book.matches.len() as u64).flat_map(|i| [PAY, HAND_OVER].map(|number| Settling::new(book, number, i))).collect();
        self.books += 1;
        for (n, a) in calls.iter().enumerate() {
            for b in calls[n + 1..].iter().filter(|b| a.i != b.i && apart(book, a.i, b.i)) {
                if !agree(book, a, b) {
                    return Err(format!("`{} {}` and `{} {}`", a.number, a.i, b.number, b.i));
                }
                self.pairs += 1;
                if let (Some(x), Some(y)) = (a.kind, b.kind) {
                    self.accepted += 1;
                    *self.kinds.entry(x).or_default() += 1;
                    *self.kinds.entry(y).or_default() += (x != y) as usize;
                }
            }
        }
        Ok(())
    }
}

/// The match number of a line that is Pay or Hand over.
fn settled(line: &[u8]) -> Option<u64> {
    let mut values = [0; 9];
    numbers(line, &mut values)?;
    [PAY, HAND_OVER].contains(&values[0]).then_some(values[1])
}

/// Where two neighbouring lines of a session are such calls, with no account in common in the book after it: the places of the first of them, each line in one pair.
pub fn neighbours(book: &Book, text: &[u8]) -> Vec<usize> {
    let lines: Vec<_> = text.split_inclusive(|&c| c == b'\n').map(settled).collect();
    let (mut places, mut n) = (Vec::new(), 0);
    while n + 1 < lines.len() {
        let found = matches!((lines[n], lines[n + 1]), (Some(i), Some(j)) if i != j && apart(book, i, j));
        places.extend(found.then_some(n));
        n += 1 + found as usize;
    }
    places
}

/// The lines of a session, or of its output, with those at these places each exchanged with the next.
pub fn exchanged(text: &[u8], places: &[usize]) -> Vec<u8> {
    let mut lines: Vec<&[u8]> = text.split_inclusive(|&c| c == b'\n').collect();
    for &n in places {
        lines.swap(n, n + 1);
    }
    lines.concat()
}
