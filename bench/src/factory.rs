//! Sharing a factory's daily dispatch (document 02, Job 14): the rules, and the program from the bytes of a list of calls to the bytes of its answers.
use crate::machine::{no, Answer};
use crate::session::{decimals, LARGEST};
use std::io::Write;

pub struct Factory {
    daily: u64,
    /// What each holder has left to collect, "in order of appointment".
    pub holders: Vec<u64>,
}

impl Factory {
    /// "A factory loads a fixed number of units a day, 1 to 1,000"
    pub fn new(daily: u64) -> Answer<Factory> {
        no(!(1..=1_000).contains(&daily), 8)?;
        Ok(Factory { daily, holders: Vec::new() })
    }

    /// A call, by its number and its arguments: an arrival or a departure carries 0, a day "each holder's share".
    pub fn call(&mut self, numbers: &[u64]) -> Answer<Vec<u64>> {
        match *numbers {
            [1, claim] => self.arrive(claim).map(|n| vec![n]),
            [2, place] => self.leave(place).map(|n| vec![n]),
            [3] => Ok(self.day()),
            _ => Err(26),
        }
    }

    fn arrive(&mut self, claim: u64) -> Answer {
        no(claim > 1_000, 8)?;
        no(self.holders.len() >= 32, 33)?;
        self.holders.push(claim);
        Ok(0)
    }

    /// "a leaver is named by its place in that order, counted from 0, later holders move up"
    fn leave(&mut self, place: u64) -> Answer {
        no(place >= self.holders.len() as u64, 6)?;
        self.holders.remove(place as usize);
        Ok(0)
    }

    /// "A day's units go round the holders one at a time, skipping whoever is served, until the day is spent or nobody waits"
    fn day(&mut self) -> Vec<u64> {
        let mut shares = vec![0; self.holders.len()];
        let mut units = self.daily;
        while units > 0 && self.holders.iter().any(|&left| left > 0) {
            for (left, share) in self.holders.iter_mut().zip(&mut shares) {
                if units > 0 && *left > 0 {
                    units -= 1;
                    *left -= 1;
                    *share += 1;
                }
            }
        }
        shares
    }
}

/// The factory that line one makes.
fn made(numbers: &[u64]) -> Answer<Factory> {
    match *numbers {
        [0, daily] => Factory::new(daily),
        _ => Err(26),
    }
}

/// The numbers of a line; none where it is not of the form.
fn numbers<'a>(line: &[u8], values: &'a mut [u64; 9]) -> &'a [u64] {
    let count = decimals(line, values).unwrap_or(0);
    &values[..count]
}

fn answer_line(answer: Answer<Vec<u64>>, out: &mut Vec<u8>) {
    match answer {
        Ok(carried) => {
            write!(out, "ok").unwrap();
            for n in carried {
                write!(out, " {}", n).unwrap();
            }
            writeln!(out).unwrap();
        }
        Err(n) => writeln!(out, "no {}", n).unwrap(),
    }
}

/// Writes each line's answer, from line one's on if that one is accepted.
fn play(input: &[u8], out: &mut Vec<u8>) -> Answer<()> {
    no(input.is_empty() || input.len() > LARGEST, 26)?;
    let mut values = [0; 9];
    let mut lines = input.split_inclusive(|&c| c == b'\n');
    let first = lines.next().expect("some bytes");
    let mut factory = made(numbers(first, &mut values))?;
    answer_line(Ok(vec![0]), out);
    for line in lines {
        answer_line(factory.call(numbers(line, &mut values)), out);
    }
    Ok(())
}

/// The answers to a list of calls, or line one's refusal; answers how many bytes they have.
pub fn run(input: &[u8], out: &mut Vec<u8>) -> usize {
    out.clear();
    if let Err(n) = play(input, out) {
        answer_line(Err(n), out);
    }
    out.len()
}
