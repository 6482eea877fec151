//! Times the proved book and the plain one on the same sessions, and the proved factory and the plain one on the same lists of calls, in one run.
use bench::generate::{factory_list, session, short_session};
use std::time::Instant;

type Run = fn(&[u8], &mut Vec<u8>) -> usize;

/// Seconds for one round over the sessions: the best of seven.
fn seconds(run: Run, sessions: &[Vec<u8>]) -> f64 {
    let mut out = Vec::new();
    let mut best = f64::MAX;
    for _ in 0..7 {
        let began = Instant::now();
        for s in sessions {
            std::hint::black_box(run(s, &mut out));
        }
        best = best.min(began.elapsed().as_secs_f64());
    }
    best
}

/// A row for each length: the sessions of seeds 0, 1, .. with so many calls.
fn table(title: &str, proved: Run, plain: Run, make: fn(u64, usize) -> Vec<u8>, lengths: &[(usize, u64)]) {
    println!("{title}");
    println!("{:>8} {:>10} {:>14} {:>14} {:>14} {:>14} {:>7}", "calls", "sessions", "proved s/s", "plain s/s", "proved calls/s", "plain calls/s", "ratio");
    for &(calls, count) in lengths {
        let sessions: Vec<Vec<u8>> = (0..count).map(|seed| make(seed, calls)).collect();
        assert!(sessions.iter().all(|s| s.len() <= 65_536), "a longer session would be refused whole");
        let ours = seconds(proved, &sessions);
        let plain = seconds(plain, &sessions);
        let total = (sessions.len() * calls) as f64;
        let n = sessions.len() as f64;
        println!("{:>8} {:>10} {:>14.0} {:>14.0} {:>14.0} {:>14.0} {:>7.2}", calls, sessions.len(), n / ours, n / plain, total / ours, total / plain, plain / ours);
    }
}

fn main() {
    let (proved, plain): (Run, Run) = (bench::proved::run, bench::session::run);
    table("mixed sessions", proved, plain, session, &[(100, 2_000), (300, 700), (1_000, 200), (3_000, 70), (6_000, 35)]);
    table("short lines", proved, plain, short_session, &[(100, 2_000), (300, 700), (1_000, 200), (3_000, 70), (10_000, 20)]);
    table("pages after mixed sessions", bench::proved::page, bench::session::page, session, &[(100, 2_000), (1_000, 200)]);
    let (proved, plain): (Run, Run) = (bench::proved::dispatch, bench::factory::run);
    table("lists of a factory's calls", proved, plain, factory_list, &[(100, 2_000), (1_000, 200), (10_000, 20)]);
}
