//! Runs the proved book and the plain one over the same sessions and compares every byte, of the sessions and of the pages, with the printed heat table and with others, and the heat table; and settles matches of both in either order; and runs the proved factory and the plain one over the same lists of calls and compares every byte: differ [SESSIONS]
use bench::generate::{clerks, damage, factory_list, few, heat_table, measured, own_table, session, short_session, vessels, Random};
use bench::orders::{exchanged, neighbours, Tried};

/// Makes a session from a seed, of so many calls.
type Make = fn(u64, usize) -> Vec<u8>;

/// Whether a text is written into a buffer of `least` bytes, and into longer ones, whose bytes behind it stay, and not into a shorter one, which stays as it was.
fn lent_agrees(text: &[u8], least: usize, rooms: &[usize], write: impl Fn(&mut [u8]) -> usize) -> bool {
    let n = text.len();
    rooms.iter().all(|&room| {
        let mut lent = vec![7u8; room];
        let written = write(&mut lent);
        if room < least {
            written == 0 && lent.iter().all(|&c| c == 7)
        } else {
            written == n && lent[..n] == *text && lent[n..].iter().all(|&c| c == 7)
        }
    })
}

fn page_agrees(text: &[u8], page: &[u8]) -> bool {
    let n = page.len();
    lent_agrees(page, n, &[0, 1, n / 2, n - 1, n, n + 1, n + 41, bench::proved::PAGE_ROOM], |lent| bench::proved::lend(text, lent))
}

fn page_by_table_agrees(table: &[u8], text: &[u8], page: &[u8]) -> bool {
    let n = page.len();
    lent_agrees(page, n, &[0, n - 1, n, n + 1, bench::proved::PAGE_ROOM], |lent| bench::proved::lend_by_table(table, text, lent))
}

fn table_agrees() -> bool {
    let table = bench::machine::heat_table();
    let n = table.len();
    lent_agrees(table.as_bytes(), n, &[0, 1, n / 2, n - 1, n, n + 1, n + 41], bench::proved::heat_table)
}

/// Whether both write the same of a cargo of a tonne at each heat from 4,000 to 6,300, looked up or not, at several prices, in the printed heat table and in one of its own.
fn heats_agree(ours: &mut Vec<u8>, plain: &mut Vec<u8>) -> bool {
    (4_000..=6_300).all(|heat| {
        let own = own_table(&mut Random::new(heat));
        [1, 2_750, 80_000, 999_999, 1_000_000].iter().all(|&price| {
            let text = measured(heat, price);
            let n = bench::proved::run(&text, ours);
            let m = bench::session::run(&text, plain);
            let accepted = plain[..m].split(|&c| c == b'\n').filter(|l| l.starts_with(b"ok ")).count();
            let same = ours[..n] == plain[..m] && accepted == 12;
            let n = bench::proved::run_by_table(&own, &text, ours);
            let m = bench::session::run_by_table(&own, &text, plain);
            let accepted = plain[..m].split(|&c| c == b'\n').filter(|l| l.starts_with(b"ok ")).count();
            same && ours[..n] == plain[..m] && accepted == 12
        })
    })
}

/// Tries settling in either order on the plain book after a session, and after about so many of its lines; gives the lines of a book on which two calls differ, and the two.
fn orders_agree<'a>(text: &'a [u8], within: u64, r: &mut Random, tried: &mut Tried) -> Result<(), (&'a [u8], String)> {
    let ends: Vec<usize> = (1..text.len()).filter(|&n| text[n - 1] == b'\n').collect();
    let some = ends.iter().filter(|_| r.below(ends.len() as u64) < within);
    for lines in some.chain([&text.len()]).map(|&end| &text[..end]) {
        if let Some(book) = bench::session::book(lines) {
            tried.orders(&book).map_err(|calls| (lines, calls))?;
        }
    }
    Ok(())
}

/// How many calls a session or a list has.
fn length(r: &mut Random) -> usize {
    let calls = match r.below(10) {
        0 => r.below(6),
        1..=6 => 20 + r.below(150),
        7 | 8 => 200 + r.below(1_200),
        _ => 3_000 + r.below(3_200),
    };
    calls as usize
}

/// A list of a factory's calls from a seed: one in three damaged, one in a thousand of about 65,536 bytes.
fn make_list(seed: u64) -> Vec<u8> {
    let mut r = Random::new(seed ^ 0xFAC7);
    let longest = seed % 1_000 == 8;
    let calls = if longest { 30_000 } else { length(&mut r) };
    let mut text = factory_list(seed, calls);
    if seed % 3 == 0 {
        damage(&mut r, &mut text);
    }
    if longest {
        text.resize(65_535 + (seed / 1_000 % 3) as usize, b'\n');
    }
    text
}

/// The lists that were compared: the lines of their answers, of these the accepted ones, and of these the days.
#[derive(Default)]
struct Lists {
    lists: usize,
    bytes: usize,
    lines: usize,
    accepted: usize,
    days: usize,
}

impl Lists {
    /// Whether both factories answer a list with the same bytes.
    fn agree(&mut self, text: &[u8]) -> bool {
        let mut answers = Vec::new();
        let n = bench::factory::run(text, &mut answers);
        let lines = || answers.split_inclusive(|&c| c == b'\n');
        let accepted = |line: &[u8]| line.starts_with(b"ok");
        self.lists += 1;
        self.bytes += text.len();
        self.lines += lines().count();
        self.accepted += lines().filter(|line| accepted(line)).count();
        self.days += text.split_inclusive(|&c| c == b'\n').zip(lines()).filter(|(call, line)| *call == b"3\n" && accepted(line)).count();
        let room = bench::proved::dispatch_room(text.len());
        lent_agrees(&answers, room, &[0, n, room - 1, room, room + 41], |lent| bench::proved::lend_dispatch(text, lent))
    }
}

fn main() {
    let count: u64 = std::env::args().nth(1).and_then(|a| a.parse().ok()).unwrap_or(20_000);
    let (mut ours, mut plain, mut page, mut by_table, mut page_by) = (Vec::new(), Vec::new(), Vec::new(), Vec::new(), Vec::new());
    let (mut refused, mut other) = (0usize, 0usize);
    let (mut tried, mut swaps, mut swaps_accepted) = (Tried::default(), 0usize, 0usize);
    if !table_agrees() || !heats_agree(&mut ours, &mut plain) {
        println!("the heat table, or a price that is looked up in it, differs");
        std::process::exit(1);
    }
    let (mut bytes, mut lines, mut accepted, mut page_lines) = (0usize, 0usize, 0usize, 0usize);
    let mut lists = Lists::default();
    for seed in 0..count {
        let mut r = Random::new(seed ^ 0x5EED);
        let calls = length(&mut r);
        let (make, within): (Make, u64) = match seed % 8 {
            1 | 5 => (short_session, 1),
            2 => (vessels, 1),
            3 => (few, 1),
            6 => (clerks, 30),
            _ => (session, 1),
        };
        let mut text = make(seed, calls);
        if seed % 3 == 0 {
            damage(&mut r, &mut text);
        }
        if seed % 1_000 == 7 {
            let longer = 65_535 + r.below(3) as usize;
            text.resize(longer, b'\n');
        }
        let n = bench::proved::run(&text, &mut ours);
        let m = bench::session::run(&text, &mut plain);
        bench::session::page(&text, &mut page);
        if ours[..n] != plain[..m] || !page_agrees(&text, &page) {
            std::fs::write("differs.in", &text).expect("written");
            println!("session {} differs: see differs.in", seed);
            std::process::exit(1);
        }
        let table = heat_table(&mut r);
        let n = bench::proved::run_by_table(&table, &text, &mut ours);
        let k = bench::session::run_by_table(&table, &text, &mut by_table);
        bench::session::page_by_table(&table, &text, &mut page_by);
        if ours[..n] != by_table[..k] || !page_by_table_agrees(&table, &text, &page_by) {
            std::fs::write("differs.in", &text).expect("written");
            std::fs::write("differs.table", &table).expect("written");
            println!("session {} differs with a heat table of its own: see differs.in and differs.table", seed);
            std::process::exit(1);
        }
        if let Err((lines, calls)) = orders_agree(&text, within, &mut r, &mut tried) {
            std::fs::write("differs.in", lines).expect("written");
            println!("session {} differs in the order of {}: see differs.in", seed, calls);
            std::process::exit(1);
        }
        let places = bench::session::book(&text).map_or(Vec::new(), |book| neighbours(&book, &text));
        let text_exchanged = exchanged(&text, &places);
        let n = bench::proved::run(&text_exchanged, &mut ours);
        if ours[..n] != exchanged(&plain, &places) {
            std::fs::write("differs.in", &text_exchanged).expect("written");
            println!("session {} differs with lines exchanged: see differs.in", seed);
            std::process::exit(1);
        }
        let list = make_list(seed);
        if !lists.agree(&list) {
            std::fs::write("differs.in", &list).expect("written");
            println!("list {} differs: see differs.in", seed);
            std::process::exit(1);
        }
        let answers: Vec<&[u8]> = plain.split(|&c| c == b'\n').collect();
        swaps += places.len();
        swaps_accepted += places.iter().filter(|&&n| answers[n..n + 2].iter().all(|l| l.starts_with(b"ok "))).count();
        refused += (by_table == b"no 31\n") as usize;
        other += (by_table != plain && by_table != b"no 31\n") as usize;
        bytes += text.len();
        page_lines += page.iter().filter(|&&c| c == b'\n').count();
        lines += plain.iter().filter(|&&c| c == b'\n').count();
        accepted += plain.split(|&c| c == b'\n').filter(|l| l.starts_with(b"ok ")).count();
    }
    println!("{} sessions, {} bytes in, {} lines out, {} accepted, {} lines of pages; each again with a heat table of its own, of which {} are refused and {} change the output: every byte the same", count, bytes, lines, accepted, page_lines, refused, other);
    println!("settled in either order: {}; {} times two neighbouring lines exchanged for the proved book, {} of them both accepted: every answer and book the same", tried, swaps, swaps_accepted);
    println!("{} lists of a factory's calls, {} bytes in, {} lines out, {} accepted, {} of them days: every byte the same", lists.lists, lists.bytes, lists.lines, lists.accepted, lists.days);
}
