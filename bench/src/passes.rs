//! Close's walk, and its passes after the first: fewest pairs (document 02, Job 13), else the second pass and the third.

/// An account and its units.
pub type Units = (usize, u64);

/// A buyer, a seller and units.
pub type Pair = (usize, usize, u64);

/// The most accounts that are numbered into a mask.
const FEW: usize = 10;

/// What the passes after the first come to.
pub struct Later {
    pub pairs: Vec<Pair>,
    pub tests: u64,
    pub gap: u64,
}

/// "Walk": the pairs of two lists.
pub fn walk(mut buyers: Vec<Units>, mut sellers: Vec<Units>) -> Vec<Pair> {
    let mut pairs = Vec::new();
    let (mut i, mut j) = (0, 0);
    while i < buyers.len() && j < sellers.len() {
        let units = buyers[i].1.min(sellers[j].1);
        pairs.push((buyers[i].0, sellers[j].0, units));
        buyers[i].1 -= units;
        sellers[j].1 -= units;
        if buyers[i].1 == 0 {
            i += 1;
        }
        if sellers[j].1 == 0 {
            j += 1;
        }
    }
    pairs
}

/// The second pass and the third: a whole buyer with the lowest-numbered seller of as many units left, and the walk over what is left.
fn old_passes(mut buyers: Vec<Units>, mut sellers: Vec<Units>) -> Vec<Pair> {
    let mut pairs = Vec::new();
    for buyer in buyers.iter_mut() {
        if let Some(seller) = sellers.iter_mut().find(|seller| seller.1 == buyer.1) {
            pairs.push((buyer.0, seller.0, buyer.1));
            (buyer.1, seller.1) = (0, 0);
        }
    }
    buyers.retain(|buyer| buyer.1 > 0);
    sellers.retain(|seller| seller.1 > 0);
    pairs.extend(walk(buyers, sellers));
    pairs
}

/// An account, its bit by its place in the list, with its units, shorts below zero.
type Signed = (usize, i64);

/// "accounts are numbered into a mask, one bit each, lowest account lowest bit"
fn numbered(buyers: &[Units], sellers: &[Units]) -> Vec<Signed> {
    let longs = buyers.iter().map(|&(k, units)| (k, units as i64));
    let shorts = sellers.iter().map(|&(k, units)| (k, -(units as i64)));
    let mut accounts: Vec<Signed> = longs.chain(shorts).collect();
    accounts.sort();
    accounts
}

/// Of the masks from 1 up, so many of them, those with "equal long and short units".
fn balanced(accounts: &[Signed], tests: u64) -> Vec<u64> {
    let mut sums = vec![0]; // a mask's long units less its short ones: those without its lowest account, and that one's
    for mask in 1..=tests as usize {
        sums.push(sums[mask & (mask - 1)] + accounts[mask.trailing_zeros() as usize].1);
    }
    (1..=tests).filter(|&mask| sums[mask as usize] == 0).collect()
}

/// "Walk each as in the third pass"
fn walk_mask(accounts: &[Signed], mask: u64) -> Vec<Pair> {
    let members = || accounts.iter().enumerate().filter(|(bit, _)| mask >> bit & 1 == 1).map(|(_, account)| account);
    let longs = members().filter(|account| account.1 > 0);
    let shorts = members().filter(|account| account.1 < 0);
    let units = |&(k, units): &Signed| (k, units.unsigned_abs());
    walk(longs.map(units).collect(), shorts.map(units).collect())
}

/// How many disjoint masks can be had beside the accounts used; `known` has it for those that were asked before.
fn most(masks: &[u64], used: u64, known: &mut [Option<u8>]) -> u8 {
    if known[used as usize].is_none() {
        let beside = masks.iter().filter(|&mask| mask & used == 0);
        known[used as usize] = Some(beside.map(|mask| 1 + most(masks, used | mask, known)).max().unwrap_or(0));
    }
    known[used as usize].expect("found above")
}

/// "as many disjoint ones as can be; on a tie the list of masks, each list rising, that comes first number by number": of the masks, which rise, each that can be had without having fewer.
fn choose(masks: &[u64]) -> Vec<u64> {
    let mut known = [None; 1 << FEW];
    let (mut chosen, mut used) = (Vec::new(), 0);
    for &mask in masks {
        if mask & used == 0 && 1 + most(masks, used | mask, &mut known) == most(masks, used, &mut known) {
            chosen.push(mask);
            used |= mask;
        }
    }
    chosen
}

/// Of the buyers and sellers that remain after the first pass, by number, with as many units in all.
pub fn later_passes(buyers: Vec<Units>, sellers: Vec<Units>, budget: u64) -> Later {
    let accounts = numbered(&buyers, &sellers);
    let larger = buyers.len().max(sellers.len());
    let old = old_passes(buyers, sellers);
    if accounts.len() > FEW {
        let gap = (old.len() - larger) as u64;
        return Later { pairs: old, tests: 0, gap };
    }
    let last = (1 << accounts.len()) - 1;
    let tests = budget.min(last);
    let chosen = choose(&balanced(&accounts, tests));
    let rest = last - chosen.iter().sum::<u64>();
    let plan: Vec<Pair> = chosen.iter().chain([&rest]).flat_map(|&mask| walk_mask(&accounts, mask)).collect();
    let pairs = if plan.len() < old.len() { plan } else { old };
    let gap = if tests == last { 0 } else { (pairs.len() - larger) as u64 };
    Later { pairs, tests, gap }
}
