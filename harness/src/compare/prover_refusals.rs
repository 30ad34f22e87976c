//! What `alba_prove` refuses: the number by the order of the specification's table, and nothing altered.

use super::blocks::{self, Block};
use super::fence::Fenced;
use super::{faults, searches, shown_list, Checked, Run};
use crate::model::rules;
use crate::model::threshold::Threshold::{Alone, OfQ};
use crate::{ffi, ffi::Settings, list::List, rng::Rng};

const BLOCK: u64 = 100;

/// What the prover is lent.
#[derive(Clone)]
pub struct Given {
    pub settings: Settings,
    pub list: List,
    pub places: usize,
    pub table: usize,
}

pub fn run(run: &mut Run, cases: u64) -> Checked {
    blocks::run(run, cases.div_ceil(BLOCK), |_, block| {
        (0..BLOCK).try_for_each(|_| {
            let given = lawful(&mut block.rng);
            check_with_faults(block, given)
        })
    })?;
    let listed = listed();
    blocks::run(run, listed.len() as u64, |number, block| check(block, &listed[number as usize]))?;
    blocks::run(run, 1, |_, block| nulls(block))
}

/// Up to three faults.
pub fn check_with_faults(block: &mut Block, mut given: Given) -> Checked {
    for _ in 0..1 + block.rng.below(3) {
        fault(&mut block.rng, &mut given);
    }
    check(block, &given)
}

/// A search that both serve, with workspace just enough.
fn lawful(rng: &mut Rng) -> Given {
    let settings = Settings { set_size: 1 + rng.below(6), proof_size: rng.below(5), ..short() };
    enough(settings, searches::any_list(rng, settings.set_size as usize))
}

/// Settings of a search that ends at once.
fn short() -> Settings {
    Settings { set_size: 1, proof_size: 1, max_retries: 1, search_width: 2, dfs_bound: 10, x: OfQ(0.5) }
}

/// With workspace just enough.
pub fn enough(settings: Settings, list: List) -> Given {
    Given { settings, list, places: settings.proof_size as usize, table: 3 * settings.set_size as usize + 1 }
}

fn fault(rng: &mut Rng, given: &mut Given) {
    match rng.below(10) {
        0..=2 => faults::in_settings(rng, &mut given.settings),
        3..=5 => faults::in_list(rng, &mut given.list),
        6 => given.places = given.places.saturating_sub(1),
        7 => given.table = if rng.below(4) == 0 { rng.below(given.table as u64 + 1) as usize } else { given.table.saturating_sub(1) },
        8 => (given.places, given.table) = (0, 0),
        _ => {
            let mut places: Vec<u32> = (0..given.settings.set_size.min(given.list.len() as u64) as u32).collect();
            places.pop();
            if rules::list(&given.list).is_ok() {
                given.list = given.list.at(&places);
            }
        }
    }
}

/// Each limit just kept to and just broken, the workspace just enough and one short, and lists at and over their limits.
fn listed() -> Vec<Given> {
    let mut all = with_settings();
    // 6 comes before 10, and each workspace is looked at.
    for set_size in [5, 6] {
        let whole = enough(Settings { set_size, proof_size: 3, ..short() }, faults::long_list(5, 3));
        let table = whole.table - 1;
        all.extend([(2, whole.table), (3, table), (2, table), (0, 0)].map(|(places, table)| Given { places, table, ..whole.clone() }));
    }
    for list in faults::large_lists() {
        let whole = enough(Settings { set_size: 3, ..short() }, list);
        // 5 and 4 come before 6.
        all.push(Given { table: 0, ..whole.clone() });
        all.push(whole);
    }
    all
}

fn with_settings() -> Vec<Given> {
    let changes: [fn(&mut Settings); 18] = [
        |s| s.set_size = 0,
        |s| s.set_size = 32_769,
        |s| s.set_size = 32_768,
        |s| s.proof_size = 1025,
        |s| s.max_retries = 65_536,
        |s| s.search_width = 1 << 32,
        |s| s.dfs_bound = (1 << 48) + 1,
        |s| s.x = OfQ(-0.0),
        |s| s.x = OfQ(1.0),
        // Every X is lawful.
        |s| s.x = Alone(1),
        |s| s.x = Alone(u128::from(u64::MAX)),
        |s| s.x = Alone(u128::MAX),
        |s| s.set_size = 5,
        |s| s.set_size = 6,
        |s| (s.set_size, s.proof_size, s.x) = (0, 1025, Alone(u128::MAX)),
        |s| (s.proof_size, s.x) = (1025, Alone(0)),
        |s| s.max_retries = 0,
        |s| (s.max_retries, s.dfs_bound) = (0, 0),
    ];
    let with = |change: fn(&mut Settings)| {
        let mut settings = short();
        change(&mut settings);
        enough(settings, faults::long_list(5, 3))
    };
    changes.map(with).to_vec()
}

/// A refusal with its number and nothing altered; without a fault, the comparison with the Rust.
pub fn check(block: &mut Block, given: &Given) -> Checked {
    let Given { settings, list, places, table } = given;
    let Err(due) = rules::prover(settings, list, *places, *table) else {
        return searches::check(block, settings, list).map(|_| ());
    };
    if due == ffi::NOT_ENOUGH {
        let theirs = searches::due(settings, list)?.number;
        if theirs != due {
            return Err(format!("  {settings:?}\n{}  due: {due}\n  the search: {theirs}\n", shown_list(list)));
        }
    }
    refuse_in(block, settings, list, due, (*places, *table))
}

/// The refusal with this number, in workspace of so many places and numbers of the bin table.
pub fn refuse_in(block: &mut Block, settings: &Settings, list: &List, due: u32, (places, table): (usize, usize)) -> Checked {
    let rng = &mut block.rng;
    let out_len = [0, 2, 3, 3, 3, 5][rng.below(6) as usize];
    let places = Fenced::new(rng, places, |word| word as u32);
    let table = Fenced::new(rng, table, |word| word as u32);
    let out = Fenced::new(rng, out_len, |word| word);
    refuse(block, settings, list, due, (places, table, out))
}

type Lent = (Fenced<u32>, Fenced<u32>, Fenced<u64>);

fn refuse(block: &mut Block, settings: &Settings, list: &List, due: u32, lent: Lent) -> Checked {
    let (mut places, mut table, mut out) = lent;
    let after = list.clone();
    let ours = ffi::prove(settings, after.lent(), &mut places, &mut table, &mut out);
    let result = if out.len() < 3 { &[][..] } else { &[0; 3] };
    if ours == due && places.holds(&[]) && table.holds(&[]) && out.holds(result) && after == *list {
        block.tally.count("prove", ours);
        return Ok(());
    }
    Err(format!(
        "  {settings:?}\n{}  ours: {ours}\n  due: {due}\n{}{}{}  the list is {}\n",
        shown_list(list),
        out.story("R, S and count", result),
        places.story("places", &[]),
        table.story("bin table", &[]),
        super::verdicts::as_it_was(after == *list)
    ))
}

/// Null pointers with length 0 are empty: no workspace, and no list.
fn nulls(block: &mut Block) -> Checked {
    let list = faults::long_list(3, 1);
    let lent =
        |rng: &mut Rng| (Fenced::null(rng, |word| word as u32), Fenced::null(rng, |word| word as u32), Fenced::null(rng, |word| word));
    let given = lent(&mut block.rng);
    refuse(block, &short(), &list, ffi::TOO_SHORT, given)?;
    let (mut places, mut table, mut out) = lent(&mut block.rng);
    let nothing = ffi::Listed { data: None, ends: None, marks: None, indexes: None };
    let ours = ffi::prove(&short(), nothing, &mut places, &mut table, &mut out);
    let mut table = Fenced::new(&mut block.rng, 4, |word| word as u32);
    let without_places = ffi::prove(&Settings { proof_size: 0, ..short() }, nothing, &mut places, &mut table, &mut out);
    if (ours, without_places) != (ffi::TOO_SHORT, ffi::NOT_ENOUGH) || !table.holds(&[]) {
        return Err(format!("  null pointers: ours {ours} and {without_places}, due {} and {}", ffi::TOO_SHORT, ffi::NOT_ENOUGH));
    }
    block.tally.count("prove", ours);
    block.tally.count("prove", without_places);
    Ok(())
}
