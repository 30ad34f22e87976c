//! Two products on one bin table, by the request's words: what each party is answered has nothing of the other in it, so it is worked out
//! for one party at a time.

use super::{chains, rules};
use crate::compare::searches::Outcome;
use crate::{ffi, ffi::Party, list::List};

/// What both parties are served from: a list, and a bin table with its retry counter.
#[derive(Clone)]
pub struct Common {
    pub list: List,
    pub table: Vec<u32>,
    pub retry_counter: u64,
}

impl Common {
    /// With the table that the specification defines.
    pub fn of(list: List, set_size: u64, retry_counter: u64) -> Common {
        let table = rules::bin_table(&list, set_size, retry_counter);
        Common { list, table, retry_counter }
    }
}

/// A party's refusals, with so many places lent to it: the prover's, another retry counter than the table's, and another table than that of
/// the list, its set size and the table's retry counter. What stands behind that table is nobody's.
pub fn refusal(common: &Common, party: &Party, places: usize) -> Result<(), u32> {
    let Common { list, table, retry_counter } = common;
    rules::prover(&party.settings, list, places, table.len())?;
    if party.retry_counter != *retry_counter {
        return Err(ffi::OTHER_RETRY);
    }
    if !table.starts_with(&rules::bin_table(list, party.settings.set_size, *retry_counter)) {
        return Err(ffi::OTHER_TABLE);
    }
    Ok(())
}

/// What a party comes to: its refusal, or the try of the table's retry counter run alone.
pub fn answer(common: &Common, party: &Party, places: usize) -> Outcome {
    match refusal(common, party, places) {
        Ok(()) => chains::try_alone(&party.settings, &common.list, common.retry_counter),
        Err(number) => Outcome::without_proof(number, 0),
    }
}

/// The numbers are those of the specification's table and of the request, written out.
#[cfg(test)]
mod tests {
    use super::*;
    use crate::compare::faults;
    use crate::ffi::Settings;
    use crate::model::threshold::Threshold::Alone;

    const TWO: Settings = Settings { set_size: 2, proof_size: 3, max_retries: 0, search_width: 4, dfs_bound: 9, x: Alone(0) };

    /// A call with every fault meets the first line; with that one mended, the next; and so on.
    #[test]
    fn the_order_of_the_lines() {
        let mut common = Common { list: faults::long_list(2, 4097), table: vec![7; 9], retry_counter: 5 };
        common.list.marks[1] = 2;
        let mut party = Party { settings: Settings { set_size: 0, proof_size: 1025, ..TWO }, retry_counter: 6 };
        let refused = |common: &Common, party: &Party, places| refusal(common, party, places).expect_err("a refusal");
        assert_eq!(refused(&common, &party, 2), 1);
        party.settings.set_size = 3;
        assert_eq!(refused(&common, &party, 2), 2);
        party.settings.proof_size = 3;
        assert_eq!(refused(&common, &party, 2), 4);
        common.list.marks[1] = 0;
        assert_eq!(refused(&common, &party, 2), 5);
        common.list = faults::long_list(2, 1);
        assert_eq!((refused(&common, &party, 2), refused(&common, &party, 3)), (6, 6));
        common.table.push(7);
        assert_eq!((refused(&common, &party, 2), refused(&common, &party, 3)), (6, 10));
        party.settings.set_size = 2;
        assert_eq!(refused(&common, &party, 3), 47);
        party.retry_counter = 5;
        assert_eq!(refused(&common, &party, 3), 48);
        common = Common::of(common.list, 2, 5);
        assert_eq!(refusal(&common, &party, 3), Ok(()));
        common.retry_counter = 6;
        assert_eq!(refused(&common, &party, 3), 47);
    }

    /// With one bin the table needs no hash: it is right in these numbers and no others, whatever stands behind them.
    #[test]
    fn which_table_is_right() {
        let one = Party { settings: Settings { set_size: 1, ..TWO }, retry_counter: 0 };
        let of = |table: &[u32]| refusal(&Common { list: faults::long_list(1, 1), table: table.to_vec(), retry_counter: 0 }, &one, 3);
        assert_eq!((of(&[0, 1, 0, 0]), of(&[0, 1, 0, 0, 9, 9])), (Ok(()), Ok(())));
        for (at, number) in (0..4).flat_map(|at| [1, 2, u32::MAX].map(|more| (at, more))) {
            let mut table = [0, 1, 0, 0];
            table[at] = number.wrapping_add(table[at]);
            assert_eq!(of(&table), Err(48), "{table:?}");
        }
    }

    /// The specification's cases j and k, each of one try, with a retry counter that no run comes to, and no retries admitted.
    #[test]
    fn one_try_alone() {
        let of = |elements, proof_size, search_width, dfs_bound| {
            let settings = Settings { set_size: 1, proof_size, search_width, dfs_bound, ..TWO };
            let common = Common::of(faults::long_list(elements, 4), 1, u64::MAX);
            let outcome = answer(&common, &Party { settings, retry_counter: u64::MAX }, proof_size as usize);
            (outcome.number, outcome.count)
        };
        assert_eq!((of(2, 2, 1, 100), of(2, 2, 1, 4)), ((12, 7), (11, 4)));
        assert_eq!((of(1, 0, 2, 5), of(1, 0, 2, 2)), ((12, 2), (11, 2)));
        // Without a start there is nothing to count.
        assert_eq!((of(1, 0, 0, 1), of(1, 0, 0, 0)), ((12, 0), (11, 0)));
    }
}
