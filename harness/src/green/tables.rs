//! The exact share of a game: its functions are tables with an entry for each question, and all tables are counted.

use super::fraction::Fraction;
use super::game::{Game, Question};
use std::convert::Infallible;

/// Up to so many tables are gone through one by one.
const MOST_TABLES: u128 = 1 << 21;

impl Game {
    /// How many entries a table has.
    pub fn entries(&self) -> usize {
        (self.r * self.d + self.m * self.f + self.m + self.r * self.f) as usize
    }

    /// How many tables there are, where that has 128 bits at most.
    fn tables(&self) -> Option<u128> {
        u128::from(self.m).checked_pow(self.entries() as u32)
    }

    /// The entry of a question.
    fn entry(&self, question: Question) -> usize {
        let nexts = self.r * self.d;
        let lasts = nexts + self.m * self.f;
        let bins = lasts + self.m;
        let entry = match question {
            Question::Start { retry, search } => retry * self.d + search,
            Question::Next { digest, element } => nexts + digest * self.f + element,
            Question::Last { digest } => lasts + digest,
            Question::Bin { retry, element } => bins + retry * self.f + element,
        };
        entry as usize
    }

    /// In how many tables some proof is accepted, table by table.
    fn one_by_one(&self) -> u128 {
        let mut table = vec![0; self.entries()];
        let mut green = 0;
        loop {
            let Ok(is_green) = self.is_green(&mut |question| Ok::<u64, Infallible>(table[self.entry(question)]));
            green += u128::from(is_green);
            // The next table, as one counts: the first entry that isn't at its greatest goes up by one, those before it to 0.
            let Some(place) = table.iter().position(|entry| *entry + 1 < self.m) else {
                return green;
            };
            table[..place].fill(0);
            table[place] += 1;
        }
    }

    /// In which share of the tables with these entries, the others open, some proof is accepted. Tables that agree in all that is asked are
    /// counted together: an entry is gone through only when it is asked.
    fn together(&self, table: &mut [Option<u64>]) -> Fraction {
        let answer = self.is_green(&mut |question| {
            let entry = self.entry(question);
            table[entry].ok_or(entry)
        });
        match answer {
            Ok(is_green) => Fraction::new(u128::from(is_green), 1),
            Err(asked) => {
                let mut sum = Fraction::new(0, 1);
                for value in 0..self.m {
                    table[asked] = Some(value);
                    sum = sum.plus(self.together(table));
                }
                table[asked] = None;
                sum.part(self.m)
            }
        }
    }

    /// The exact share. Where the tables are few enough both ways of counting must come to it.
    pub fn exact(&self) -> Result<Fraction, String> {
        let together = self.together(&mut vec![None; self.entries()]);
        match self.tables().filter(|tables| *tables <= MOST_TABLES).map(|tables| Fraction::new(self.one_by_one(), tables)) {
            Some(one_by_one) if one_by_one != together => Err(format!("table by table {one_by_one}, counted together {together}")),
            _ => Ok(together),
        }
    }
}

#[cfg(test)]
mod tests {
    use super::*;

    const THREE: Game = Game { r: 1, d: 1, f: 1, u: 3, n: 2, m: 2, x: 1 };

    #[test]
    fn each_question_has_an_entry_of_its_own() {
        let game = Game { r: 2, d: 3, f: 2, u: 1, n: 2, m: 4, x: 1 };
        let mut entries = Vec::new();
        for retry in 0..2 {
            entries.extend((0..3).map(|search| game.entry(Question::Start { retry, search })));
            entries.extend((0..2).map(|element| game.entry(Question::Bin { retry, element })));
        }
        for digest in 0..4 {
            entries.push(game.entry(Question::Last { digest }));
            entries.extend((0..2).map(|element| game.entry(Question::Next { digest, element })));
        }
        entries.sort();
        assert_eq!(entries, (0..game.entries()).collect::<Vec<_>>());
    }

    /// With the bin given as b the start must be b, the next hash of b must be b, and the last hash of b must be 0: three of the other five
    /// entries are fixed. The third element asks nothing new.
    #[test]
    fn with_the_bin_given() {
        for bin in 0..2 {
            let mut table = vec![None; THREE.entries()];
            table[THREE.entry(Question::Bin { retry: 0, element: 0 })] = Some(bin);
            assert_eq!((table.len(), THREE.together(&mut table)), (6, Fraction::new(4, 32)));
            // The entries that were gone through are open again.
            assert_eq!(table.iter().flatten().count(), 1);
        }
    }

    /// With bins that are drawn it's the same share: 8 of 64 tables, twice the first term.
    #[test]
    fn the_first_term_alone_is_no_bound() {
        assert_eq!((THREE.one_by_one(), THREE.tables()), (8, Some(64)));
        assert_eq!((THREE.exact(), THREE.first_term()), (Ok(Fraction::new(1, 8)), Fraction::new(1, 16)));
    }

    /// One R, one element and n = m, from u = 2 on: some start is the bin, the bin's next hash the bin, and the bin's last hash below x.
    #[test]
    fn of_one_element() {
        for (d, u, m, x, over, under) in [(1, 2, 2, 1, 1, 8), (1, 5, 2, 1, 1, 8), (2, 3, 2, 1, 3, 16), (2, 3, 3, 2, 10, 81)] {
            let game = Game { r: 1, d, f: 1, u, n: m, m, x };
            assert_eq!(game.exact(), Ok(Fraction::new(over, under)), "{game:?}");
        }
        // More tables than numbers of 128 bits can say.
        let game = Game { r: 1, d: 1, f: 1, u: 4, n: 32, m: 32, x: 8 };
        assert_eq!((game.tables(), game.exact()), (None, Ok(Fraction::new(8, 32 * 32 * 32))));
    }

    /// One element and u = 1: the bound's first term itself. Two elements: with one of them in the start's bin (a half) it is 1/2, with
    /// both (a quarter) 1/2 if their next hashes agree, else 3/4.
    #[test]
    fn of_short_proofs() {
        for (n, m, x) in [(2, 2, 1), (2, 4, 3), (4, 4, 1), (3, 3, 2), (1, 3, 1)] {
            let game = Game { r: 1, d: 1, f: 1, u: 1, n, m, x };
            assert_eq!(game.exact(), Ok(game.first_term()));
        }
        let game = Game { r: 1, d: 1, f: 2, u: 1, n: 2, m: 2, x: 1 };
        assert_eq!(game.exact(), Ok(Fraction::new(13, 32)));
    }

    /// Always and never, and nothing to choose from.
    #[test]
    fn at_the_ends() {
        let game = Game { r: 1, d: 1, f: 1, u: 2, n: 1, m: 2, x: 2 };
        assert_eq!(game.exact(), Ok(Fraction::new(1, 1)));
        for none in [Game { x: 0, ..game }, Game { f: 0, ..game }, Game { d: 0, ..game }, Game { r: 0, ..game }] {
            assert_eq!(none.exact(), Ok(Fraction::new(0, 1)), "{none:?}");
        }
    }

    #[test]
    fn both_ways_of_counting_agree() {
        for (r, d, f, u) in [(2, 1, 1, 2), (1, 2, 2, 2), (2, 2, 1, 3), (2, 2, 2, 1)] {
            for (n, m, x) in [(1, 2, 1), (2, 2, 1), (2, 2, 2)] {
                let game = Game { r, d, f, u, n, m, x };
                let one_by_one = game.tables().map(|tables| Fraction::new(game.one_by_one(), tables));
                assert_eq!(Some(game.together(&mut vec![None; game.entries()])), one_by_one, "{game:?}");
            }
        }
    }
}
