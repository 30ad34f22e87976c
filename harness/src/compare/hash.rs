//! `alba_sha256` against the crate `sha2`, which the Rust hashes with.

use super::{fence::Fenced, hex, Answered, Checked, Run};
use crate::{ffi, ffi::Lent, rng::Rng};
use sha2::{Digest, Sha256};

/// Up to this length every length is tried: past four blocks and each place where the padding needs one block more.
const SHORT: usize = 300;

/// Lengths on both sides of each place where the hash goes another way: the padding ends in the same block or the next, a string has a
/// whole block or none, four strings are joined in one piece or not.
const EDGES: [usize; 8] = [0, 1, 55, 56, 63, 64, 119, 120];

/// The bytes of a block.
const BLOCK: usize = 64;

pub fn run(run: &mut Run, cases: u64) -> Checked {
    for len in 0..=SHORT {
        let room = message(&mut run.rng, len);
        let bytes = &room[room.len() - len..];
        let whole = Some(bytes);
        let lent = [
            [whole, Some(&[]), Some(&[]), Some(&[])],
            [Some(&[]), whole, None, None],
            [None, None, whole, None],
            [None, None, None, whole],
            cut(&mut run.rng, bytes),
            cut(&mut run.rng, bytes),
        ];
        for strings in lent {
            check(&mut run.rng, strings)?;
            run.count();
        }
        at_edges(run, bytes)?;
    }
    at_each_place(run)?;
    for _ in 0..cases {
        check_any(&mut run.rng)?;
        run.count();
    }
    Ok(())
}

/// Every cut in which three of the four strings have a length of `EDGES`, and the other one has the rest.
fn at_edges(run: &mut Run, message: &[u8]) -> Checked {
    for a in EDGES {
        for b in EDGES {
            for c in EDGES {
                let Some(rest) = message.len().checked_sub(a + b + c) else { continue };
                for lens in [[rest, a, b, c], [a, rest, b, c], [a, b, rest, c], [a, b, c, rest]] {
                    check(&mut run.rng, parts(message, lens))?;
                    run.count();
                }
            }
        }
    }
    Ok(())
}

/// A string of 1 to 17 blocks that begins at every place of a block, behind one of up to two, and ends at every place.
fn at_each_place(run: &mut Run) -> Checked {
    for before in 0..=2 * BLOCK {
        for end in 0..BLOCK {
            let behind = [run.rng.below(80) as usize, run.rng.below(80) as usize];
            let long = BLOCK * (1 + run.rng.below(16) as usize) + end;
            let lens = [before, long, behind[0], behind[1]];
            let len = lens.iter().sum();
            let room = message(&mut run.rng, len);
            check(&mut run.rng, parts(&room[room.len() - len..], lens))?;
            run.count();
        }
    }
    Ok(())
}

/// A message of any length, most of them short, cut anywhere.
pub fn check_any(rng: &mut Rng) -> Answered {
    let most = match rng.below(4096) {
        0 => 1 << 20,
        1..=63 => 1 << 16,
        _ => 2000,
    };
    let len = rng.below(most + 1) as usize;
    let room = message(rng, len);
    let strings = cut(rng, &room[room.len() - len..]);
    check(rng, strings)
}

/// The most bytes that are admitted, and one more.
pub fn at_limit(run: &mut Run, _: u64) -> Checked {
    let mut message = vec![0; ffi::LONGEST + 1];
    run.rng.fill(&mut message);
    let (longest, whole) = (&message[..ffi::LONGEST], Some(&message[..]));
    let theirs: [u8; 32] = Sha256::digest(longest).into();
    let several = cut(&mut run.rng, longest);
    for strings in [[Some(longest), None, None, None], several] {
        expect(&mut run.rng, strings, 32, 0, &theirs)?;
        run.count();
    }

    let one = Some(&message[..1]);
    let mut over = vec![
        [whole, None, None, None],
        [None, None, None, whole],
        [Some(longest), one, None, None],
        [one, None, Some(longest), Some(&[])],
        [whole, whole, whole, whole],
    ];
    over.extend((0..3).map(|_| cut(&mut run.rng, &message)));
    for strings in over {
        expect(&mut run.rng, strings, 32, ffi::TOO_LONG, &[0; 32])?;
        run.count();
        // A wrong length of out is refused first.
        expect(&mut run.rng, strings, 31, ffi::BAD_LENGTH, &[])?;
        run.count();
    }
    Ok(())
}

/// One case of lawful length. `sha2` runs second, so that a message altered by the library shows as well.
pub fn check(rng: &mut Rng, strings: [Lent; 4]) -> Answered {
    let mut out = Fenced::new(rng, 32, |word| word as u8);
    let ours = ffi::sha256(strings, &mut out);
    let joined = strings.iter().flatten().fold(Sha256::new(), |hasher, string| hasher.chain_update(string));
    let theirs: [u8; 32] = joined.finalize().into();
    verdict(strings, &out, ours, 0, &theirs)
}

/// One case whose answer is known before.
pub fn expect(rng: &mut Rng, strings: [Lent; 4], out_len: usize, number: u32, written: &[u8]) -> Answered {
    let mut out = Fenced::new(rng, out_len, |word| word as u8);
    let ours = ffi::sha256(strings, &mut out);
    verdict(strings, &out, ours, number, written)
}

pub fn verdict(strings: [Lent; 4], out: &Fenced<u8>, ours: u32, number: u32, written: &[u8]) -> Answered {
    if ours == number && out.holds(written) {
        return Ok(ours);
    }
    let strings = strings.map(|string| match string {
        None => "  string: a null pointer, 0 bytes\n".to_string(),
        Some(bytes) if bytes.len() > 1 << 20 => format!("  string: {} bytes, which the seed gives\n", bytes.len()),
        Some(bytes) => format!("  string: {} bytes: {}\n", bytes.len(), hex(bytes)),
    });
    Err(format!("{}  ours: {ours}\n  due: {number}\n{}", strings.concat(), out.story("out", written)))
}

/// A message of random bytes at the end of what is returned, which starts up to 7 bytes earlier: every alignment is met.
fn message(rng: &mut Rng, len: usize) -> Vec<u8> {
    let mut room = vec![0; len + rng.below(8) as usize];
    rng.fill(&mut room);
    room
}

/// The message cut into strings of these lengths, which are its length in all.
fn parts(message: &[u8], lens: [usize; 4]) -> [Lent<'_>; 4] {
    let mut left = message;
    lens.map(|len| {
        let (string, more) = left.split_at(len);
        left = more;
        Some(string)
    })
}

/// The message cut into four: anywhere, at its ends (so that strings are empty), or where a block ends.
fn cut<'a>(rng: &mut Rng, message: &'a [u8]) -> [Lent<'a>; 4] {
    let len = message.len();
    let mut places: [usize; 3] = std::array::from_fn(|_| {
        let anywhere = rng.below(len as u64 + 1) as usize;
        match rng.below(4) {
            0 => 0,
            1 => anywhere / BLOCK * BLOCK,
            2 if rng.below(2) == 0 => len,
            _ => anywhere,
        }
    });
    places.sort_unstable();
    let [a, b, c] = places;
    [&message[..a], &message[a..b], &message[b..c], &message[c..]].map(Some)
}
