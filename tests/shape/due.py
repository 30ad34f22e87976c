#!/usr/bin/env python3
"""
What the program shape is due to print of a file of elements, worked out anew: the chains by a walk over document 01's rounds and bins,
the means in exact fractions.

Usage: due.py ELEMENTS SET_SIZE PROOF_SIZE MAX_RETRIES SEARCH_WIDTH DFS_BOUND X R FIRST COUNT
"""
import sys
from fractions import Fraction
from hashlib import sha256

NAMED = 16
SIGNS = 40


def number(n: int) -> bytes:
    return n.to_bytes(8, "big")


def draw(digest: bytes, n: int) -> int | None:
    """sample_uniform of a digest's first 16 bytes."""
    if n & (n - 1) == 0:
        return int.from_bytes(digest[:8], "big") % n
    i = int.from_bytes(digest[:16], "big")
    parts = (2**128 - 1) // n
    return None if i >= parts * n else i % n


def tails(name: str) -> list[bytes]:
    found = []
    for line in open(name):
        data, *index = line.split()
        found.append(bytes.fromhex(data.replace("-", "")) + b"".join(number(int(i)) for i in index))
    return found


class Tree:
    """The chains of a search counter by their length, and how many pass; None instead where there are more than the bound."""

    def __init__(self, bins: dict[int | None, list[bytes]], set_size: int, proof_size: int, bound: int, x: int, start: bytes):
        self.counts: list[int] | None = [0] * (proof_size + 1)
        self.passing = 0
        # last hashes of chains that are still to be counted, each with its length
        waiting = [(start, 0)]
        chains = 0
        while waiting:
            digest, length = waiting.pop()
            own = draw(digest, set_size)
            if own is None:
                continue
            chains += 1
            if chains > bound:
                self.counts = None
                return
            self.counts[length] += 1
            if length < proof_size:
                waiting += [(sha256(b"Telescope-round_hash" + digest + tail).digest(), length + 1) for tail in bins.get(own, [])]
            elif int.from_bytes(sha256(b"Telescope-proof_hash" + digest).digest()[:16], "big") < x:
                self.passing += 1


def trees(elements: list[bytes], settings: list[int], x: int, retry: int, first: int, count: int) -> dict[int, Tree]:
    set_size, proof_size, _, _, bound = settings
    bins: dict[int | None, list[bytes]] = {}
    for tail in elements[: 2 * set_size]:
        bins.setdefault(draw(sha256(b"Telescope-bin_hash" + number(retry) + tail).digest(), set_size), []).append(tail)
    return {
        search: Tree(bins, set_size, proof_size, bound, x, sha256(b"Telescope-round_hash" + number(retry) + number(search)).digest())
        for search in range(first, first + count)
    }


def rounded(total: int, n: int) -> str:
    """The mean in two digits behind the point; a half goes up."""
    whole = (Fraction(100 * total, n) + Fraction(1, 2)).__floor__()
    return f"{whole // 100}.{whole % 100:02}"


def table(totals: list[int], largest: list[int], n: int) -> None:
    lengths = [length for length, total in enumerate(totals) if total]
    longest, most = lengths[-1], max(totals)
    step = next(step for step in (1, 2, 5, 10, 20, 50) if step == 50 or longest <= 40 * step)
    print("length        total        mean    largest")
    for length in [length for length in lengths if length % step == 0 or length == longest]:
        signs = -(-SIGNS * totals[length] // most)
        print(f"{length:>6} {totals[length]:>12} {rounded(totals[length], n):>11} {largest[length]:>10} {'#' * signs}")
    if longest + 1 < len(totals):
        print("no chain is longer")


def main(name: str, *words: str) -> None:
    settings = [int(word) for word in words[:5]]
    x, retry, first, count = int(words[5], 16), *map(int, words[6:9])
    elements = tails(name)
    set_size, proof_size, tries, width, bound = settings
    print(f"settings: set size {set_size}, proof size {proof_size}, tries up to {tries}", end=", ")
    print(f"search width {width}, step bound {bound}, X {x:032x}")
    print(f"{name}: elements read {len(elements)}, kept for the search {len(elements[:2 * set_size])}")
    grown = trees(elements, settings, x, retry, first, count)
    counted = [tree for tree in grown.values() if tree.counts]
    over = [search for search, tree in grown.items() if not tree.counts]
    print(f"R {retry}, S {first} to {first + count - 1}: trees counted {len(counted)}, left out {len(over)}")
    if over:
        more = f" and {len(over) - NAMED} more" if len(over) > NAMED else ""
        print("S", *over[:NAMED], end=f"{more}: refused, number 50: the tree has more chains than the bound\n")
    if not counted:
        return
    chains = [sum(tree.counts) for tree in counted]
    passing = sum(tree.passing for tree in counted)
    print(f"chains {sum(chains)}, mean {rounded(sum(chains), len(counted))}, largest {max(chains)}; passing {passing}")
    if not over:
        print(f"at this mean a try of {width} trees has {width * sum(chains) // len(counted)} chains; the step bound is {bound}")
    by_length = list(zip(*(tree.counts for tree in counted)))
    table([sum(counts) for counts in by_length], [max(counts) for counts in by_length], len(counted))


main(*sys.argv[1:])
