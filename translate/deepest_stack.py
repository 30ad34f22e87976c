#!/usr/bin/env python3
"""
The deepest stack of a C function, by gcc's own account: `deepest_stack.py FUNCTION MOST < FILE.ci`, where gcc wrote FILE.ci with
-fcallgraph-info=su: the bytes of each function's frame, and who calls whom after inlining. Prints the sum along the deepest chain of calls
and the chain, and fails unless it is under MOST. What isn't in the file, such as memcpy or the division of 64-bit numbers, is counted with
OUTSIDE bytes; a frame without a bound and a call in a circle are refused.
"""
import re
import sys

# More than gcc's __aeabi_uldivmod takes with what it calls, which is the deepest of them (72 bytes by its pushes, for a Cortex-M0).
OUTSIDE = 128

# Of the second, where a struct is pushed as an argument, gcc says the most that the function takes.
BOUNDED = ("static", "dynamic,bounded")


def read(text):
    frames, calls = {}, {}
    for title, label in re.findall(r'node: \{ title: "([^"]*)" label: "([^"]*)"', text):
        size = re.search(r"\\n(\d+) bytes \(([^)]*)\)", label)
        if size and size.group(2) not in BOUNDED:
            sys.exit(f"deepest_stack: {title} has a frame without a bound")
        frames[title] = int(size.group(1)) if size else OUTSIDE
    for caller, callee in re.findall(r'edge: \{ sourcename: "([^"]*)" targetname: "([^"]*)"', text):
        calls.setdefault(caller, set()).add(callee)
    return frames, calls


def deepest(title, frames, calls, around=()):
    """The bytes of the deepest chain from a function, and the chain."""
    if title in around:
        sys.exit(f"deepest_stack: {title} calls itself")
    below = [deepest(callee, frames, calls, around + (title,)) for callee in sorted(calls.get(title, ()))]
    size, chain = max(below, default=(0, []))
    frame = frames.get(title, OUTSIDE)
    return frame + size, [(frame, title.split(":")[-1])] + chain


def main():
    function, most = sys.argv[1], int(sys.argv[2])
    frames, calls = read(sys.stdin.read())
    if function not in frames:
        sys.exit(f"deepest_stack: there is no function {function}")
    size, chain = deepest(function, frames, calls)
    print(f"{function}: {size} bytes of stack at most: " + " > ".join(f"{title} {bytes_}" for bytes_, title in chain))
    if size >= most:
        sys.exit(f"deepest_stack: not under {most}")


if __name__ == "__main__":
    main()
