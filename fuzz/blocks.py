#!/usr/bin/env python3
"""Lists where blocks of instructions start, for cover.c: hex digits, one a line, rising.

usage: blocks.py PROGRAM [MAP]

MAP is the linker's map: then only code that comes from an archive (lib*.a) is listed, without the C library's. Without a map the
whole of .text is. A block starts where a jump leads to, behind each jump or return, and at each function. objdump reads the
instructions one after the other, which is right for compiled code: it has no data in .text.
"""
import bisect
import re
import subprocess
import sys

INSTRUCTION = re.compile(r"^\s+([0-9a-f]+):\t(\S+)(?:\s+([0-9a-f]+)\b)?")
FUNCTION = re.compile(r"^([0-9a-f]{8,}) <")
# a name on a line of its own, or before the numbers
SECTION = re.compile(r"^ \.text\S*\s+0x([0-9a-f]+)\s+0x([0-9a-f]+)\s+(\S+)")
PADDING = ("nop", "nopw", "nopl", "data16", "xchg", "int3", "cs")


def of_archives(name):
    with open(name, encoding="utf-8") as file:
        text = file.read()
    # a long section name has its numbers on the next line
    text = re.sub(r"^( \.text\S*)\n\s+0x", r"\1 0x", text, flags=re.M)
    ranges = []
    for line in text.splitlines():
        found = SECTION.match(line)
        if found and re.search(r"/lib(capi|capi_large|probe)\.a\(", found[3]):
            start, size = int(found[1], 16), int(found[2], 16)
            if size:
                ranges.append((start, start + size))
    return sorted(ranges)


def main(program, *maps):
    ranges = of_archives(maps[0]) if maps else [(0, 1 << 64)]
    if not ranges:
        sys.exit("no code of an archive in the map")
    starts = [low for low, _ in ranges]

    def listed(at):
        k = bisect.bisect_right(starts, at) - 1
        return k >= 0 and at < ranges[k][1]

    words = ["objdump", "-d", "-j", ".text", "--no-show-raw-insn", program]
    printed = subprocess.run(words, check=True, capture_output=True, text=True).stdout
    instructions, blocks, after = set(), set(), False
    for line in printed.splitlines():
        entry = FUNCTION.match(line)
        if entry:
            blocks.add(int(entry[1], 16))
            after = False
            continue
        found = INSTRUCTION.match(line)
        if not found:
            continue
        at, word, target = int(found[1], 16), found[2], found[3]
        instructions.add(at)
        if after and word not in PADDING:
            blocks.add(at)
            after = False
        jumps = word.startswith("j") or word in ("notrack", "bnd")
        if jumps or word.startswith(("ret", "ud2", "hlt")):
            after = True
        if (jumps or word.startswith("call")) and target:
            blocks.add(int(target, 16))
    for at in sorted(blocks & instructions):
        if listed(at):
            print(f"{at:x}")


if __name__ == "__main__":
    main(*sys.argv[1:])
