"""Compiles every .proto file below folders, and compares the sets with those of protoc; and each of these sets in place of the sources.

    real.py PROGRAM FOLDER..

Each file is compiled from each folder that it stands below, since its imports say which one is meant: what protoc refuses from a folder is
left out. A set of a source is equal to protoc's but for what compare.py takes away, or the file is refused in one line with its place. The set that
protoc has written is then given in place of the sources, and has to be written again byte for byte, with its options, comments and places, or to be
refused by a rule of linking. Any other answer fails.
"""
import difflib
import os
import re
import sys
from collections import Counter
from compare import differences, pb, written_again, written_by

# what linking refuses, and what a source outside the profile is refused with, the file's own or that of a file that it imports
RULE = r"error: [^\n]+: rule \d+: [^\n]+"
REFUSALS = {"source": re.compile(rf"error: [^\n]+:\d+:\d+: expected [^\n]+, but found [^\n]+|{RULE}"), "set": re.compile(RULE)}


def files_below(folder):
    for at, _, names in os.walk(folder):
        for name in names:
            if name.endswith(".proto"):
                yield os.path.relpath(os.path.join(at, name), folder)


def set_differences(ours, theirs):
    """Lines that say in what the set that is written of protoc's differs from it."""
    if ours == theirs:
        return
    one, other = pb.FileDescriptorSet.FromString(ours), pb.FileDescriptorSet.FromString(theirs)
    if one == other:
        yield f"the files are the same in other bytes, {len(ours)} in place of {len(theirs)}"
    yield from difflib.unified_diff(str(one).split("\n"), str(other).split("\n"), "ours", "protoc's", lineterm="")


def answers(program, folder, name, theirs):
    """What the program makes of the source, and of the set that protoc has written of it: a set or what it says, and the differences."""
    yield "source", written_by(program, folder, name), lambda _: differences(program, folder, name)
    yield "set", written_again(program, theirs, name), lambda ours: set_differences(ours, theirs)


def judged(what, ours, differ):
    """Whether the answer is equal, refused or wrong, and what is to be told of it."""
    if isinstance(ours, str):
        return "refused" if REFUSALS[what].fullmatch(ours) else "wrong", [ours]
    lines = list(differ(ours))
    return "wrong" if lines else "equal", lines


def main(program, *folders):
    counts, refused = Counter(), []
    for folder in filter(os.path.isdir, folders):
        for name in sorted(files_below(folder)):
            theirs = written_by("protoc", folder, name)
            if isinstance(theirs, str):
                counts["left out"] += 1
                continue
            for what, ours, differ in answers(program, folder, name, theirs):
                kind, lines = judged(what, ours, differ)
                counts[what, kind] += 1
                if kind == "refused":
                    refused.append(f"refused: {what} {name}: {lines[0]}")
                else:
                    for line in lines:
                        print(f"{what} {name}: {line}")
    for line in refused:
        print(line)
    for what, equal in (("source", "sets of sources are as protoc writes them"), ("set", "sets of protoc are written again byte for byte")):
        print(f"real: {counts[what, 'equal']} {equal}, {counts[what, 'refused']} files are refused, {counts[what, 'wrong']} differ")
    print(f"real: protoc refuses {counts['left out']}")
    return 1 if any(counts[what, "wrong"] or not counts[what, "equal"] for what in REFUSALS) else 0


if __name__ == "__main__":
    sys.exit(main(*sys.argv[1:]))
