#!/usr/bin/env python3
"""Brings the repository's own names to today's spelling, once, after port.py.

usage: python3 tools/spelling.py [ROOT]

A definition, a constructor or a field is in snake case; a lemma's words are joined by `_`, and a dash stays only between two
names one of which is std's, as in `length-append`. The proof of a function f is `f_spec`, and each crate's root asks for
tactics. Names that Rattle makes or asks for (goals, invariants, measures) and the names of src/ keep their spelling. The
must-fail edits follow. A new name that stands already, or that two would share, is not taken: the old one is kept and told.
"""
import collections
import os
import re
import sys

ROOT = sys.argv[1] if len(sys.argv) > 1 else "."
WORD = r"[^\s(){}\[\];,.·\"`]+"
DECLARED = re.compile(r"^(\s*)(?:(?:abbrev|unfoldable)\s+)?(?:pub\s+)?(?:(record|data|mod|module)\s+)?(" + WORD + r")\s*(?:[({].*)?:(?:\s|$)")
# Names of std that the repository's lemmas speak of.
STD = set(
    "length map sum take drop append set get_or replicate reverse and or xor not mod div add sub mul le lt pow shl shr suc zero "
    "one cons nil member".split()
)
# Definitions whose new names a lemma has, which then is the one that gets another name; or which stand in no file together.
LEMMAS = {"listed_by": "listed_by_lem", "no_room": "no_room_lem", "not_listed": "not_listed_lem"}
APART = {"allRight", "inOrder", "listedBy", "noRoom", "notListed", "perWire"}
# Constructors that stand on one line.
TOGETHER = {"assertZero": "assert_zero", "assertNonZero": "assert_non_zero", "assertFalse": "assert_false", "assertTrue": "assert_true"}
MADE = re.compile(r"^(returns|invariant|decreases|loop|overflow|bounds|nonzero|cast)-|-requires(-\d+)?$|^(dests|columns)-(again|holds|next)$")


def files(ending):
    for folder, inner, names in os.walk(os.path.join(ROOT, "crates")):
        inner[:] = sorted(d for d in inner if d != "out")
        for name in sorted(names):
            path = os.path.join(folder, name)
            if path.endswith(ending):
                yield path


def read(path):
    with open(path, encoding="utf-8") as file:
        return file.read()


def snake(name):
    return re.sub(r"([a-z0-9])([A-Z])", lambda m: m.group(1) + "_" + m.group(2).lower(), name)


def joined(name, words):
    """The parts of a dashed name: a dash where every part is a name and one of them is std's, else `_` throughout."""
    parts = name.split("-")
    ways = [None] * len(parts) + [[]]
    for at in range(len(parts) - 1, -1, -1):
        for end in range(at + 1, len(parts) + 1):
            word = "_".join(parts[at:end])
            if word in words and ways[end] is not None:
                ways[at] = [word] + ways[end]
                break
    return "-".join(ways[0]) if ways[0] and STD.intersection(ways[0]) else "_".join(parts)


def declarations():
    """name -> whether some file of specs/ declares it"""
    found = collections.defaultdict(bool)
    for path in files(".antt"):
        for line in read(path).split("\n"):
            if line.lstrip().startswith(("--", "use ", "pub use ")):
                continue
            match = DECLARED.match(line)
            if match:
                found[match.group(3)] |= "/specs/" in path
    return found


def main():
    declared = declarations()
    # What a name may not fall together with: any word of the specs and proofs but the paths of modules.
    code = "\n".join(re.sub(r"^(pub )?use [^{]*(\{|$)", "", line) for path in files(".antt") for line in read(path).split("\n"))
    taken = set(re.findall(r"(?<!\.)(?<![\w\-'])" + WORD, code))
    functions = set(re.findall(r"\bfn (\w+)", "\n".join(read(path) for path in files(".rt"))))
    words = STD | {snake(name) for name, spec in declared.items() if spec and "-" not in name} | functions
    renamed = LEMMAS | TOGETHER
    for name in sorted(declared, key=lambda n: ("-" in n, n)):
        if MADE.search(name) or not re.search(r"-|[a-z0-9][A-Z]", name) or not re.match(r"^[a-z]", name):
            continue
        if name.endswith("-spec"):
            new = snake(name).replace("-", "_")
        else:
            new = joined(snake(name), words) if "-" in name else snake(name)
        if new == name:
            continue
        # A lemma that would have its function's name.
        if "-" in name and (new in taken or new in renamed.values()):
            new += "_lem"
        if name not in APART and (new in taken or new in renamed.values()):
            print(f"kept: {name}, since {new} stands already")
            continue
        renamed[name] = new
    # Whole words: antt's names may hold dashes and primes, so neither may stand beside one.
    pattern = re.compile(r"(?<![\w\-'◌])(" + "|".join(sorted(map(re.escape, renamed), key=len, reverse=True)) + r")(?![\w\-'◌])")
    plain = re.compile(r"(?<![\w\-'◌])(" + "|".join(sorted((re.escape(n) for n in renamed if "-" not in n), key=len, reverse=True)) + r")(?![\w\-'◌])")
    for ending in (".antt", ".rt", ".edit"):
        for path in files(ending):
            old = read(path)
            new = []
            for line in old.split("\n"):
                # In code a dash is a minus, so there dashed names stand in comments alone. An edit is of a file of antt or of code,
                # as its first lines say.
                use = pattern if ending == ".antt" or line.lstrip().startswith("//") or ".antt" in old[:80] else plain
                new.append(use.sub(lambda m: renamed[m.group(1)], line))
            new = "\n".join(new)
            if new != old:
                with open(path, "w", encoding="utf-8") as file:
                    file.write(new)
    for path in [*files("src/lib.rt"), *files("src/main.rt")]:
        lines = read(path).split("\n")
        head = next(at for at, line in enumerate(lines) if not line.startswith("//"))
        if "#![tactic(auto)]" not in lines:
            gap = [] if lines[head] == "" else [""]
            lines[head:head] = ["#![tactic(auto)]"] + gap
            with open(path, "w", encoding="utf-8") as file:
                file.write("\n".join(lines))
    print(f"{len(renamed)} names")


if __name__ == "__main__":
    main()
