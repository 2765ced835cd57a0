#!/usr/bin/env python3
"""Lists the places in crates/*/src that an older style would leave, a group for each point of docs/DESIGN-PASS.md.

    tools/places.py [POINT ..]        every place of these points (all, if none is named), and then the counts
    tools/places.py --counts          the counts alone

It goes by text, so a place that it lists may be right as it is; the page says so where one is."""
import re
import sys
from collections import defaultdict
from pathlib import Path

ROOT = Path(__file__).resolve().parent.parent
FILES = sorted(ROOT.glob("crates/*/src/*.rt"))
FUNCTION = re.compile(r"^\s*(?:pub(?:\(crate\))? )?fn (\w+)")


def lines():
    for path in FILES:
        for number, line in enumerate(path.read_text().split("\n"), 1):
            if not line.lstrip().startswith("//"):
                yield str(path.relative_to(ROOT / "crates")), number, line


def matching(pattern, but=None):
    seen = re.compile(pattern)
    return [(f"{path}:{number}", line.strip()) for path, number, line in lines()
            if seen.search(line) and not (but and re.search(but, line))]


def functions():
    """Of each function: where it stands, its parameters' names, and its clauses' texts."""
    for path in FILES:
        text = path.read_text().split("\n")
        i = 0
        while i < len(text):
            found = FUNCTION.match(text[i])
            if not found:
                i += 1
                continue
            start, head = i, []
            while i < len(text) and text[i].strip() not in ("{", "}") and not text[i].rstrip().endswith(";"):
                head.append(text[i])
                i += 1
            head = " ".join(part.strip() for part in head)
            where = f"{path.relative_to(ROOT / 'crates')}:{start + 1}"
            signature = re.split(r" (?:requires|ensures)\b", head)[0]
            names = [n for n in re.findall(r"[(,] ?(?:mut )?(\w+): ", signature)]
            clauses = re.findall(r"(?:requires|ensures)(?: \w+)? (\{.*?\})(?= (?:requires|ensures)\b|$)", head)
            yield where, found.group(1), names, clauses
            i += 1


def enums():
    """Own enums that derive neither a comparison nor Debug."""
    found, derives = [], ""
    for path, number, line in lines():
        if line.startswith("#[derive("):
            derives = line
        elif re.match(r"(pub(\(crate\))? )?enum ", line):
            if "PartialEq" not in derives and "Debug" not in derives:
                found.append((f"{path}:{number}", line.strip()))
            derives = ""
        elif line and not line.startswith("#"):
            derives = ""
    return found


def flags():
    """Fields that are a flag, or an Option or a Result beside a count."""
    return matching(r"^\s+(pub(\(crate\))? )?\w+: (bool|Vec<bool>|Option<Fault>|Result<)[^=]*,$")


def hand_matches():
    """Arms that pass an error on, or turn it, by hand."""
    return matching(r"^\s*(Err\(\w+\)|Ok\(\w*\)|Ok\(\(\)\)|None|Some\(\w+\)) => |^\s*if let Err\(")


def numbers():
    """Kinds or refusals told as numbers, or picked by one."""
    return matching(r"fn number\(&?self\) -> u8|match random|fn \w+\([^)]*\) -> u8 \{$")


def twins():
    """Functions of one crate whose bodies are one text but for names and numbers."""
    bodies = defaultdict(list)
    for path in FILES:
        text = path.read_text().split("\n")
        for i, line in enumerate(text):
            found = FUNCTION.match(line)
            if not found:
                continue
            indent = " " * (len(line) - len(line.lstrip()))
            rest = [j for j in range(i, len(text)) if text[j] == indent + "}"]
            starts = [j for j in range(i, len(text)) if text[j] == indent + "{" or (text[j].startswith(indent) and text[j].endswith(" {"))]
            if rest and starts and starts[0] < rest[0] and rest[0] - starts[0] > 2:
                body = re.sub(r"\b\w+\b", "_", "\n".join(text[starts[0] + 1 : rest[0]]))
                bodies[path.parent, body].append((f"{path.relative_to(ROOT / 'crates')}:{i + 1}", found.group(1)))
    return [place for places in bodies.values() if len(places) > 1 for place in places]


def loops():
    """Loops over a range of numbers that name the number, and loops with a test."""
    return matching(r"\bfor (?!_)\w+ in [^{]*\.\.|\bwhile (?!let)")


def counters():
    """Counters that a loop raises by hand."""
    return matching(r"\b(\w+) (\+= 1;|= \1\.saturating_add\(1\);)")


def by_hand():
    """Comparisons and conversions by hand, and locals that are made for a format alone."""
    found = matching(r"fn (same|kind_of|state_of|spelling|rows_of|link_memory)\b|fn (number|row|permit)\(&?self\) -> (u8|Row|Permit)")
    for path in FILES:
        text = path.read_text().split("\n")
        for i, line in enumerate(text):
            local = re.match(r"( +)let (\w+) = [\w.]+\.\2(?:\(\))?;$", line)
            if local:
                ends = (j for j in range(i, len(text)) if text[j].startswith(local.group(1)[4:] + "}"))
                rest = "\n".join(text[i + 1 : next(ends, len(text))])
                if not re.search(rf"\b{local.group(2)}\b", re.sub(r'"[^"]*"', "", rest)):
                    found.append((f"{path.relative_to(ROOT / 'crates')}:{i + 1}", line.strip()))
    return found


def travelling():
    """Clauses that stand in three functions or more of a crate, and threes of parameters that three functions or more have."""
    clauses, groups = defaultdict(set), defaultdict(set)
    for where, _, names, texts in functions():
        crate = where.split("/")[0]
        for text in texts:
            clauses[crate, re.sub(r"\.(old|now)\b", ".old", text)].add(where)
        for i in range(len(names) - 2):
            groups[crate, " ".join(names[i : i + 3])].add(where)
    found = []
    for what in (clauses, groups):
        for (crate, text), places in sorted(what.items()):
            if len(places) >= 3:
                found.append((f"{crate} ({len(places)} functions)", text))
    return found


def arrays():
    """Structs with two lists or more, slots beside a length, and lists taken as Vec."""
    found = []
    for path in FILES:
        text = path.read_text()
        for struct in re.finditer(r"struct (\w+)[^{;]*\{\n(.*?)\n\}", text, re.S):
            lists = re.findall(r"^\s+(?:pub(?:\(crate\))? )?(\w+): (?:Vec<|\[|&'?\w* ?(?:mut )?\[)", struct.group(2), re.M)
            if len(lists) > 1:
                line = text[: struct.start()].count("\n") + 1
                found.append((f"{path.relative_to(ROOT / 'crates')}:{line}", f"{struct.group(1)}: {', '.join(lists)}"))
    found += matching(r": &(mut )?Vec<")
    found += matching(r"^\s+(pub(\(crate\))? )?(len|count|nodes|links): (usize|u32),$")
    return found


def switches():
    """Enums that say which way to go, and numbers that pick a call."""
    return matching(r"enum (Stop|Role|Asked|Turn) \{|match random")


def answers():
    """Answers in proofs/, one a line `goal.NAME`."""
    found = []
    for path in sorted(ROOT.glob("crates/*/proofs/**/Answers.antt")):
        count = len(re.findall(r": goal\.", path.read_text()))
        found += [(str(path.relative_to(ROOT / "crates")), "")] * count
    return found


POINTS = {
    "1": [enums, flags, hand_matches, numbers],
    "2": [twins],
    "3": [loops, counters],
    "4": [by_hand],
    "5": [travelling],
    "6": [arrays],
    "7": [switches],
    "8": [answers],
}


def main():
    wanted = [a for a in sys.argv[1:] if a in POINTS] or list(POINTS)
    for point in wanted:
        for search in POINTS[point]:
            found = search()
            print(f"point {point}, {search.__name__}: {len(found)}")
            if "--counts" not in sys.argv and search is not answers:
                for where, text in found:
                    print(f"    {where}: {text}")


if __name__ == "__main__":
    main()
