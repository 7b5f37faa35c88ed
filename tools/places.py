#!/usr/bin/env python3
"""Lists places in crates/*/src that older forms of the language leave, by seven points.

  tools/places.py            a count for each point
  tools/places.py N          each place of point N, with its file and line

What it looks for is text; a person judges each place. Tables (tables.rt) are data and are passed over.
"""
import itertools
import pathlib
import re
import sys

ROOT = pathlib.Path(__file__).resolve().parent.parent
FILES = sorted(f for f in ROOT.glob("crates/*/src/*.rt") if f.name != "tables.rt")
SIGNATURE = re.compile(r"^\s*(?:pub(?:\(crate\))? )?(?:extern \"C\" )?fn (\w+)")
TOKEN = re.compile(r"\w+|[^\w\s]")


def lines_of(path):
    for number, line in enumerate(path.read_text().splitlines(), 1):
        if not line.lstrip().startswith("//"):
            yield number, line


def matching(pattern, keep=lambda line: True):
    found = []
    for path in FILES:
        for number, line in lines_of(path):
            if re.search(pattern, line) and keep(line):
                found.append((path, number, line.strip()))
    return found


def functions():
    """Each function: its file, line, name, clauses and body, up to the closing brace of its indentation."""
    out = []
    for path in FILES:
        rows = path.read_text().splitlines()
        at = 0
        while at < len(rows):
            head = SIGNATURE.match(rows[at])
            if not head:
                at += 1
                continue
            indent = len(rows[at]) - len(rows[at].lstrip())
            end = at
            while end < len(rows) and not re.match(r"^ {%d}\}|.*;$" % indent, rows[end]):
                end += 1
                if end - at > 90:
                    break
            out.append((path, at + 1, head.group(1), rows[at : end + 1]))
            at = end + 1
    return out


def blocks(pattern):
    """Each item of this head (impl, struct), as its tokens."""
    out = []
    for path in FILES:
        rows = path.read_text().splitlines()
        for at, row in enumerate(rows):
            if re.match(pattern, row) and row.endswith("{"):
                end = at
                while end < len(rows) and rows[end] != "}":
                    end += 1
                out.append((path, at + 1, row.strip(), TOKEN.findall(" ".join(rows[at : end + 1]))))
    return out


def alike(a, b):
    """As many tokens, and at most three in ten of them others."""
    if len(a) != len(b):
        return False
    other = sum(x != y for x, y in zip(a, b))
    return other * 10 <= len(a) * 3


def point_1():
    found = matching(r"^\s*(?:pub(?:\(crate\))? )?\w+: bool,")
    found += matching(r"^\s*(Taken|Refused\(|None,$|Unread,$)", lambda line: "=>" not in line and "::" not in line)
    found += [f for f in matching(r"=> \d+,$|^\s*\"?\(?\d[^=]*=> ")]
    for path, line, name, rows in functions():
        if re.search(r"-> u8$|-> u8 *\{?$", rows[0]) and re.sub(r"\s", "", rows[-2]) == "0":
            found.append((path, line, rows[0].strip() + " .. 0"))
    return found


def point_2():
    items = []
    for path, line, name, rows in functions():
        body = " ".join(r.strip() for r in rows if not r.strip().startswith(("ensures", "requires", "//")))
        items.append((path, line, rows[0].strip(), TOKEN.findall(body)))
    items += blocks(r"^impl.* for |^(?:pub(?:\(crate\))? )?struct ")
    found = {}
    for a, b in itertools.combinations(items, 2):
        if a[0].parts[-3] == b[0].parts[-3] and len(a[3]) >= 18 and alike(a[3], b[3]):
            found[a[:3]] = found[b[:3]] = True
    return sorted(found)


def point_3():
    return matching(r"\bfor \w+ in .*\.\.|\bwhile\b|\bloop\b|\.\.=?\w*\)\.rev\(\)")


def point_4():
    found = matching(r"^impl.*(Display|From|FromStr|PartialEq|Ord|Clone)\b.* for ")
    found += matching(r"^\s*(?:pub(?:\(crate\))? )?fn (words_of|bytes_of|pair_of|f_of|inv_f_of|number_of|le\d+|to_le_bytes|number|named|of|text|digit|xor|xor_registers|array|bytes)\b")
    return found


def point_5():
    found = []
    clauses = {}
    for path, line, name, rows in functions():
        for offset, row in enumerate(rows):
            clause = re.match(r"\s*(?:ensures \w* ?|requires \w* ?)(\{.*\})", row)
            if clause:
                clauses.setdefault(re.sub(r"self|mode", "it", clause.group(1)), []).append((path, line + offset, row.strip()))
    found += [place for places in clauses.values() if len(places) >= 3 for place in places]
    pairs = {}
    for path, line, name, rows in functions():
        text = " ".join(rows).split("{")[0]
        names = [n for n in re.findall(r"\b(\w+): &?'?(?:mut )?[\w\[<]", text) if n not in ("rt", "heap", "self", "out") and not n.isupper()]
        for a, b in itertools.combinations(names, 2):
            pairs.setdefault((a, b), []).append((path, line, rows[0].strip()))
    for (a, b), places in sorted(pairs.items()):
        if len(places) >= 3:
            path, line, head = places[0]
            found.append((path, line, f"{a} and {b}, in {len(places)} functions, first: {head}"))
    return found


def point_6():
    found = matching(r"^\s*(?:pub(?:\(crate\))? )?(len|count|n): (usize|u8),")
    found += matching(r"\b(row|words)\[\d+\]")
    return found


def point_7():
    """Two or more arms side by side that call one function, at other types or on other variants."""
    found = []
    for path in FILES:
        arms = []
        for number, line in list(lines_of(path)) + [(0, "")]:
            call = re.match(r"\s*[^=]*=> (?:Ok\()?(?:\w+::)?(?:\w+\()?(?:\w+[.:]+)?(\w+)(?:::<\w+>)?\(", line)
            if arms and (not call or call.group(1) != arms[-1][3]):
                if len(arms) >= 2 and arms[0][3] not in ("write", "write_str", "Some", "Ok", "Err"):
                    found += [arm[:3] for arm in arms]
                arms = []
            if call:
                arms.append((path, number, line.strip(), call.group(1)))
    return found


POINTS = [point_1, point_2, point_3, point_4, point_5, point_6, point_7]


def main():
    wanted = sys.argv[1:]
    for index, point in enumerate(POINTS, 1):
        places = point()
        if not wanted:
            print(f"point {index}: {len(places)}")
        elif wanted == [str(index)]:
            for path, line, text in places:
                print(f"{path.relative_to(ROOT)}:{line}: {text}")


main()
