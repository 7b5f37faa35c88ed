#!/usr/bin/env python3
"""Brings this repository's own names to today's spelling: words in snake case, types in camel case.

usage: python3 tools/respell.py [FOLDER]    once, in a tree (default: this repository) whose syntax has been turned already

Names that specs/ and proofs/ define are respelled wherever antt stands: in specs/, in proofs/, and in the ghost items,
clauses and attributes of src/. Names of src/, strings, comments, inputs, outputs and must-fail edits keep their text.
A name that Rattle makes ('goal.') keeps its dashes, and so does a library's.
"""

import os
import re
import sys

# A token of antt: a dash, a slash or a question mark may stand in a name.
TOKEN = re.compile(r"[^\s(){}\[\].,;:\"`λ→×⊎¬]+")
DEFINED = re.compile(r"^\s*(?:(?:abbrev|unfoldable|pub|private)\s+)*(?:(?:record|data|ruleset)\s+)?(?:pub\s+)?(" + TOKEN.pattern + r")(?:\s+[({][^)}]*[)}])*\s+:\s")

# Spellings that no rule gives: names of library words that changed, and aliases that only end in a capital.
OTHERS = {"subInv": "sub_inv", "sboxInv": "sbox_inv", "sub-subInv": "sub_sub_inv", "subInv-lt": "sub_inv_lt", "subInv-sub": "sub_inv_sub",
          "getD-block": "get_or_block", "getD-cut": "get_or_cut", "getD-xor": "get_or_xor", "getD_part": "get_or_part",
          "patchedOf": "patched_of", "joinedOf": "joined_of", "movedBy": "moved_by", "mixedOf": "mixed_of", "keyedOf": "keyed_of", "dummyOf": "dummy_of",
          "dummyRounds": "dummy_rounds_of", "nextByteOf": "next_byte_of", "columnOf": "column_of", "tempOf": "temp_of", "rconOf": "rcon_of",
          "same-blocks?": "same_blocks_or_not", "all-below": "below_all",
          "header-answers": "header_answers", "body-answers": "body_answers", "part-long": "part_long", "zero-place": "zero_place", "end-place": "end_place", "tail-short": "tail_short"}


def files(root, ending):
    for folder, dirs, names in os.walk(os.path.join(root, "crates")):
        dirs[:] = sorted(d for d in dirs if d != "out")
        for name in sorted(names):
            if name.endswith(ending):
                yield os.path.join(folder, name)


def respelled(name, in_specs):
    if name in OTHERS:
        return OTHERS[name]
    if name[0].isupper() and in_specs:
        return "".join(part[:1].upper() + part[1:] for part in name.split("-"))
    return name.replace("-", "_")


def own_names(root):
    table = dict(OTHERS)
    for path in files(root, ".antt"):
        with open(path, encoding="utf-8") as f:
            for line in f:
                found = DEFINED.match(line)
                if found and "-" in found.group(1) and not re.search(r":\s*goal\.", line):
                    name = found.group(1)
                    table.setdefault(name, respelled(name, "/specs/" in path))
    return table


def turn(text, table):
    return TOKEN.sub(lambda m: table.get(m.group(0), m.group(0)), text)


def turn_antt(text, table):
    lines = []
    for line in text.split("\n"):
        code, dashes, comment = line.partition("--") if line.lstrip().startswith("--") else line.partition(" -- ")
        lines.append(turn(code, table) + dashes + comment)
    return "\n".join(lines)


def functions_of(text):
    """Names that Rust items and imports bring into a source file."""
    names = set(re.findall(r"\bfn (\w+)", text))
    for used in re.findall(r"(?m)^\s*(?:pub )?use ([^;]*);", text):
        names.update(re.findall(r"\w+", used))
    return names


def turn_rt(text, table):
    """Ghost items, clauses and attributes only. An import that falls together with a function of the file gets another name."""
    taken = functions_of(text)
    local = dict(table)
    out, depth = [], None
    for line in text.split("\n"):
        ghost = depth is not None or re.match(r"\s*(ghost |requires|ensures|#!?\[tactic)", line)
        if not ghost:
            out.append(line)
            continue
        if re.match(r"\s*ghost use ", line):
            for name in re.findall(r" as (\w+)[,}]", line):
                if name in taken:
                    line = line.replace(f" as {name}", f" as {name}_answer")
                    local[name] = f"{name}_answer"
            for name in TOKEN.findall(line):
                if local.get(name) in taken and f"{name} as " not in line:
                    line = re.sub(r"(?<=[{ ])" + re.escape(name) + r"(?=[,}])", f"{name} as {local[name]}_of", line)
                    local[name] = local[name] + "_of"
            out.append(turn(line, table))
        else:
            out.append(turn(line, local))
        depth = (depth or 0) + line.count("{") - line.count("}")
        if depth <= 0:
            depth = None
    return "\n".join(out)


def main(root):
    table = own_names(root)
    spelt = {}
    for name, new in table.items():
        spelt.setdefault(new, []).append(name)
    for new, names in sorted(spelt.items()):
        if len(names) > 1:
            print(f"fall together: {', '.join(names)} -> {new}")
    for ending, how in ((".antt", turn_antt), (".rt", turn_rt)):
        for path in files(root, ending):
            with open(path, encoding="utf-8") as f:
                old = f.read()
            new = how(old, table)
            if new != old:
                with open(path, "w", encoding="utf-8") as f:
                    f.write(new)
    print(f"{len(table)} names")


if __name__ == "__main__":
    main(sys.argv[1] if len(sys.argv) > 1 else os.path.join(os.path.dirname(os.path.abspath(__file__)), ".."))
