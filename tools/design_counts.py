#!/usr/bin/env python3
"""Counts, for each point of docs/DESIGN-PASS.md, the places in crates/*/src (and for point 8 in crates/*/proofs): design_counts.py [-v]
With -v each place is told. Run at the top of the repository, or of any checkout of it."""
import glob
import re
import sys

TOLD = "-v" in sys.argv
SOURCES = sorted(glob.glob("crates/*/src/*.rt"))
PRIMITIVE = r"\b(u8|u16|u32|u64|usize|i32|bool)\b"
CONSTANT = r"\b[A-Z][A-Z0-9_]+\b"


def lines(pattern, files=None, skip=r"^\s*//"):
    """The lines of code that a pattern is found in."""
    found = []
    for path in files or SOURCES:
        for number, line in enumerate(open(path, encoding="utf-8"), 1):
            if re.search(pattern, line) and not re.search(skip, line):
                found.append(f"{path}:{number}: {line.strip()}")
    return found


def functions():
    """Each function of the sources: its place, name, signature, contract and body."""
    for path in SOURCES:
        text = re.sub(r"//[^\n]*", "", open(path, encoding="utf-8").read())
        for it in re.finditer(r"^( *)(?:pub )?(?:extern \"C\" )?fn (\w+)", text, re.M):
            end = re.compile(rf"^{it[1]}}}$", re.M).search(text, it.start())
            whole = text[it.start() : end.end() if end else len(text)]
            clauses = re.findall(r"^\s+(?:requires|ensures)[^\n]*", whole, re.M)
            bare = re.sub(r"^\s+(?:requires|ensures)[^\n]*\n", "", whole, flags=re.M)
            signature, _, body = bare.partition("\n{" if "\n{" in bare else "{")
            yield f"{path}: {it[2]}", signature, clauses, body


def twins():
    """Groups of functions whose texts differ only in names of functions, primitive types, constants and numbers."""
    groups = {}
    for place, signature, _, body in functions():
        if place.startswith("crates/") and "_vectors" in place:
            continue
        text = re.sub(r"fn \w+", "fn", signature) + "{" + body
        text = re.sub(r"\b\w+(?=\()", "call", re.sub(r"\b\d[\d_]*\b|b'.'", "0", text))
        text = re.sub(CONSTANT, "K", re.sub(PRIMITIVE, "T", text))
        groups.setdefault(re.sub(r"\s+", " ", text), []).append(place)
    return [", ".join(it) for it in groups.values() if len(it) > 1]


def repeated_facts():
    """Facts on the state of words that stand in the premises of three functions or more, and how many."""
    counts = {}
    for place, _, clauses, _ in functions():
        for fact in set(re.findall(r"\b(Valid\w*|Rising|Within|NamesAddress|AlgorithmFits)\b", " ".join(c for c in clauses if "requires" in c))):
            counts.setdefault(fact, []).append(place)
    return [f"{fact}: {len(it)} functions" for fact, it in sorted(counts.items()) if len(it) > 2]


def travelling():
    """Runs of two parameters or more, by name and type, that five functions or more take together."""
    counts = {}
    for place, signature, _, _ in functions():
        taken = re.findall(r"(\w+): (&?(?:mut )?[\w\[\]<>:]+)", re.sub(r"\s+", " ", signature))
        for i in range(len(taken) - 1):
            counts.setdefault(tuple(taken[i : i + 2]), []).append(place)
    return [f"{', '.join(': '.join(p) for p in run)}: {len(it)} functions" for run, it in sorted(counts.items()) if len(it) > 4]


def buffers():
    """Structs that hold a buffer and a number that says how much of it counts, and columns of a table that lie apart."""
    found = []
    for path in SOURCES:
        text = open(path, encoding="utf-8").read()
        for it in re.finditer(r"^(?:pub )?struct (\w+)[^{;]*\{(.*?)^\}", text, re.M | re.S):
            if re.search(r"\[u\d+", it[2]) and re.search(r"\b(len|length|filled|used|count|n): ", it[2]):
                found.append(f"{path}: struct {it[1]}")
    return found + lines(r"(out|block|buf): &mut \[u8\], (at|filled|used|wrote): usize")


REFUSED = r"\b(WRONG_LENGTH|WRONG_TYPE|WRONG_ADDRESS_LENGTH|ESI_RESERVED|OTHER_SEGMENT|ADDRESS_ZERO|LIST_LENGTH|TABLE_FULL|NOT_PRESENT|TAG_RESERVED|READY_TOO_LONG|NONE_ELIGIBLE|ESI_TEXT|BUFFER_SHORT|ALGORITHM_NOT_USABLE|BAD_RECORD|WAIT_OUT_OF_RANGE|FLOW_LENGTH|STEP_OUT_OF_RANGE|RANGES_WRONG|CANDIDATES_WRONG|EVENT_UNKNOWN)\b"
PROOFS = sorted(glob.glob("crates/*/proofs/**/*.antt", recursive=True))

COUNTS = [
    ("1a", "refusal numbers in code, as constants", lambda: lines(REFUSED, skip=r"^\s*(//|use )")),
    ("1b", "fields for a number that may be a refusal", lambda: lines(r"^\s+(pub )?number: u8,")),
    ("1c", "enums of the repository (those of the shape of Option or Result are read out of these)", lambda: lines(r"^(pub )?enum ")),
    ("1d", "flags: a truth value as a field", lambda: lines(r"^\s+(pub )?\w+: bool,")),
    ("1e", "tests of a number for a refusal", lambda: lines(r"\b\w*number (==|!=) (0|[A-Z])")),
    ("2", "groups of functions of one shape", twins),
    ("3", "loops by `while`", lambda: lines(r"^\s*while ")),
    ("4", "functions that compare, copy or convert by their names", lambda: lines(r"fn (same\w*|\w*compare\w*|precedes|copy\w*|\w+_number|of_\w+|\w*_of|as_\w+|to_\w+)\(")),
    ("5a", "facts in the premises of three functions or more", repeated_facts),
    ("5b", "pairs of parameters that five functions or more take", travelling),
    ("6", "buffers with a length beside them", buffers),
    ("7", "choices of a step by a number", lambda: lines(r"match (algorithm|kind|part|event|n)\b|if (part|algorithm|kind|family) == ")),
    ("8a", "answers that are a search of the rules alone", lambda: lines(r"search rules\)?$", PROOFS, r"^\s*--")),
    ("8b", "proofs that walk the code by hand", lambda: lines(r"tie\.spec", PROOFS, r"^\s*--")),
]

for point, what, places in COUNTS:
    found = places()
    print(f"{point:3} {len(found):4}  {what}")
    if TOLD:
        print("".join(f"            {it}\n" for it in found), end="")
