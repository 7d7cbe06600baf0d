"""Lists the places in crates/*/src that today's forms could serve, point by point.

    python3 tools/places.py [COMMIT]

Without a commit it reads the working tree. Each line is POINT, RULE, FILE, and what was found; the last
lines count them. It goes by text, so that a row is a place to look at.
"""

import re
import subprocess
import sys
from collections import Counter, defaultdict


def files(commit):
    if commit:
        names = subprocess.run(
            ["git", "ls-tree", "-r", "--name-only", commit, "crates"],
            capture_output=True, text=True, check=True).stdout.split("\n")
    else:
        names = subprocess.run(
            ["git", "ls-files", "-co", "--exclude-standard", "crates"],
            capture_output=True, text=True, check=True).stdout.split("\n")
    for name in sorted(names):
        if re.match(r"crates/\w+/src/.*\.rt$", name):
            yield name, read(commit, name)


def read(commit, name):
    if commit:
        return subprocess.run(["git", "show", f"{commit}:{name}"],
                              capture_output=True, text=True, check=True).stdout
    try:
        with open(name, encoding="utf-8") as f:
            return f.read()
    except FileNotFoundError:
        return ""


def code(text):
    """The text without comments, clauses and ghost lines."""
    text = re.sub(r"//[^\n]*", "", text)
    text = re.sub(r"^\s*(requires|ensures)\b.*$", "", text, flags=re.M)
    return re.sub(r"^\s*ghost\b.*$", "", text, flags=re.M)


FN = re.compile(r"fn (\w+)(?:<[^(]*>)?\(([^{]*?)\)\s*->\s*([^{;\n]+)", re.S)
WORD = re.compile(r"[A-Za-z_]\w*|0x[0-9A-Fa-f_]+|\d[\d_]*|[^\s\w]")
KEPT = {"fn", "let", "mut", "if", "else", "match", "for", "while", "in", "return", "self", "Self", "Some",
        "None", "Ok", "Err", "as", "pub", "impl", "struct"}

# The words of a function that is long enough to be a twin.
LEAST = 18

PATTERNS = [
    # 1. Option, Result and error enums
    ("1", "unit error", r"Result<[\w()]+, \(\)>"),
    ("1", "flag in a struct", r"^\s+(?:pub(?:\(crate\))? )?\w+: bool,$"),
    ("1", "number for nothing", r"fn \w+\(\) -> u8\s*\{\s*0\s*\}"),
    ("1", "refusal by a table of numbers", r"fn number\(self\)[^{]*\{\s*match self \{"),
    ("1", "let-else that names an error",
     r"let (?:Some|Ok)\((?:mut )?\w+\) = [^;]*?else \{\s*return Err\([^;]*;"),
    ("1", "let-else that drops an error", r"let Ok\(\w+\) = [^;]*?else \{\s*return None;"),
    ("1", "match on Option or Result that a method says",
     r"match [^{;]*\{\s*(?:Some|Ok)\(\w*\)+ => [^{}]*?,\s*(?:None|Err\([\w()]*\)) => (?:Ok\(None\)|[\w:()]+),\s*\}"),
    ("1", "if that makes an Option", r"\{\s*Some\([^{};]*\)\s*\} else \{\s*None\s*\}"),
    # 3. loops that count
    ("3", "while", r"^\s*while [^{]*"),
    ("3", "for over a range", r"^\s*for \w+ in \(?[^{&\n]*\.\.[^{\n]*"),
    # 4. order, conversion and printing by hand
    ("4", "match on an order", r"match [^{]*cmp\([^{]*\{"),
    ("4", "order compared with a case", r"== Ordering::\w+"),
    ("4", "cast", r"\bas (?:u8|u16|u32|u64|usize)\b"),
    ("4", "bytes put together by hand", r"\* 16777216|\* 65536|\* 256\b|/ 256\b|% 256\b|>> \(8 \*"),
    ("4", "text of an enum in a function",
     r"fn \w+\([^)]*\) -> &'static str \{\s*match|fn \w+\([^)]*\)[^{]*\{\s*match \w+ \{\s*\w+::\w+ => Ok\(print"),
    ("4", "struct rebuilt field by field", r"let \w+ \{[^}]*: _,[^}]*\} = self;\s*\w+ \{"),
    # 7. a switch on which step to run
    ("7", "parameter that picks a branch", r"fn \w+[^{;]*\bis_\w+: bool"),
    ("7", "function value", r"\bdyn |: fn\("),
]


def line_of(text, at):
    return text.count("\n", 0, at) + 1


def spans(text):
    """Each function's name and its head with clauses."""
    for m in re.finditer(r"fn (\w+)", text):
        depth, at = 0, m.end()
        while at < len(text):
            ch = text[at]
            if ch == ";" and depth == 0:
                break
            if ch == "{":
                if depth == 0 and not re.search(
                        r"(requires|ensures\*?)(?: \w+)?\s*$", text[m.start():at]):
                    break
                depth += 1
            elif ch == "}":
                depth -= 1
            at += 1
        yield m.group(1), text[m.start():at]


def shape(text):
    """A text with names and numbers left out: what is left of twins is the same."""
    words = (w for w in WORD.findall(text) if w not in ("&", "*", "mut"))
    return " ".join(w if w in KEPT or not re.match(r"\w", w) else "_" for w in words)


def fields(text):
    """Each struct's name, its array fields and its fields that are lengths."""
    for m in re.finditer(r"^(?:pub(?:\(crate\))? )?struct (\w+)[^{;\n]*\{(.*?)^\}", text, re.M | re.S):
        arrays = re.findall(r"^    (?:pub(?:\(crate\))? )?(\w+): \[.*; (\d+)\],$", m.group(2), re.M)
        lengths = re.findall(r"^    (?:pub(?:\(crate\))? )?(len|count|fill): usize,$", m.group(2), re.M)
        yield m.group(1), arrays, lengths


def bodies(text):
    """Each function's name and its code, from the signature on."""
    for m in re.finditer(r"fn (\w+)", text):
        start = text.find("{", m.end())
        stop = text.find(";", m.end())
        if start < 0 or -1 < stop < start and "[" not in text[m.end():stop]:
            continue
        depth, at = 0, start
        while at < len(text):
            depth += {"{": 1, "}": -1}.get(text[at], 0)
            at += 1
            if depth == 0:
                break
        yield m.group(1), text[m.end():at]


def facts(head):
    for m in re.finditer(r"requires(?: \w+)? \{ (.*) \}", head):
        for part in re.split(r" × ", m.group(1)):
            yield re.sub(r"\.(now|old|new)\b", "", part.strip("() "))


def main():
    commit = sys.argv[1] if len(sys.argv) > 1 else None
    rows = []
    repeated = defaultdict(set)
    alike = defaultdict(list)
    for name, text in files(commit):
        bare = code(text)
        for point, rule, pattern in PATTERNS:
            for m in re.finditer(pattern, bare, re.M):
                shown = " ".join(m.group(0).split())[:90]
                rows.append((point, rule, f"{name}:{line_of(bare, m.start())}", shown))
        for m in FN.finditer(bare):
            if "&mut" in m.group(2) and re.match(r"(Option<|Result<)?bool\b", m.group(3).strip()):
                rows.append(("1", "flag that tells success", name, m.group(1)))
        for struct, arrays, lengths in fields(bare):
            for (array, _), length in zip(arrays, lengths):
                rows.append(("6", "buffer with a length beside it", name,
                             f"{struct}: {array}, {length}"))
            sizes = Counter(n for _, n in arrays)
            if not lengths and any(k > 1 for k in sizes.values()):
                rows.append(("6", "arrays side by side", name,
                             f"{struct}: {', '.join(a for a, _ in arrays)}"))
        for fn, body in bodies(bare):
            words = shape(body)
            if len(words.split()) >= LEAST:
                alike[words].append(f"{name}: {fn}")
        crate = name.split("/")[1]
        for fn, head in spans(text):
            for fact in facts(head):
                repeated[(crate, fact)].add(fn)
    for (crate, fact), fns in sorted(repeated.items()):
        if len(fns) >= 3:
            rows.append(("5", "fact asked by three or more", crate,
                         f"{fact}: {', '.join(sorted(fns))}"))
    for places in alike.values():
        for place in places[1:]:
            rows.append(("2", "function of the same shape", place, f"as {places[0]}"))
    for row in sorted(rows):
        print("  ".join(row))
    print()
    for (point, rule), count in sorted(Counter((r[0], r[1]) for r in rows).items()):
        print(f"point {point}: {rule}: {count}")
    for point, count in sorted(Counter(r[0] for r in rows).items()):
        print(f"point {point} in all: {count}")


main()
