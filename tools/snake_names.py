#!/usr/bin/env python3
"""Brings the repository's own definitions, lemmas, fields and variables of specs/ and proofs/ to snake case.

usage: python3 tools/snake_names.py [--list]     at the top of the repository, once, right after the kit's port.py

Words with capitals inside (dayAheadPrice) and own words with hyphens (dead-weighs-nothing) become words with
underscores, wherever specs/, proofs/, the clauses of src/ and the pages of docs/ name them. Types and modules keep
their capitals; names that the checker makes (goals and steps), strings, comments and functions of src/ stay as they are.
"""
import os
import re
import sys

TOKEN = r"[A-Za-z_\u00c0-\uffff0-9'\-]"
WORD = re.compile(r"(?<![A-Za-z0-9_'\-])[A-Za-z][A-Za-z0-9_']*(?:-[A-Za-z0-9_']+)*(?![A-Za-z0-9_'])")
DECL = re.compile(r"^(\s*)((?:(?:abbrev|unfoldable|record|data|pub|private|instance)\s+)*)([A-Za-z][A-Za-z0-9_'\-]*)((?:\s+[({][^:]*:.*?[)}])*)\s+:(?=\s)(.*)$")
USE = re.compile(r"^(?:ghost )?(?:pub )?use ([\w]+\.[^;{\s]+)(?:\.\{(.*)\})?(?: as (\S+?))?;?$")


def files():
    for top, dirs, names in os.walk("crates"):
        dirs[:] = sorted(d for d in dirs if d != "out")
        for n in sorted(names):
            if n.endswith((".antt", ".rt")):
                yield os.path.join(top, n)


# a lemma or field that would fall together with a definition, or with a word of the library
OWN = {
    "all-buses-out": "all_buses_out_row", "one-bus-out": "one_bus_out_row", "north-dead": "north_dead_row", "zone-bus-dead": "zone_bus_dead_row",
    "by-letter": "by_letter_of", "has-bus": "has_bus_placed", "hub-at": "hub_at_number", "of-hub": "of_hub_range", "set-from": "set_from_take",
    "short-run": "short_run_row", "status-text": "status_text_back", "tie-own": "tie_own_kept", "zone-own": "zone_own_kept", "to-bus": "to_bus_ahead",
    "to-constraint": "to_constraint_ahead", "to-lambda": "to_lambda_ahead", "to-outage": "to_outage_ahead", "to-run": "to_run_ahead",
    "run_sound": "run_sound_from", "bit-and": "bit_of_and", "bit-or": "bit_of_or",
}


def snake(word):
    if word in OWN:
        return OWN[word]
    word = re.sub(r"(?<=[a-z0-9])([A-Z])", lambda m: "_" + m.group(1), word)
    return word.replace("-", "_").lower()


def comment_at(line, mark):
    """Where the comment of a line begins, strings left out."""
    i, inside = 0, False
    while i < len(line):
        ch = line[i]
        if ch == "\\" and inside:
            i += 2
            continue
        if ch == '"':
            inside = not inside
        elif not inside and line.startswith(mark, i) and (mark != "--" or i == 0 or line[i - 1] in " ("):
            return i
        i += 1
    return len(line)


def read(path):
    with open(path, encoding="utf-8") as f:
        return f.read()


def inner(path, indent, word):
    """Whether a word of a module's block is defined by clauses at the same place."""
    return re.search(r"(?m)^" + indent + re.escape(word) + r"(?=\s)[^\n]*=", read(path)) is not None


def collect(own):
    """Declared words, declared record fields, words that other libraries gave, and words that the checker makes."""
    declared, fields, foreign, made = {}, set(), set(), set()
    for path in files():
        record = False
        for line in read(path).splitlines():
            if path.endswith(".rt"):
                use = USE.match(line)
                if use and use.group(1).split(".")[1] not in own and use.group(2):
                    foreign |= {w.strip().split(" as ")[0] for w in use.group(2).split(",")}
                continue
            use = USE.match(line)
            if use and use.group(1).split(".")[1] not in own:
                if use.group(2):
                    for w in use.group(2).split(","):
                        w = w.strip().split(" as ")
                        if len(w) == 1:
                            foreign.add(w[0])
                        else:
                            foreign.add(w[0])
                            declared.setdefault(w[1], set()).add(path)
                continue
            if re.match(r"^\S", line):
                record = bool(re.match(r"^(?:pub |abbrev )*record\b", line))
            m = DECL.match(line[:comment_at(line, "--")])
            if not m:
                continue
            if re.match(r"\s*goal\.", m.group(5)) or "goal." in m.group(5) and m.group(3) in m.group(5):
                made.add(m.group(3))
            elif m.group(1) == "" or not record and inner(path, m.group(1), m.group(3)):
                declared.setdefault(m.group(3), set()).add(path)
            elif record and "pub" in m.group(2):
                declared.setdefault(m.group(3), set()).add(path)
                fields.add(m.group(3))
    return declared, fields, foreign, made


def brought(text, own):
    """The words that a file brings in from other libraries, which keep their spelling."""
    words = set()
    for line in text.splitlines():
        use = USE.match(line)
        if use and use.group(2) and use.group(1).split(".")[1] not in own:
            words |= {w.strip().split(" as ")[0] for w in use.group(2).split(",")}
    return words


def plan(declared, fields, foreign, made):
    names = {}
    for word in declared:
        if word in OWN and OWN[word] in declared:  # a second run
            continue
        if not word[0].islower() or word in made or snake(word) == word:
            continue
        names[word] = snake(word)
    # variables with capitals inside, wherever they are bound
    for path in files():
        if path.endswith(".antt"):
            for line in read(path).splitlines():
                code = re.sub(r'"(?:[^"\\]|\\.)*"', '""', line[:comment_at(line, "--")])
                for word in WORD.findall(code):
                    if word[0].islower() and "-" not in word and re.search(r"[a-z0-9][A-Z]", word) and word not in foreign and word not in made:
                        names.setdefault(word, snake(word))
    return names


def turned(code, names, fields):
    def one(m):
        word = m.group(0)
        if word not in names:
            return word
        before = code[:m.start()]
        if before.endswith(".") and "-" in word:
            head = re.search(r"([A-Za-z0-9_'.\-]*)$", before[:-1]).group(1)
            if not head[:1].isupper() and word not in fields:
                return word
            if re.match(r"(c|l|w)$", head):
                print("look: " + head + "." + word)
        return names[word]

    return WORD.sub(one, code)


def outside_strings(text, turn):
    return "".join(part if i % 2 else turn(part) for i, part in enumerate(re.split(r'("(?:[^"\\]|\\.)*")', text)))


def antt(text, names, fields):
    out = []
    for line in text.split("\n"):
        at = comment_at(line, "--")
        out.append(outside_strings(line[:at], lambda c: turned(c, names, fields)) + line[at:])
    return "\n".join(out)


def rt(text, names, fields):
    """Only the lines of contracts and ghost items."""
    out, depth, ghost = [], 0, False
    for line in text.split("\n"):
        at = comment_at(line, "//")
        code = line[:at]
        if depth == 0:
            ghost = bool(re.match(r"\s*(?:pub )?(?:ghost|requires|ensures|decreases)\b", code)) or "#[tactic" in code
        if ghost:
            depth += code.count("{") - code.count("}")
            depth = max(depth, 0)
            code = outside_strings(code, lambda c: turned(c, names, fields))
        out.append(code + line[at:])
    return "\n".join(out)


def page(text, names):
    def ticked(m):
        return "`" + WORD.sub(lambda w: names.get(w.group(0), w.group(0)), m.group(1)) + "`"

    return re.sub(r"`([^`\n]+)`", ticked, text)


def main():
    own = {d for d in os.listdir("crates") if os.path.isdir(os.path.join("crates", d, "src"))}
    declared, fields, foreign, made = collect(own)
    names = plan(declared, fields, foreign, made)
    together = {}
    for old, new in names.items():
        together.setdefault(new, set()).add(old)
    for new, olds in sorted(together.items()):
        if len(olds) > 1 or new in declared:
            print(f"together: {new}: {', '.join(sorted(olds))}{' and a declared ' + new if new in declared else ''}")
    for path in files():
        text = read(path)
        words = set(WORD.findall(re.sub(r'"(?:[^"\\]|\\.)*"', '""', re.sub(r"(?m)(^|\s)(--|//).*$", "", text))))
        for old in sorted(words & set(names)):
            if names[old] in words and path.endswith(".antt"):
                print(f"same-file: {path}: {old} and {names[old]}")
    if "--list" in sys.argv:
        for old in sorted(names):
            print(f"{old} -> {names[old]}")
        return
    every = names
    for path in files():
        text = read(path)
        kept = brought(text, own)
        names = {old: new for old, new in every.items() if old not in kept}
        new = antt(text, names, fields) if path.endswith(".antt") else rt(text, names, fields)
        if new != text:
            with open(path, "w", encoding="utf-8") as f:
                f.write(new)
    ticks = {old: new for old, new in every.items() if old in declared}
    for path in ["README.md"] + sorted(os.path.join("docs", n) for n in os.listdir("docs") if n.endswith(".md")):
        text = read(path)
        new = page(text, ticks)
        if new != text:
            with open(path, "w", encoding="utf-8") as f:
                f.write(new)


main()
