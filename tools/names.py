#!/usr/bin/env python3
"""Brings this repository's own definitions, lemmas and fields to snake case, after port.py has run: `upTo` and `row-long` become `up_to` and `row_long`.

usage: python3 tools/names.py [--dry]     at the top of the repository

It reads which names specs/ and proofs/ declare, and writes each anew wherever it stands as a whole word: in .antt files, in the clauses of .rt files,
in must-fail edits and in docs. A lemma or a field whose name would fall together with a definition's gets `_lem`. A definition that a source imports
and that would have the name of a function there is imported as `NAME_of`. Words of comments stay but for names in camel case and in backticks.
"""
import collections
import os
import re
import sys

WORD = r"[^\s(){}\[\].,;:\"⟨⟩|`]+"
DECLARES = re.compile(r"^\s*(?:(?:unfoldable|abbrev|pub)\s+)*(" + WORD + r") :(?:\s+(.*))?$")
TYPE = re.compile(r"^\s*(?:(?:abbrev|pub)\s+)*(?:data|record)\s+(" + WORD + ")")
# Names under which a file imports another's, and parts of statements, which are no lemmas.
BY_HAND = {
    "is_open": "open_here", "under-rise": "below_rise", "over-fall": "above_fall", "under-spread": "below_spread", "over-spread": "above_spread",
    "read_back": "reads_back", "exact-candidate": "candidate_exact", "lower-weight": "by_lower_weight", "no-day": "refuses_day",
    "no-corridor": "refuses_corridor",
    "keptBy": "kept_by", "ioDigits": "io_digits", "isGood": "is_good", "rateOf": "rate_of",
}


def files(*ends):
    for folder, dirs, names in os.walk("crates"):
        dirs[:] = sorted(d for d in dirs if d != "out")
        for name in sorted(names):
            if name.endswith(ends):
                yield os.path.join(folder, name)


def text_of(path):
    with open(path, encoding="utf-8") as f:
        return f.read()


def snake(name):
    name = name.replace("-", "_")
    return re.sub(r"(?<=[a-z0-9'_])([A-Z])", lambda m: ("" if m.string[m.start() - 1] == "_" else "_") + m.group(1).lower(), name)


def declared():
    found = collections.defaultdict(set)
    for path in files(".antt"):
        for line in text_of(path).splitlines():
            if line.lstrip().startswith("--"):
                continue
            m = DECLARES.match(line)
            if m and not re.match(r"(tie|goal|needs)\.", m.group(2) or ""):
                found[m.group(1)].add(path)
            m = TYPE.match(line)
            if m:
                found[m.group(1)].add(path)
    return found


def is_own(name):
    return bool(re.match(r"◌?[a-z]", name)) and bool(re.search(r"[A-Z]", name) or "-" in name)


def table(found):
    new = {}
    together = collections.defaultdict(set)
    for name in found:
        together[snake(name) if is_own(name) else name].add(name)
    for to, names in together.items():
        ranked = sorted(names, key=lambda n: ("-" in n, not re.search("[A-Z]", n), n))
        if len(ranked) > 1 and not re.search("[A-Z]", ranked[0]):
            ranked = sorted(names, key=lambda n: ("-" in n, n))
        for k, name in enumerate(ranked):
            goal = to if k == 0 else to + "_lem" * k
            if goal != name:
                new[name] = goal
    for name in list(new):
        if re.match(r"◌\w+◌$", name):
            new[name.strip("◌")] = new[name].strip("◌")
    new.update(BY_HAND)
    return new


def turned(text, new, comment, tokens=re.compile(WORD)):
    lines = []
    for line in text.split("\n"):
        at = line.find(comment)
        if at >= 0 and (at == 0 or line[at - 1].isspace()):
            code, words = line[:at], line[at:]
        else:
            code, words = line, ""
        code = tokens.sub(lambda m: new.get(m.group(0), m.group(0)), code)
        words = re.sub(r"\b[a-z]+[A-Z]\w*", lambda m: new.get(m.group(0), m.group(0)), words)
        words = re.sub(r"`([^`]+)`", lambda m: "`" + tokens.sub(lambda w: new.get(w.group(0), w.group(0)), m.group(1)) + "`", words)
        lines.append(code + words)
    return "\n".join(lines)


def main(argv):
    found = declared()
    new = table(found)
    dry = "--dry" in argv
    changed = 0
    targets = collections.defaultdict(set)
    for a, b in new.items():
        targets[b].add(a)
    for path in list(files(".antt", ".rt", ".edit")):
        text = text_of(path)
        comment = "//" if path.endswith(".rt") else "--"
        here = set(re.findall(WORD, text))
        if dry:
            for b in sorted(here & set(targets)):
                olds = (targets[b] & here) - {b}
                if olds and not (b in new):
                    print("look:", path, b, sorted(olds))
        if path.endswith(".edit"):
            comment = "\0"
        to = turned(text, new, comment)
        if to != text:
            changed += 1
            if not dry:
                with open(path, "w", encoding="utf-8") as f:
                    f.write(to)
    if not dry:
        for path in ["docs/PROMISES.md", "docs/DECISIONS.md", "README.md"]:
            text = text_of(path)
            to = re.sub(r"`([^`\n]+)`", lambda m: "`" + re.sub(WORD, lambda w: new.get(w.group(0), w.group(0)), m.group(1)) + "`", text)
            if to != text:
                with open(path, "w", encoding="utf-8") as f:
                    f.write(to)
    print(f"names: {len(new)} names, {changed} files")
    return 0


if __name__ == "__main__":
    sys.exit(main(sys.argv[1:]))
