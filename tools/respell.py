#!/usr/bin/env python3
"""Respells this repository's own definitions and lemmas: words in snake case, a dash only between two names of functions.

usage: tools/respell.py [--check] [TOP]        TOP is a checkout that port.py of the kit has turned; the default is the one that holds this script
       tools/respell.py --table                prints the old and the new spelling of each name

It turns names that the repository declares itself in specs/ and proofs/, in .antt files and in the ghost text of .rt files. Functions of src/, exported names, strings, and the names
that Rattle makes for goals and steps stay as they are. It stops where two names would fall together."""
import os
import re
import sys

NAME = re.compile(r'[^\s(){}.;,@"«»\[\]|]+')
DECLARED = re.compile(r"^(\s*)((?:abbrev |unfoldable |pub |data |record |module )*)([^\s(){}\[\].,;:|=]+)\s*((?:[({].*?[)}]\s*)*):\s+(.*)$")
# The functions that lemmas are named after with a dash, as `map-take`.
LIBRARY = set(
    "length map take drop append set get get_or mem filter cons nil zero suc add sub mul div mod pow eqb ltb leb min max bit_and bit_or bit_xor and or xor not sum LF".split()
)
# Names whose plain turn would fall together with another name, or would read as what they are not.
CHOSEN = dict(
    [(name, snake_lem) for name, snake_lem in (line.split() for line in """
        all-lit all_lit_lem
        case-at case_at_lem
        drop-last drop_last_lem
        final-check final_check_lem
        in_bytes in_bytes_lem
        is-number is_number_lem
        laid_end laid_end_lem
        laid-line laid_line_lem
        laid-times laid_times_lem
        last-of last_of_lem
        line-back line_back_lem
        line-ends line_ends_lem
        line-in line_in_lem
        list_back list_back_lem
        most-rules rules_bound
        most-states states_bound
        most-transitions transitions_bound
        number-line number_line_lem
        onLine at_line
        open-at open_at_lem
        open-terms open_terms_lem
        said_read said_read_lem
        stop-read stop_read_lem
        symbol-at symbol_at_lem
        transition-line transition_line_lem
        whole-file whole_file_lem
    """.strip().split("\n"))]
)


def antt_files(top):
    for folder, dirs, files in os.walk(os.path.join(top, "crates")):
        dirs[:] = sorted(d for d in dirs if d not in ("out", "must-fail"))
        for f in sorted(files):
            if f.endswith(".antt") and (os.sep + "specs" in folder or os.sep + "proofs" in folder):
                yield os.path.join(folder, f)


def rt_files(top):
    for folder, dirs, files in os.walk(os.path.join(top, "crates")):
        dirs[:] = sorted(d for d in dirs if d not in ("out", "must-fail"))
        for f in sorted(files):
            if f.endswith(".rt"):
                yield os.path.join(folder, f)


def snake(word):
    word = word.replace("getD", "get_or")
    word = re.sub(r"(?<=[a-z0-9])(?=[A-Z])", "_", word)
    return re.sub(r"_[A-Z](?![A-Z])", lambda m: m[0].lower(), word)


def declared(top):
    """The names that the repository declares, which of them are definitions of specs/, and which are fields."""
    names, definitions, fields = {}, set(), set()
    for path in antt_files(top):
        proof = os.path.basename(path) == "Proof.antt" or os.sep + "Proof" + os.sep in path
        specs = os.sep + "specs" in path
        record = None
        with open(path, encoding="utf-8") as f:
            lines = f.read().split("\n")
        for at, line in enumerate(lines):
            if line.strip().startswith("--"):
                continue
            depth = len(line) - len(line.lstrip())
            if line.strip() and record is not None and depth <= record:
                record = None
            if re.match(r"\s*(pub )?record\s", line):
                record = depth
            m = DECLARED.match(line)
            if not m:
                continue
            kind, name, signature = m[2], m[3], m[5]
            if proof and (signature.startswith("tie.") or name.endswith("-spec")):
                continue
            names.setdefault(name, []).append(path)
            if record is not None and depth > record and "record" not in kind:
                fields.add(name)
            elif specs:
                definitions.add(name)
    return names, definitions, fields


def table(top):
    names, definitions, fields = declared(top)
    known = LIBRARY
    turn = {}
    for name in names:
        if "module" in name or not (name[0].islower() or name[0] in "◌_"):
            continue
        new = CHOSEN.get(name)
        if new is None:
            parts = [snake(p) for p in name.split("-")]
            joint = "-" if name not in fields and all(p in known for p in parts) else "_"
            new = joint.join(parts)
        if new != name:
            turn[name] = new
    return turn, names, fields


def clashes(top, turn, names):
    """Names that would be spelled alike and that one file holds, but for a field behind its dot."""
    spelled = {}
    for name in names:
        spelled.setdefault(turn.get(name, name), set()).add(name)
    together = {new: olds for new, olds in spelled.items() if len(olds) > 1}
    held = {}
    for path in antt_files(top):
        with open(path, encoding="utf-8") as f:
            text = re.sub(r"--[^\n]*|//[^\n]*", "", f.read())
        words = {m[0] for m in NAME.finditer(text) if text[m.start() - 1 : m.start()] != "."}
        for new, olds in together.items():
            if len(olds & words) > 1 or (olds & words and new in words and new not in olds):
                held.setdefault(new, []).append(path)
    return {new: together[new] for new in held}


def turn_text(text, turn, fields, ghost=False):
    def word(m):
        name = m[0]
        bare = name
        if bare not in turn:
            return name
        at = m.start()
        if text_now[at - 1 : at] == ".":
            chain = re.search(r'[^\s(){};,"«»\[\]|]*$', text_now[:at])[0]
            head = chain.split(".")[0]
            if bare not in fields and not (head == "Rattle" or head[:1].isupper()):
                return name
            if head in ("tie", "goal"):
                return name
        return turn[bare]

    out = []
    for piece in re.split(r"(--[^\n]*|//[^\n]*|\"(?:[^\"\\\n]|\\.)*\")", text):
        if piece.startswith(("--", "//")):
            out.append(re.sub(r"`[^`\n]*`|[A-Za-z]*[a-z0-9][A-Z][A-Za-z0-9]*", lambda s: span(s[0], turn), piece))
        elif piece.startswith('"'):
            out.append(piece)
        else:
            text_now = piece
            out.append(NAME.sub(word, piece))
    return "".join(out)


def span(text, turn):
    return NAME.sub(lambda m: turn.get(m[0], m[0]), text.strip("`")).join(["`", "`"] if text.startswith("`") else ["", ""])


def main():
    args = sys.argv[1:]
    check = "--check" in args
    show = "--table" in args
    rest = [a for a in args if not a.startswith("--")]
    top = rest[0] if rest else os.path.dirname(os.path.dirname(os.path.realpath(__file__)))
    turn, names, fields = table(top)
    # A name with other letters between holes, as `◌andThen◌`, is used without them.
    for name in list(turn):
        if "◌" in name:
            for old, new in zip(name.split("◌"), turn[name].split("◌")):
                if old and old != new:
                    turn[old] = new
    if show:
        for name in sorted(turn):
            print(name + "\t" + turn[name])
        return 0
    bad = clashes(top, turn, names)
    for new in sorted(bad):
        print("fall together:", new, "of", ", ".join(f"{n} ({len(names[n])}: {names[n][0].split('crates/')[1]})" for n in sorted(bad[new])))
    if bad and "--anyway" not in args:
        return 1
    changed = 0
    for path in list(antt_files(top)) + list(rt_files(top)):
        with open(path, encoding="utf-8") as f:
            text = f.read()
        new = turn_text(text, turn, fields)
        if new != text:
            changed += 1
            if not check:
                with open(path, "w", encoding="utf-8") as f:
                    f.write(new)
    print(f"respelled {len(turn)} names in {changed} files")
    return 0


if __name__ == "__main__":
    sys.exit(main())
