#!/usr/bin/env python3
"""Gives the repository's own definitions and lemmas the spelling of today's library: words in snake case (`startSet` is
`start_set`), facts in camel case, and a dash only between the names of two definitions (`larger-in` is `larger_in`).

    python3 tools/rename_words.py [--dry]

It was run once, after the kit's port.py, at the top. Names of Rust items, of goals (what a proof of a function answers) and of the
library stay. Clauses, specs/, proofs/ and the antt lines of must-fail edits are turned; no other text.
"""
import collections, glob, re, sys

TOKEN = re.compile(r"[^\s(){},;.\"`\[\]|@]+")
DECLARED = re.compile(r"^\s*((?:(?:abbrev|unfoldable|pub|data|record|private)\s+)*)([^\s(){},;.:]+)\s*(?:[({].*)?:\s")
LIBRARY = set("length take drop set get_or map append suc zero add sub mul div mod cond not and or eqb leb ltb min max replicate reverse filter concat true false T pow shl shr".split())
# A lemma that has the name of the definition that it is about, once both are spelled alike.
LEMMAS = set("passed_over stored_bytes whole_is only_child reads_only top_byte at_in go_on goes_on of_three same_bytes same_answer narrowed_at list_at too_few same_place read_done".split())


def files():
    return [p for p in sorted(glob.glob("crates/*/*/**/*.antt", recursive=True)) if "/out/" not in p]


def is_goal_file(path):  # the proof of a function: its folder has the function's name
    return any(re.match(r"[a-z+]", part) for part in path.split("/")[3:-1])


def snake(word):
    return re.sub(r"(?<=[a-z0-9'])([A-Z])(?![A-Z]*$)|(?<=[a-z0-9'])([A-Z])", lambda m: "_" + m.group(0).lower(), word) if not word[:1].isupper() else word


def main(dry):
    texts = {p: open(p, encoding="utf-8").read() for p in files()}
    crates = {p.split("/")[1] for p in texts}
    declared, words, foreign, facts = collections.defaultdict(set), set(), set(), set()
    for p, text in texts.items():
        for m in re.finditer(r"^\s*(?:pub )?use ([^\s{]+?)\.\{([^}]*)\}", text, re.M):
            if m.group(1).split(".")[:2][-1] not in crates or not m.group(1).startswith("Rattle."):
                foreign.update(TOKEN.findall(m.group(2)))
        for line in text.split("\n"):
            m = DECLARED.match(line)
            if not m or line.lstrip().startswith("--") or "use " in line[: m.start(2)]:
                continue
            declared[m.group(2)].add(p)
            if re.search(r"abbrev|unfoldable|data|record", m.group(1)):
                words.add(m.group(2))
                if re.search(r"(^|→ |: )Type \S+( where)?$", line) and "data" not in m.group(1) and "record" not in m.group(1):
                    facts.add(m.group(2))
            elif re.match(r"\s+", line):  # a constructor or a field, or a definition below `where`
                words.add(m.group(2))
    turned = {}
    small = words | {snake(w) for w in words} | LIBRARY
    for name, places in sorted(declared.items()):
        if name in foreign or name.startswith("◌"):
            continue
        parts = [snake(it) for it in name.split("-")]
        out = ("-" if all(it in small for it in parts) else "_").join(parts)
        if all(is_goal_file(p) for p in places) and "-" in name:
            out = "-".join(parts)  # a goal
        if name in facts and out[:1].islower():
            out = "".join(it[:1].upper() + it[1:] for it in re.split("[_-]", out))
        if name in LEMMAS:
            out += "_lem"
        if out != name:
            turned[name] = out
    for p, text in texts.items():  # variables, fields declared side by side, and names given by `as`
        for line in text.split("\n"):
            for one in TOKEN.findall(re.split(r"(?:^|\s)--(?:\s|$)", line)[0]):
                if re.fullmatch(r"[a-z]+[A-Z][A-Za-z0-9']*", one) and one not in foreign:
                    turned.setdefault(one, snake(one))
    for name, out in list(turned.items()):  # a dashed lemma beside the definition that it is about
        if "-" in name and (out in words or any(o != name and n == out for o, n in turned.items())):
            turned[name] = out + "_lem"
    # names that fall together
    bad = []
    into = collections.defaultdict(set)
    for old, new in turned.items():
        into[new].add(old)
    for new, olds in into.items():
        if len(olds) > 1:
            bad.append(f"{sorted(olds)} -> {new}")
    for p, text in texts.items():
        tokens = set(TOKEN.findall("\n".join(l.split("--")[0] if not l.lstrip().startswith("--") else "" for l in text.split("\n"))))
        for old in tokens & set(turned):
            if turned[old] in tokens:
                bad.append(f"{p}: {old} -> {turned[old]}, which is there")
    print("\n".join(bad))
    print(len(turned), "names turned;", len(bad), "fall together")
    if dry:
        for old, new in sorted(turned.items()):
            print(old, new)
        return
    def turn(text):
        def one(m):
            name, at, end = m.group(0), m.start(), m.end()
            is_path = name in LEMMAS and (text[at - 1 : at] == "." or text[end : end + 1] == "." and text[end + 1 : end + 2].strip())
            return name if is_path else turned.get(name, name)

        return TOKEN.sub(one, text)

    # in prose a name stands between backquotes, or is camel-cased
    camel = {o: n for o, n in turned.items() if re.search(r"[a-z0-9][A-Z]", o)}
    turn_camel = lambda text: TOKEN.sub(lambda m: camel.get(m.group(0), m.group(0)), text)

    def line_of(line):
        at = line.find("--") if re.search(r"(^|\s)--(\s|$)", line) else -1
        at = re.search(r"(^|\s)--(\s|$)", line).start() if at >= 0 else len(line)
        comment = re.sub(r"`[^`]*`", lambda m: turn(m.group(0)), line[at:])
        return turn(line[:at]) + turn_camel(comment)

    for p, text in texts.items():
        new = "\n".join(line_of(l) for l in text.split("\n"))
        if new != text:
            open(p, "w", encoding="utf-8").write(new)
    for p in sorted(glob.glob("crates/*/src/**/*.rt", recursive=True)):
        text = open(p, encoding="utf-8").read()
        new, ghost = [], False
        for line in text.split("\n"):
            is_clause = ghost or re.match(r"\s*(ghost use|pub ghost|ghost|requires|ensures)\b", line)
            if is_clause:
                ghost = line.count("{") + (1 if ghost else 0) > line.count("}") and not line.rstrip().endswith(";") if "ghost use" not in line else not line.rstrip().endswith(";")
            new.append(turn(line) if is_clause else turn_camel(line) if re.match(r"\s*//", line) else line)
        new = "\n".join(new)
        if new != text:
            open(p, "w", encoding="utf-8").write(new)
    for p in sorted(glob.glob("crates/*/must-fail/*.edit")):
        text = open(p, encoding="utf-8").read()
        if re.search(r"^file: (specs|proofs)/", text, re.M):
            # (port.py, which turns no edit, had turned some of these words elsewhere)
            again = lambda l: TOKEN.sub(lambda m: snake(m.group(0)) if re.search(r"[a-z0-9][A-Z]", m.group(0)) and snake(m.group(0)) in words | set(turned.values()) else m.group(0), l)
            new = "\n".join(l if l.startswith(("file:", "#")) else again(turn(l)) for l in text.split("\n"))
            if new != text:
                open(p, "w", encoding="utf-8").write(new)


main("--dry" in sys.argv[1:])
