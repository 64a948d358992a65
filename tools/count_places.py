#!/usr/bin/env python3
"""Counts the places in src/ that docs/DESIGN-PASS.md speaks of, point by point: tools/count_places.py [FOLDER] [-v]."""
import collections
import pathlib
import re
import sys

KEPT_WORDS = {"if", "else", "match", "while", "loop", "for", "return", "let", "mut", "as", "in", "break"}


class Function:
    def __init__(self, crate, name, head, body):
        self.crate, self.name, self.head, self.body = crate, name, head, body

    def __str__(self):
        return f"{self.crate}::{self.name}"

    def parameters(self):
        return set(re.findall(r"(\w+): ", self.head))


def functions(crate, text):
    for start in re.finditer(r"(?m)^ *(?:pub(?:\(\w+\))? )?(?:extern \"C\" )?fn (\w+)", text):
        brace = re.compile(r"(?m)^ *\{\n|\) (?:-> [^\n{]*)?\{\n").search(text, start.end())
        if not brace:
            continue
        end, depth = brace.end(), 1
        while depth and end < len(text):
            depth += {"{": 1, "}": -1}.get(text[end], 0)
            end += 1
        head = text[start.end():brace.start()].split("requires")[0].split("ensures")[0]
        yield Function(crate, start[1], head, text[brace.end():end - 1])


def shape(body):
    """A body without its names, words and numbers: twins have one shape."""
    text = re.sub(r"b?\"[^\"]*\"", "s", body)
    text = re.sub(r"b?'[^']*'", "s", text)
    text = re.sub(r"\b[a-zA-Z_]\w*\b", lambda m: m[0] if m[0] in KEPT_WORDS else "x", text)
    text = re.sub(r"\b\d+\b", "9", text).replace("x::x", "x")
    return re.sub(r"\s+", " ", text).strip()


def variants(body):
    """The names of an enum's variants, and whether each carries data."""
    flat = re.sub(r"\{[^{}]*\}|\([^()]*\)", "#", body)
    return [(m[1], "#" in m[0]) for m in re.finditer(r"(\w+)\s*#?", flat.replace("= 1", ""))]


def main():
    folder = pathlib.Path(next((a for a in sys.argv[1:] if a != "-v"), "."))
    places = collections.defaultdict(list)
    twins = collections.defaultdict(list)
    for path in sorted(folder.glob("crates/*/src/*.rt")):
        crate = path.parts[-3]
        text = re.sub(r"//[^\n]*", "", path.read_text())
        for enum in re.finditer(r"(?m)^(?:pub(?:\(\w+\))? )?enum (\w+) \{\n((?:    .*\n)+)\}", text):
            found = variants(enum[2])
            mixed = len({data for _, data in found}) == 2
            if mixed or any(name == "Refused" for name, _ in found):
                places["1 enums with a variant Refused, or variants with data beside ones without"].append(f"{crate}::{enum[1]}")
        for number in re.finditer(r"number: \d+|pass_if\(\d+|refusal\(\d+|number (?:!=|==) \d+", text):
            places["1 numbers of checks in the code"].append(f"{crate}: {number[0]}")
        for code in re.finditer(r"(?m)^(?:pub(?:\(\w+\))? )?const (\w+): u(?:8|16) = \d+;", text):
            places["1 constants that number kinds"].append(f"{crate}::{code[1]}")
        for f in functions(crate, text):
            if f.body.strip():
                twins[shape(f.body)].append(f)
            for _ in re.finditer(r"while (?:[^{]*)\{", f.body):
                if re.search(r"\b\w+ [+-]= 1;", f.body):
                    places["3 while loops in functions that step a counter by one"].append(str(f))
            if re.fullmatch(r"wide\w*|is_same\w*|copy\w*|larger|lesser|clear|fill|number|mark_number|read_kind|one_if|successor|length_at|number_at|word|is_letter|is_digit|same", f.name):
                places["4 conversions, comparisons and copies by hand"].append(str(f))
            for group in ({"table", "sizes"}, {"start", "stop"}, {"start", "end"}, {"starts", "anys", "contexts", "marks"}, {"depths", "traps", "loops"}, {"pending", "counts"}, {"line", "column"}, {"text", "at"}):
                if group <= f.parameters():
                    places["5 functions with " + ", ".join(sorted(group))].append(str(f))
            arrays = collections.Counter(re.findall(r"let mut \w+ = \[[^;]*; ([^\]]*)\]", f.body))
            if any(n > 1 for n in arrays.values()):
                places["6 functions with arrays of one length beside each other"].append(str(f))
            if re.search(r"match weight|any: bool|call: u8|match call", f.head + f.body):
                places["7 functions that switch on which step to run"].append(str(f))
    for group in twins.values():
        if len(group) > 1:
            places["2 functions of one shape, by names and numbers apart"].append(" ".join(str(f) for f in group))
    answers = [p for p in folder.glob("crates/*/proofs/**/Answers.antt")]
    places["8 answers"] = [a for p in answers for a in re.findall(r"(?m)^pub (\S+) : goal", p.read_text())]
    for name in sorted(places):
        count = sum(len(g.split()) for g in places[name]) if name[0] == "2" else len(places[name])
        print(f"{count:5} {name}")
        if "-v" in sys.argv and name[0] != "8":
            for place in places[name]:
                print("        ", place)


main()
