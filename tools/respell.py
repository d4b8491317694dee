#!/usr/bin/env python3
"""Brings the names of this repository's own definitions, lemmas and fields to one spelling: types and facts in upper camel case, all else in
snake case, a dash only between two names that a lemma joins. Run once, at the top, on files that port.py has turned: python3 tools/respell.py
It rewrites specs/ and proofs/ and the ghost text of src/, and stops, with nothing written, where two names would become one."""

import glob
import re
import sys

# a dash stays where it joins the names of two definitions
JOINED = {
    "length-byNode-more": "length-by_node-more",
    "length-byNode-other": "length-by_node-other",
    "length-spaced-take": "length-spaced-take",
    "length-starts": "length-starts",
    "length-words": "length-words",
    "length-links": "length-links",
    "length-map'": "length-map'",
    "getD-starts": "get_or-starts",
    "take-exchanged": "take-exchanged",
    "drop-exchanged": "drop-exchanged",
    "sum-append": "sum-append",
    "sum-cleared": "sum-cleared",
    "sum-le-upTo": "sum-le-up_to",
    "absent-append": "Absent-append",
    "absent-map": "Absent-map",
    "distinct-map": "Distinct-map",
}
# the plain spelling would be that of another name
APART = {"both-cost": "both_cost_lem", "pair-costs": "pair_costs_lem", "kindName": "name_of_kind"}
# the same spelling as a function of src/, which stands elsewhere
ALIKE = {"cheapest_path"}
NAME = r"[^\s:(){}\[\],;.λ→|@\"]+"
SIGNATURE = re.compile(r"^\s*(?:(?:abbrev|unfoldable|pub|record|data)\s+)*(" + NAME + r")(?:\s+[({].*)?\s+:(?:\s|$)")
ALIAS = re.compile(r"\bas (" + NAME + r")(?=[\s,}]|$)")
IMPORT = re.compile(r"^use (\S+?)\.\{(.*)\}")
FIELD = re.compile(r"^  +pub (" + NAME + r") :")
TOKEN = re.compile(r"(\.?)((?:[A-Za-z_'0-9]|(?<=\w)-(?=\w))+)")


def files(pattern):
    return sorted(p for p in glob.glob(pattern, recursive=True) if "/out/" not in p)


def wants(name):
    return re.fullmatch(r"[A-Za-z][\w'-]*", name) and ("-" in name or re.search(r"[a-z][A-Z]|^[a-z]+[A-Z]$", name) and name[0].islower())


def respelled(name):
    if name in JOINED or name in APART:
        return JOINED.get(name) or APART[name]
    if name[0].isupper():
        return "".join(part[0].upper() + part[1:] for part in name.split("-"))
    return re.sub(r"(?<=[a-z0-9])([A-Z])", lambda m: "_" + m[1].lower(), name).replace("-", "_")


def main():
    antt = files("crates/*/specs/**/*.antt") + files("crates/*/proofs/**/*.antt")
    rust = files("crates/*/src/**/*.rt")
    text = {p: open(p, encoding="utf-8").read() for p in antt + rust}
    crates = {p.split("/")[1] for p in antt}
    own, fields, seen, theirs, local = set(), set(), set(), set(), set()
    for p in antt:
        made = p.endswith(("/Answers.antt", "/Invariants.antt"))
        for line in text[p].splitlines():
            code = line.split("--")[0]
            seen |= {m[2] for m in TOKEN.finditer(code)}
            if m := IMPORT.match(code):
                if m[1].split(".")[0] != "Rattle" or m[1].split(".")[1] not in crates or ".specs.declared" in m[1]:
                    theirs |= {n for part in m[2].split(",") for n in part.split()}
            elif not made:
                local |= {m[2] for m in TOKEN.finditer(code) if not m[1]}
            if (m := FIELD.match(code)) and not made:
                fields.add(m[1])
            elif (m := SIGNATURE.match(code)) and not made:
                own.add(m[1])
            own |= {m[1] for m in ALIAS.finditer(code) if m[1][0].islower()}
    turn = {n: respelled(n) for n in own | fields | local - theirs if wants(n) and respelled(n) != n}
    bad = [f"{n} and {turn[n]}" for n in turn if turn[n] in seen and turn[n] not in ALIKE]
    by = {}
    for n, t in turn.items():
        by.setdefault(t, []).append(n)
    bad += [" and ".join(ns) for ns in by.values() if len(ns) > 1]
    if bad:
        print("respell: fall together: " + "; ".join(sorted(bad)))
        return 1

    def one(m):
        name = m[2]
        if name not in turn or (m[1] and name not in fields):
            return m[0]
        return m[1] + turn[name]

    for p in antt:
        out = "".join(TOKEN.sub(one, line.split("--")[0]) + line[len(line.split("--")[0]):] for line in text[p].splitlines(keepends=True))
        if out != text[p]:
            open(p, "w", encoding="utf-8").write(out)
    for p in rust:
        out, lines, deep = [], text[p].splitlines(keepends=True), 0
        for line in lines:
            starts = re.match(r"\s*(ghost use |pub ghost |ghost |requires|ensures)", line)
            if starts or deep > 0:
                deep += line.count("{") - line.count("}")
                out.append(TOKEN.sub(one, line))
            else:
                deep = 0
                out.append(line)
        whole = "".join(out)
        if whole != text[p]:
            open(p, "w", encoding="utf-8").write(whole)
    print(f"respell: {len(turn)} names")
    return 0


if __name__ == "__main__":
    sys.exit(main())
