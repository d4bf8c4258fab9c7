#!/usr/bin/env python3
"""Lists the places in crates/*/src that docs/DESIGN-PASS.md counts, point by point.

    python3 tools/places.py [TOP] [--list]

TOP is a checkout of this repository, this one if it is left out. With --list each place is printed, else the counts alone.
"""
import collections
import glob
import os
import re
import sys

FUNCTION = re.compile(
    r"^[ \t]*(?:pub(?:\(crate\))? )?(?:extern \"C\" )?fn (?P<name>\w+)(?:<[^>]*>)?\s*\((?P<parameters>(?:[^()]|\([^()]*\))*)\)(?:\s*->\s*(?P<result>[^\n{]+))?",
    re.M,
)
ENUM = re.compile(r"^(?:pub )?enum (?P<name>\w+) \{(?P<body>.*?)^\}", re.M | re.S)
STRUCT = re.compile(r"^(?:pub )?struct (?P<name>\w+)(?:<[^>]*>)? \{(?P<body>.*?)^\}", re.M | re.S)
REQUIRES = re.compile(r"requires(?: \w+)? \{((?:[^{}]|\{[^{}]*\})*)\}", re.S)
NUMBERS = {"wrong_message", "wrong_tocks", "wrong_value", "wrong_fields", "input", "checked", "refusal", "refusal_by", "timer_refused", "no_timer", "state", "step", "feed", "frame", "configure"}
NONE_AS_A_NUMBER = {"search", "find", "next_out", "first_clear", "first_free", "signal", "signal_one", "place", "behind_all", "running"}
CONVERSIONS = re.compile(r"^(signed_\w+|four|eight|get4|put4|put_four|put_eight|word|long_word|wide|byte|byte_of|plane_of|state_of|state_byte|outcome_of|outcome_bytes|request_of|request_kind|request_argument|kind_of|is_idle|first_tocks|period_of|returned|refusal|value|digit|minus|lesser|behind|goes_on)$")


def places(top):
    found = collections.defaultdict(list)
    facts = collections.defaultdict(list)
    for path in sorted(glob.glob(os.path.join(top, "crates/*/src/**/*.rt"), recursive=True)):
        text = open(path, encoding="utf-8").read()
        short = os.path.relpath(path, os.path.join(top, "crates")).replace("/src/", "/")

        def note(point, at, what):
            found[point].append(f"{short}:{text.count(chr(10), 0, at) + 1}: {what}")

        for m in ENUM.finditer(text):
            cases = re.findall(r"^    (\w+)(\(|,| =)", m["body"], re.M)
            names = {c for c, _ in cases}
            if "Refused" in names and len(cases) <= 3 or len(cases) == 2 and names & {"Bad", "Nothing", "None"}:
                note("1a own Option or Result", m.start(), f"enum {m['name']}")
            elif "None" in names:
                note("1a a case None beside others", m.start(), f"enum {m['name']}")
        for m in STRUCT.finditer(text):
            flags = re.findall(r"^    (?:pub )?(\w+): bool,", m["body"], re.M)
            fields = re.findall(r"^    (?:pub )?(\w+):", m["body"], re.M)
            if flags and len(flags) < len(fields):
                for flag in flags:
                    note("1d a flag beside a value", m.start(), f"{m['name']}.{flag}")
            arrays = re.findall(r"^    (?:pub )?(\w+): \[", m["body"], re.M)
            if len(arrays) > 1:
                note("6 parallel arrays", m.start(), f"{m['name']}: {', '.join(arrays)}")
        for m in FUNCTION.finditer(text):
            name, parameters, result = m["name"], m["parameters"], (m["result"] or "").strip()
            if result.startswith("u8") and name in NUMBERS:
                note("1b a refusal as a number", m.start(), name)
            if re.match(r"(u8|usize|u32|Search)\b", result) and name in NONE_AS_A_NUMBER:
                note("1c a number for none", m.start(), name)
            if re.search(r"\ball: bool\b", parameters):
                note("1d a flag beside a value", m.start(), f"{name}(all, semaphore)")
            if re.search(r"\bcode: u8\b", parameters):
                note("1e a code as a number", m.start(), name)
            if CONVERSIONS.match(name):
                note("4 by hand", m.start(), name)
            if re.search(r"\bn: usize\b", parameters) and "[u8]" in parameters:
                note("6 a length beside a buffer", m.start(), name)
        for m in re.finditer(r"^ *(while|loop)\b[^\n]*", text, re.M):
            note("3 a loop by hand", m.start(), m[0].strip())
        for m in REQUIRES.finditer(text):
            for part in m[1].split("×"):
                fact = re.sub(r"\.(now|old)", ".v", re.sub(r"\s+", " ", part)).strip().strip("()")
                if fact:
                    facts[fact].append(f"{short}:{text.count(chr(10), 0, m.start()) + 1}: {fact}")
        for m in FUNCTION.finditer(text):
            if re.search(r"\btables: &(mut )?\[u8\]", m["parameters"]) and re.search(r"\bshape: Shape\b", m["parameters"]):
                note("5 tables and shape together", m.start(), m["name"])
    for fact, where in facts.items():
        if len(where) >= 3:
            found["5 a fact in three contracts or more"] += where
    return found


def main():
    arguments = [a for a in sys.argv[1:] if a != "--list"]
    found = places(arguments[0] if arguments else os.path.join(os.path.dirname(os.path.abspath(__file__)), ".."))
    for point in sorted(found):
        print(f"{point}: {len(found[point])}")
        if "--list" in sys.argv:
            for place in found[point]:
                print("   ", place)


main()
