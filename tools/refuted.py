#!/usr/bin/env python3
"""Writes into each must-fail edit the name of the first error that the prover has, where this is not what the edit turns: a line 'first: NAME'.

    python3 tools/refuted.py [LOG]      (build/rt-ci.log)

The line 'refuted: NAME' above it names the fact that the edit turns, and is written by hand. What is refused for another reason, or not at all, is
left as it is and told by tests/gate/must-fail-logs/run; tests/gate/must-fail-logs/whole finds the fact among all that a check of the edited crate refuses.
"""
import re
import sys

log = sys.argv[1] if len(sys.argv) > 1 else "build/rt-ci.log"
LINE = re.compile(r"rt: must-fail (\w+)/([\w.-]+\.edit): refused, as it must be: (?:\S+: error: `([^`]+)`|note: .*\(`([^`]+)`\))")
with open(log, encoding="utf-8", errors="replace") as it:
    found = {f"crates/{crate}/must-fail/{edit}": one or other for crate, edit, one, other in LINE.findall(it.read())}
for path, name in sorted(found.items()):
    with open(path, encoding="utf-8") as it:
        text = it.read()
    refuted = re.search(r"^refuted: (.*)\n", text, re.M)
    if not refuted:
        print(f"{path}: no line 'refuted: NAME'")
        continue
    bare = re.sub(r"^first: .*\n", "", text, flags=re.M)
    at = refuted.end()
    new = bare if name == refuted[1] else bare[:at] + f"first: {name}\n" + bare[at:]
    if new != text:
        print(f"{path}: first is {name}")
        with open(path, "w", encoding="utf-8") as it:
            it.write(new)
