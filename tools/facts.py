#!/usr/bin/env python3
"""facts.py [FOLDER]: the facts that stand in the contracts of three functions or more: each `requires` of src/, split where facts are joined, with its
variables replaced by _, and how often it stands there."""
import collections
import glob
import re
import sys

root = sys.argv[1] if len(sys.argv) > 1 else "."
VARIABLES = "k b i n t u h l r s a c w v on above free model image estimate state boxes layout sends types up low high".split()
count = collections.Counter()
for name in sorted(glob.glob(root + "/crates/*/src/**/*.rt", recursive=True)):
    for clause in re.findall(r"\brequires(?: \w+)? \{ (.*) \}\n", open(name).read()):
        for fact in clause.split(" × "):
            fact = fact.strip()
            while fact.startswith("(") and fact.endswith(")"):
                fact = fact[1:-1]
            fact = re.sub(r"\.(now|old|entry)\b", "", fact)
            fact = re.sub(r"\b[a-z]\w*\.", "", fact)
            count[re.sub(r"\b(%s)\b" % "|".join(VARIABLES), "_", fact)] += 1
for fact, n in count.most_common():
    if n >= 3:
        print(n, fact)
