#!/usr/bin/env python3
"""Points imports of crates/laws at where a name stands now: theorems moved from its specs/ to its proofs/.

usage: python3 tools/laws_moved.py [FOLDER of crates]
"""

import os
import re
import sys

ROOT = sys.argv[1] if len(sys.argv) > 1 else "crates"
USE = re.compile(r"^((?:ghost )?use )Rattle\.laws\.(?:specs|proofs)\.(\w+)\.\{([^}]*)\}(;?)$", re.M)
DECLARED = re.compile(r"^\s*(?:abbrev\s+|unfoldable\s+)?pub\s+(?:data\s+|record\s+)?([^\s:(){}]+)|^\s{2,}([^\s:(){}]+) :", re.M)


def declared(folder):
    found = {}
    for name in sorted(os.listdir(folder)):
        if name.endswith(".antt") and name != "Lib.antt":
            with open(os.path.join(folder, name), encoding="utf-8") as f:
                for m in DECLARED.finditer(f.read()):
                    found.setdefault(m.group(1) or m.group(2), []).append(name[:-5])
    return found


SPECS = declared(f"{ROOT}/laws/specs")
PROOFS = declared(f"{ROOT}/laws/proofs")
ALSO = {"Demands": ["EntryDemands"], "Allowances": ["EntryAllowances"]}


def turned(m):
    lead, module, names, end = m.groups()
    places = {}
    for name in [n.strip() for n in names.split(",") if n.strip()]:
        plain = name.split(" as ")[0].strip()
        if module in SPECS.get(plain, []):
            where = f"specs.{module}"
        else:
            hits = [x for x in [module, *ALSO.get(module, [])] if x in PROOFS.get(plain, [])]
            if not hits:
                print(f"left: {plain} of {module}")
                where = f"specs.{module}"
            else:
                where = f"proofs.{hits[0]}"
        places.setdefault(where, []).append(name)
    return "\n".join(f"{lead}Rattle.laws.{w}.{{{', '.join(n)}}}{end}" for w, n in places.items())


for folder, folders, files in os.walk(ROOT):
    folders[:] = [f for f in folders if f != "out"]
    for file in files:
        if file.endswith((".antt", ".rt")):
            path = os.path.join(folder, file)
            with open(path, encoding="utf-8") as f:
                text = f.read()
            new = USE.sub(turned, text)
            if new != text:
                with open(path, "w", encoding="utf-8") as f:
                    f.write(new)
