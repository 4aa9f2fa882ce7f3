#!/usr/bin/env python3
"""Brings the names that imports give, as in `use m.{a as b-c}`, to snake case, file by file; a must-fail edit goes with the file that it edits.

usage: python3 tools/respell_aliases.py     at the top of the repository, after respell.py
"""

import glob
import os
import re

ALIAS = re.compile(r"\bas ([a-z][a-z_]*(?:-[a-z_]+)+)(?=[,}; \n])")
for crate in sorted(glob.glob("crates/*")):
    for path in sorted(glob.glob(crate + "/**/*", recursive=True)):
        if "/out/" in path or not path.endswith((".rt", ".antt")):
            continue
        text = open(path, encoding="utf-8").read()
        names = set(ALIAS.findall("\n".join(l for l in text.split("\n") if re.match(r"(pub )?(ghost )?use ", l))))
        if not names:
            continue
        inside = os.path.relpath(path, crate)
        files = [path] + [e for e in glob.glob(crate + "/must-fail/*.edit") if "file: " + inside + "\n" in open(e, encoding="utf-8").read()]
        for name in names:
            word = re.compile(r"(?<![\w.'?-])" + re.escape(name) + r"(?![\w'?-])")
            for f in files:
                old = open(f, encoding="utf-8").read()
                new = word.sub(name.replace("-", "_"), old)
                if new != old:
                    open(f, "w", encoding="utf-8").write(new)
        print(path, sorted(names))
