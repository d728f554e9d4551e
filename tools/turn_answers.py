#!/usr/bin/env python3
"""Respells, in answers, the names that Rattle makes: the source's names keep their underscores, and its own words have them.

usage: python3 tools/turn_answers.py CRATE..     at the top of the repository
"""

import glob
import re
import sys

OWN = ["in_ok", "in_err", "in_default", "from_residual", "type_inv", "as_mut_slice", "as_slice", "from_le_bytes", "write_str", "write_char", "as_bytes", "is_none", "is_some", "is_err", "is_ok", "overflow_add", "overflow_sub", "overflow_mul", "overflow_cast", "overflow_shl", "overflow_shr", "overflow_step", "slice_bounds", "offset_bounds", "nonzero_div", "nonzero_rem", "invariant_of", "number_of"]


def main(crates):
    source = set(OWN)
    for f in glob.glob("crates/*/src/**/*.rt", recursive=True):
        source |= set(re.findall(r"\b[a-z][a-z0-9]*(?:_[a-z0-9]+)+\b", open(f, encoding="utf-8").read()))
    words = sorted(source, key=len, reverse=True)

    def turn(token):
        for w in words:
            token = re.sub(r"(?<![A-Za-z0-9_])" + w.replace("_", "-") + r"(?![A-Za-z0-9_])", w, token)
        return token

    for c in crates:
        for f in glob.glob(f"crates/{c}/proofs/**/*.antt", recursive=True):
            name = f.rsplit("/", 1)[-1]
            if name not in ("Answers.antt", "Choices.antt", "Invariants.antt", "Proof.antt"):
                continue
            t = open(f, encoding="utf-8").read()
            goals = set(re.findall(r"\bgoal\.([A-Za-z0-9_'-]+)", t)) | set(re.findall(r"^pub ([A-Za-z0-9_'-]+) :", t, re.M))
            for items in re.findall(r"^use [^\n]*\.(?:Goals|Given)\.\{([^}]*)\}", t, re.M):
                goals |= {i.strip() for i in items.split(",")}
            new = re.sub(r"(?<=\.)[a-z][A-Za-z0-9_'-]*", lambda m: turn(m[0]), t)
            for g in sorted(goals, key=len, reverse=True):
                if turn(g) != g:
                    new = re.sub(r"(?<![A-Za-z0-9_'.-])" + re.escape(g) + r"(?![A-Za-z0-9_'-])", turn(g), new)
            if new != t:
                open(f, "w", encoding="utf-8").write(new)


if __name__ == "__main__":
    main(sys.argv[1:])
