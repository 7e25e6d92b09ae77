#!/usr/bin/env python3
"""Looks whether each edit of crates/*/must-fail and tests/edits, and each twin there, can be applied to the files as they stand: each text
behind 'old: ' stands in its file exactly once. A twin has the name of an edit of its crate and changes no other file than that; the twins
of a crate can be applied one after the other.
usage: tests/edits_apply.py
It takes no proof and less than a second. Each that can't be applied is printed with its reason; the status is then 1."""
import glob
import os
import sys


def applied(text, folder):
    """Returns the files that the edit changes, and why it can't be applied, if it can't."""
    texts, was, name, old = {}, {}, None, None
    for line in text.split("\n"):
        if line.startswith("file: "):
            name = line.removeprefix("file: ").strip()
            if not os.path.isfile(f"{folder}/{name}"):
                return texts, f"there is no file {name}"
            if name not in texts:
                with open(f"{folder}/{name}", encoding="utf-8") as it:
                    texts[name] = was[name] = it.read()
        elif line.startswith("old: "):
            old = line.removeprefix("old: ")
        elif line.startswith("new:"):
            if name is None or not old:
                return texts, "a 'new:' line stands before any 'file:' or 'old:' line"
            if texts[name].count(old) != 1:
                return texts, f"an 'old:' text is in {name} {texts[name].count(old)} times: {old.strip()}"
            texts[name] = texts[name].replace(old, line.removeprefix("new:").removeprefix(" "))
            old = None
        elif line:
            return texts, f"a line that is not read: {line}"
    if old is not None:
        return texts, "an 'old:' line has no 'new:' line"
    return texts, None if texts != was else "it changes nothing"


def main():
    top = os.path.dirname(os.path.dirname(os.path.abspath(__file__)))
    found, twins, failed = {}, {}, []
    for path in sorted(glob.glob(f"{top}/crates/*/must-fail/*") + glob.glob(f"{top}/tests/edits/*/*")):
        words = os.path.relpath(path, top).split("/")
        crate = words[1] if words[0] == "crates" else words[2]
        with open(path, encoding="utf-8") as it:
            found.setdefault((crate, words[-1]), []).append(it.read())
    for (crate, name), given in sorted(found.items()):
        folder = f"{top}/crates/{crate}"
        texts, why = applied(given[0], folder)
        stem, kind = os.path.splitext(name)
        if kind not in (".edit", ".twin"):
            why = "its name ends in neither .edit nor .twin"
        elif len(given) > 1:
            why = "it stands in must-fail and in tests/edits"
        elif kind == ".twin" and why is None:
            twins.setdefault(crate, []).append(given[0])
            edit = found.get((crate, f"{stem}.edit"))
            if not edit:
                why = "it has no edit"
            elif not texts.keys() <= applied(edit[0], folder)[0].keys():
                why = "it changes another file than its edit"
        if why:
            failed.append(f"{crate}/{name}: {why}")
    for crate, given in twins.items():
        why = applied("".join(given), f"{top}/crates/{crate}")[1]
        if why:
            failed.append(f"the twins of {crate}, one after the other: {why}")
    for it in failed:
        print(f"FAILED {it}")
    kinds = [os.path.splitext(name)[1] for _, name in found]
    print(f"{kinds.count('.edit')} edits and {kinds.count('.twin')} twins, of which {len(failed)} can't be applied")
    return 1 if failed else 0


if __name__ == "__main__":
    sys.exit(main())
