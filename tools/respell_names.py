#!/usr/bin/env python3
"""Spells the repository's own antt names in snake case: firstAfter and count-suc become first_after and count_suc.

usage: respell_names.py [FOLDER]

Run it once over crates/ below FOLDER (this folder, if none is named), after port.py. It turns the files of specs/ and proofs/ and the clauses in src/. A
name that a file imports from the kit stays, and so do the names of types, of functions of src/ and strings. Where a lemma would get the name of the
definition that it is about, it gets _lem. What still falls together is printed: two names of one file that become one.
"""

import glob
import os
import re
import sys

WORD = re.compile(r"--[^\n]*|//[^\n]*|\"(?:[^\"\\]|\\.)*\"|«[^»]*»|[^\s(){}.;,@\"«»\[\]\\`]+")
DEFINED = re.compile(r"(?m)^[ \t]*(?:abbrev )?(?:pub )?(?:unfoldable )?(?:pub )?([^\s:(){}.;,]+) : ")
USED = re.compile(r"(?m)^\s*(?:pub )?(?:ghost )?use ([^\s{;]+?)(?:\.\{([^}]*)\})?(?: as \S+?)?;?[ \t]*$")
IN_A_PATH = re.compile(r"\s*(pub )?(ghost )?use [^{]*$")
# Names that would fall together otherwise, by file.
IN_FILE = {
    "generated_runs/proofs/FieldSheet.antt": {"width-at": "width_at_lem"},
    "house/proofs/Passing.antt": {"in_range": "every_in_range"},
    "ingredients/proofs/NamedLaws.antt": {"as-table": "as_table_lem"},
    "record_counts/proofs/Counts.antt": {"one_more": "counted"},
    "sheets/proofs/Ingredients.antt": {"or-else": "or_else_lem"},
    "sheets/proofs/Naming.antt": {"as-table": "as_table_lem"},
}
# The field of a record that would have the name of the definition in its own type.
FIELDS = {"widths-in": "widths_there"}


def snake(word):
    """firstAfter -> first_after, count-suc -> count_suc; a part that begins with a capital keeps its capitals."""
    if not re.search(r"[^\W\d_]", word) or word.startswith("-") or word.endswith("-"):
        return word
    word = re.sub(r"(?<=[^-])-(?=[^-])", "_", word)
    parts = []
    for part in word.split("_"):
        if not part[:1].isupper() and not re.search(r"[A-Z]{2}", part):
            part = re.sub(r"([a-z0-9'])([A-Z])", r"\1_\2", part).lower()
        parts.append(part)
    return "_".join(parts)


def is_camel(word):
    return bool(re.search(r"[a-z][A-Z]", word)) and not word[:1].isupper()


def read(path):
    with open(path, encoding="utf-8", newline="") as it:
        return it.read()


def files(root, pattern):
    found = glob.glob(f"{glob.escape(root)}/crates/{pattern}", recursive=True)
    return sorted(it for it in found if "/out/" not in it and os.path.isfile(it))


def module_of(root, path):
    return "Rattle." + re.sub(r"/(src|specs|proofs)/", r".\1.", os.path.relpath(path, f"{root}/crates")).rsplit(".", 1)[0].replace("/", ".")


class Names:
    def __init__(self, root):
        self.root = root
        self.crates = set(os.listdir(os.path.join(root, "crates")))
        paths = files(root, "*/specs/**/*.antt") + files(root, "*/proofs/**/*.antt") + files(root, "*/src/**/*.rt")
        self.texts = {it: read(it) for it in paths}
        self.own = set()
        for path, text in self.texts.items():
            if path.endswith(".antt"):
                self.own.update(DEFINED.findall(text))
            self.own.update(re.findall(r" as ([^\s,;{}]+)", text))
        self.own |= {part for it in self.own if "◌" in it for part in it.split("◌") if part}
        self.lemmas = set()
        for path, text in self.texts.items():
            if not path.endswith("/Proof.antt"):
                self.find_lemmas(path, text)

    def origins(self, path, text):
        """The module that each name of a file is from: its own, or the one that it is imported from; None where that is the kit's or made by Rattle."""
        here = module_of(self.root, path)
        of = {it: here for it in DEFINED.findall(text)} if path.endswith(".antt") else {}
        for module, names in USED.findall(text):
            parts = module.split(".")
            ours = parts[0] == "Rattle" and len(parts) > 1 and parts[1] in self.crates
            made = re.search(r"\.(declared|contracts)(\.|$)|\.proofs\..*\.(Goals|Given|Tie|Statement|Met)$", module)
            for it in names.split(","):
                name, _, other = it.strip().partition(" as ")
                if name:
                    of[name] = module if ours and not made else None
                    if not (ours and not made):
                        of.update({part: None for part in name.split("◌") if "◌" in name and part})
        return of

    def words(self, path, text):
        """Each word of a file's code, with where it stands; words in the paths of imports, in comments and in strings are left out."""
        for found in WORD.finditer(text):
            word = found[0]
            if word.startswith(("--", "//", '"', "«")):
                continue
            start = text.rfind("\n", 0, found.start()) + 1
            before = text[start : found.start()]
            if IN_A_PATH.match(before) and not before.endswith(" as "):
                continue
            yield word, found, before

    def find_lemmas(self, path, text):
        """Where a definition in camel case and a lemma get one name in a file, the lemma is marked."""
        of = self.origins(path, text)
        seen = {}
        for word, _, before in self.words(path, text):
            seen.setdefault(snake(word), set()).add(word)
        for new, olds in seen.items():
            if any(is_camel(it) for it in olds):
                for old in olds:
                    if not is_camel(old) and of.get(old):
                        self.lemmas.add((of[old], old))

    def new(self, word, of):
        """The new spelling of a word whose origins are given."""
        if word in of and of[word] is None:
            return word
        if word in FIELDS:
            return FIELDS[word]
        return snake(word) + "_lem" if (of.get(word), word) in self.lemmas else snake(word)

    def turned(self, path, text, crashes):
        of = self.origins(path, text)
        made = {it for it, module in of.items() if module is None}
        here = IN_FILE.get(os.path.relpath(path, f"{self.root}/crates"), {})
        out, at, seen = [], 0, {}
        for found in WORD.finditer(text):
            if found[0].startswith(("--", "//")):
                out += [text[at : found.start()], re.sub(r"(?<=`)[^`\s]+(?=`)|\b[a-z]+[A-Z]\w*", lambda it: self.new(it[0], of) if it[0] in self.own else it[0], found[0])]
                at = found.end()
        text = "".join(out) + text[at:]
        out, at = [], 0
        for word, found, before in self.words(path, text):
            if before.endswith("."):
                new = FIELDS.get(word) or (snake(word) if word in self.own and word not in made else word)
            elif word in here:
                new = here[word]
            elif path.endswith(".antt") or word in self.own:
                new = self.new(word, of)
            else:
                new = word
            if not before.endswith("."):
                seen.setdefault(new, set()).add(word)
            out += [text[at : found.start()], new]
            at = found.end()
        for new, olds in seen.items():
            if len(olds) > 1:
                crashes.append(f"{path}: {' and '.join(sorted(olds))} are both {new}")
        return "".join(out) + text[at:]


def main():
    root = sys.argv[1] if len(sys.argv) > 1 else "."
    names = Names(root)
    crashes = []
    changes = {it: names.turned(it, text, crashes) for it, text in names.texts.items()}
    texts = names.texts
    for path, text in changes.items():
        if text != texts[path]:
            with open(path, "w", encoding="utf-8", newline="") as it:
                it.write(text)
    print("\n".join(crashes))
    print(f"{sum(changes[it] != texts[it] for it in changes)} files turned, {len(names.lemmas)} lemmas beside their definitions, {len(crashes)} names that fall together")


if __name__ == "__main__":
    main()
