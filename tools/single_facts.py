"""Tries changes of definitions with the prover, each on one closed fact alone, for tools/change-definitions.

One copy of all definitions stands as it is. For each change there is a copy of its file, of the file of the fact with
this fact alone, and of what lies between them. So a check of many changes takes little more than one."""
import os
import re

# So many changes a check.
CHANGES = int(os.environ.get("CHANGES", "48"))


def imported(text):
    """Returns the files of definitions or facts that a file names."""
    return set(re.findall(r"Rattle\.b(?:word|lang)\.specs\.(\w+)", text)) - {"declared"}


class Imports:
    """Which files each file needs, whether it names them or those that it names do."""

    def __init__(self, texts):
        self.texts, self.found = texts, {}

    def of(self, module):
        if module not in self.found:
            own = imported(self.texts[module])
            self.found[module] = own.union(*(self.of(it) for it in own))
        return self.found[module]

    def between(self, module, other):
        """Returns the files that need one file and that another needs, with both. The types of the code stay apart."""
        return {module, other} | {it for it in self.of(other) if module in self.of(it)} - {"CodeParts"}


def with_facts(text, names):
    """Returns a file of facts with these facts alone."""
    kept = []
    for paragraph in re.split(r"\n\n+", text):
        made = re.search(r"^(\S+) = refl$", paragraph, re.M)
        if not made or made[1] in names or paragraph.startswith("abbrev"):
            kept.append(paragraph)
    return "\n\n".join(kept) + "\n"


class Copies:
    """The files of a crate: the definitions as they stand, in `base`, and a copy for each change."""

    def __init__(self, crate, texts, shared, moved, write):
        self.crate, self.texts, self.moved, self.write = crate, texts, moved, write
        self.imports = Imports(texts)
        shared = shared | {it: moved(self.text(it, ())) for it in texts}
        self.put("base", shared, set())

    def text(self, module, facts):
        """Returns a file, a file of facts with these facts alone."""
        return with_facts(self.texts[module], facts) if module.endswith("Rows") else self.texts[module]

    def put(self, copy, files, own):
        """Writes the files of a copy. What isn't its own is that of `base`."""
        def home(made):
            return f"specs.{copy if made[1] in own else 'base'}.{made[1]}"

        folder = f"{self.crate}/specs/{copy}"
        self.write(f"{folder}.antt", "".join(f"pub mod {it}\n" for it in sorted(files)))
        for module, text in files.items():
            self.write(f"{folder}/{module}.antt", re.sub(r"specs\.COPY\.(\w+)", home, text))
        for file in os.listdir(folder):
            if file.removesuffix(".antt") not in files:
                os.remove(f"{folder}/{file}")

    def put_change(self, copy, change, text, fact):
        """Writes the copy of a change, whose file has this text, with the one fact of a file of facts."""
        module, name = fact
        own = self.imports.between(change.module, module)
        files = {it: self.moved(self.text(it, {name} if it == module else ())) for it in own}
        self.put(copy, files | {change.module: text}, own)

    def name(self, copies):
        self.write(f"{self.crate}/specs/Lib.antt", "".join(f"pub mod {it}\n" for it in ["base", *copies]))
