"""The second kind of changes for tools/change-definitions: at one argument a definition gives another result.

The argument is a number at an edge, a variant of an enum, or a list that is empty, without its first or its last
element, or cut off after nine, or before the last hundred. The other result is one of the same type. Where the tool has
none of that type, the definition takes the argument for its neighbour.

A change of a pair gives another result where two tests hold at once: what two `if`s of a clause ask, or two arguments
at an edge each. It is what meets each fact of one feature, and is wrong where two meet."""
import itertools
import re

from changes import Change, bound_by, definitions_in, is_claimed, nested

# The edges of a word, of a byte, and of what is never a word, by the names of variables.
WORDS = (0, 1, 255, 256, 32767, 32768, 65535)
BYTES = (0, 4, 10, 13, 255)
OTHERS = {"quote": (34, 39), "room": (2, 254), "base": (2, 7, 8, 10), "line": (1, 256)}
NUMBERS = ("ℕ", "u8", "u16", "u32", "u64", "usize")
# Names, which have one to eight bytes.
SHORT = ("x", "y", "name")


def edges(module, variable):
    """Returns the numbers at which a variable is changed."""
    is_byte = variable == "byte" or (module == "Cut" and variable in ("a", "b"))
    return OTHERS.get(variable, BYTES if is_byte else WORDS)


def other_result(kind, said):
    """Returns another result of this type than the one that is said, or None."""
    if kind == "Bool":
        return f"not ({said})"
    if kind == "ℕ":
        return f"suc ({said})"
    if kind == "List ℕ":
        return f"7 ∷ ({said})"
    if kind.startswith("List "):
        return "[]" if said != "[]" else None
    if kind.startswith("Option "):
        return "None" if said != "None" else "Some 7" if kind == "Option ℕ" else None
    if kind == "Quoted":
        return "Past" if said != "Past" else "Wrong"
    return None


# What the changes of a kind need of the kit's Prelude.
NEEDED = re.compile(r"\b(not|suc|nat_eq|take|drop|length|None|Some)\b|(\[\]|∷|&&|(?<= )-(?= ))|\b(if)\b")


def needed_words(new):
    """Returns the words of the Prelude in a text."""
    found = {it[1] or it[2] or it[3] for it in NEEDED.finditer(new)}
    named = {"∷": "◌∷◌", "&&": "◌&&◌", "-": "◌-◌", "if": "if◌then◌else◌"}
    return sorted(named.get(it, it) for it in found)


def is_of(variable, word):
    """Returns whether a word is a variable, or a field of it."""
    return word == variable or (word.startswith(f"{variable}.") and not word.endswith("."))


class Place:
    """The right side of a clause, in which an argument is changed: its text, and where its variables stand."""

    def __init__(self, module, text, clause, result):
        inner = [it for it in clause.right if it[0] != "\n"]
        self.module, self.result, self.words = module, result, inner
        self.start, self.end = inner[0][1], inner[-1][1] + len(inner[-1][0])
        self.said = text[self.start : self.end]

    def when(self, condition):
        """Returns the edits by which there is another result where this holds, or None."""
        other = None if "do\n" in self.said else other_result(self.result, self.said)
        return other and [(self.start, self.end, f"if {condition} then {other} else ({self.said})")]

    def taken_for(self, variable, other):
        """Returns the edits by which a variable is another value wherever it stands."""
        following = [it for it, _ in self.words[1:]] + [""]
        stands = [it for it, after in zip(self.words, following) if is_of(variable, it[0]) and after != "="]
        return [(start, start + len(variable), other) for _, start in stands]


def of_number(place, variable):
    for edge in edges(place.module, variable):
        is_there = f"nat_eq {variable} {edge}"
        yield place.when(is_there) or place.taken_for(variable, f"(if {is_there} then {edge + 1} else {variable})")


def of_list(place, variable):
    yield place.taken_for(variable, f"(drop 1 {variable})")
    yield place.taken_for(variable, f"(take (length {variable} - 1) {variable})")
    if variable not in SHORT:
        yield place.when(f"nat_eq (length {variable}) 0")
        yield place.taken_for(variable, f"(take 9 {variable})")
        yield place.taken_for(variable, f"(drop (length {variable} - 100) {variable})")


def of_variants(place, variable, kind, names, at_head):
    """The next variant of the type in place of each one, by a function before the block of the definition."""
    spelled = names.spelled(kind)
    for variant, held, others in names.context.variants(kind):
        if variant in spelled and others and others[0] in spelled:
            given = " ".join(f"x{i}" for i in range(len(held)))
            one, other = (f"({spelled[it]} {given})" if held else spelled[it] for it in (variant, others[0]))
            changed = f"abbrev pub changed : {kind} → {kind}\nchanged {one} = {other}\nchanged it = it\n\n"
            edits = place.taken_for(variable, f"(changed {variable})")
            yield edits and [(at_head, at_head, changed), *edits]


def of_argument(place, variable, kind, names, at_head):
    """Returns the changes at one argument, each as its edits."""
    if kind in NUMBERS:
        return of_number(place, variable)
    if kind.startswith("List "):
        return of_list(place, variable)
    if kind == "Bool":
        return [place.taken_for(variable, f"(not {variable})")]
    if kind.startswith("Option "):
        return [place.taken_for(variable, "None")]
    return of_variants(place, variable, kind, names, at_head) if kind else []


def result_of(text, definition):
    """Returns the type of what a definition gives."""
    head = text[definition.start : definition.clauses[0].start]
    head = re.sub(r"--[^\n]*", "", head).rpartition("→")[2]
    return " ".join(head.rpartition(" : ")[2].split()) if " : " in head else " ".join(head.split())


def block_start(text, start):
    """Returns where the block begins that a definition belongs to, at the first column."""
    start = text.rfind("\n\n", 0, start) + 2
    return start if not text[start].isspace() else block_start(text, start - 2)


def tests_of(place, variables):
    """Returns the tests of a clause, each with the variables that it names."""
    bound = set(re.findall(r"(?:λ|let) (\w+)", place.said))
    for asked in re.findall(r"\bif ((?:(?!\b(?:if|then)\b).)+?) then\b", place.said, re.S):
        words = set(re.findall(r"[\w']+", asked))
        if not words & bound and asked.count("(") == asked.count(")"):
            yield f"({asked})", words
    for variable, kind in variables.items():
        if kind in NUMBERS:
            yield from ((f"nat_eq {variable} {edge}", {variable}) for edge in edges(place.module, variable)[::4])
        elif (kind or "").startswith("List ") and variable not in SHORT:
            yield f"nat_eq (length {variable}) 0", {variable}
        elif kind == "Bool":
            yield variable, {variable}


def of_pairs(place, variables):
    """Returns the changes where two tests of a clause hold at once, each as its edits."""
    for (one, its), (other, others) in itertools.combinations(tests_of(place, variables), 2):
        if its != others:
            yield place.when(f"{one} && {other}")


def pair_changes_of(module, text, names, wanted):
    """Returns the changes of pairs of a file, in order."""
    return value_changes_of(module, text, names, wanted, is_of_pairs=True)


def edits_at(place, variables, names, at_head, is_of_pairs):
    """Returns the changes of a clause, each as its edits."""
    if is_of_pairs:
        return of_pairs(place, variables)
    return itertools.chain.from_iterable(
        of_argument(place, variable, kind or "", names, at_head) for variable, kind in variables.items())


def value_changes_of(module, text, names, wanted, is_of_pairs=False):
    """Returns the changes of this kind of a file, in order."""
    found, seen, letters = [], {text}, "vp" if is_of_pairs else "v"
    for definition in definitions_in(text):
        if definition.believed_as not in wanted or is_claimed(module, text, definition):
            continue
        at_head = block_start(text, definition.start)
        for clause in (it for it in definition.clauses if it.right):
            place = Place(module, text, clause, result_of(text, definition))
            kinds = [kind for _, kind in definition.arguments]
            variables = bound_by(nested([it for it in clause.left if it[0] != "\n"]), kinds, names)
            for edit in filter(None, edits_at(place, variables, names, at_head, is_of_pairs)):
                line = text.count("\n", 0, clause.start) + 1
                change = Change(module, f"{letters}{len(found) + 1}", definition.name, line, edit, text)
                if change.text not in seen:
                    seen.add(change.text)
                    found.append(change)
    return found
