"""Finds for tools/change-definitions, without the prover, the fact that refuses a change of a definition.

All facts of `bword` and `blang` are evaluated once, as they stand, and each notes which clauses it comes to. A change
is then tried on the facts that come to a clause of it, the cheapest first, until one no longer holds."""
import multiprocessing
import re
import sys
import threading

from antt_reader import File
from antt_values import Unknown
from changes import ROOT, read, types_of_code
from evaluator import Evaluator

CRATES = ("bword", "blang", "bfacts")
# What has definitions of other crates has nothing to do with these.
ABOVE = re.compile(r"^use Rattle\.b(?!word|lang|grammar)", re.M)
# A fact may come to so many clauses more than it does as the definitions stand.
MORE = 300_000


def files_of(crates=CRATES):
    """Returns the files of definitions and facts by their names."""
    found = {}
    for crate in crates:
        for module in re.findall(r"mod (\w+)", read(f"{ROOT}/crates/{crate}/specs/Lib.antt")):
            text = read(f"{ROOT}/crates/{crate}/specs/{module}.antt")
            found |= {} if ABOVE.search(text) else {module: text}
    return found


def constants():
    """Returns the numbers of the constants of the code."""
    found = {name: value for of_file in types_of_code()[1].values() for name, value in of_file.items()}
    while left := [name for name, value in found.items() if not value.replace("_", "").isdigit()]:
        found |= {name: found[found[name]] for name in left}
    return {name: int(value.replace("_", "")) for name, value in found.items()}


class TooLong(Unknown):
    """A fact comes to far more clauses than it did."""


class Survey:
    """The facts, from the cheapest on: each with its code, the clauses that it comes to, and how many times."""

    def __init__(self):
        self.evaluator, self.count, self.limit = Evaluator(files_of(), constants()), 0, float("inf")
        self.evaluator.world["come_to"] = self.note
        found = [it for it in map(self.measured, self.evaluator.facts()) if it]
        self.facts = sorted(found, key=lambda it: it[0])

    def note(self, clause):
        self.count += 1
        if self.count > self.limit:
            raise TooLong(clause)
        self.evaluator.come_to.add(clause)

    def measured(self, fact):
        """Returns a fact with what it comes to, or None where it can't be told."""
        self.count = 0
        try:
            code = self.evaluator.equation(fact)
            holds, clauses = self.evaluator.holds(code)
        except Unknown:
            return None
        return (self.count, (fact.module, fact.name), code, frozenset(clauses)) if holds else None

    def put(self, change):
        """Puts a change in place. Returns its clauses, and how to take it back."""
        made, old = self.evaluator, self.evaluator.files[change.module]
        new = made.files[change.module] = File(change.module, change.text)
        back, clauses = {}, set()
        for name, definition in new.definitions.items():
            before = old.definitions.get(name)
            if before is None or before.clauses != definition.clauses:
                own = made.own_name(definition)
                back[own] = made.world.get(own)
                made.define(definition)
                clauses |= changed_clauses(own, before, definition)
        failed = any(own in made.failed for own in back)
        return clauses, (change.module, old, back, made.values), failed

    def take_back(self, module, old, back, kept):
        self.evaluator.files[module] = old
        self.evaluator.world.update(back)
        self.evaluator.values = kept
        for own in back:
            self.evaluator.failed.pop(own, None)

    def refusing(self, change):
        """Returns the fact that refuses a change, "nothing", or "untold" where a fact or the change can't be told."""
        clauses, before, failed = self.put(change)
        kept = before[3].items()
        self.evaluator.values = {it: made for it, made in kept if it not in before[2] and not made[1] & clauses}
        try:
            answers = (self.answer(fact) for fact in self.facts if fact[3] & clauses)
            return "untold" if failed else next((it for it in answers if it), "nothing")
        finally:
            self.take_back(*before)

    def answer(self, fact):
        """Returns a fact that no longer holds, "untold" where that can't be told, or None."""
        count, name, code, _ = fact
        self.count, self.limit = 0, 2 * count + MORE
        try:
            return None if self.evaluator.holds(code)[0] else name
        except Exception:  # An ill-typed change may do anything.
            return "untold"
        finally:
            self.limit = float("inf")


def changed_clauses(own, before, definition):
    """Returns the clauses of a definition that a change may have to do with."""
    if before is None:
        return set()
    pairs = list(zip(before.clauses, definition.clauses))
    same_count = len(before.clauses) == len(definition.clauses)
    return {f"{own}:{i}" for i, (one, other) in enumerate(pairs) if one != other or not same_count} | (
        set() if same_count else {f"{own}:{i}" for i in range(len(before.clauses))}
    )


def with_room(work):
    """Returns what some work gives, on a stack with room for deep definitions."""
    found = []
    sys.setrecursionlimit(10**6)
    threading.stack_size(1 << 29)
    thread = threading.Thread(target=lambda: found.append(work()))
    thread.start()
    thread.join()
    return found[0]


SURVEY = []


def refusing(change):
    return with_room(lambda: SURVEY[0].refusing(change))


def likely_facts(changes, processes):
    """Returns for each change the fact that refuses it, "nothing" or "untold"."""
    SURVEY[:] = [with_room(Survey)]
    print(f"  {len(SURVEY[0].facts)} facts evaluated", flush=True)
    with multiprocessing.get_context("fork").Pool(processes) as pool:
        found = {}
        for change, answer in zip(changes, pool.imap(refusing, changes, 4)):
            found[change] = answer
            if len(found) % 100 == 0:
                print(f"  {len(found)} of {len(changes)} looked at", flush=True)
        return found
