"""An evaluator of definitions and closed facts in antt, for tools/change-definitions.

Each definition becomes a function of Python. A fact is an equation that stands by `refl`, and holds where both sides
have the same value. No promise rests on this: it only finds out quickly which fact refuses a change, and the prover
then has the last word. While it evaluates, it notes which clauses it came to. So a change of a clause is tried on
those facts alone that come to it."""
import re

from antt_reader import File, Reader, patterns_of, words_in
from antt_values import OPERATORS, SHORT, WORDS, Fn, Tup, Unknown
import antt_values as values

FIXED = {"true": "True", "false": "False", "[]": "None", "zero": "0", "refl": "None", "tt": "('tt',)"}
ESCAPES = {"n": 10, "t": 9, "r": 13, "0": 0}


def safe(name):
    """Returns a name as Python may have it."""
    return re.sub(r"[^0-9a-zA-Z_]", lambda made: f"_{ord(made[0]):x}_", name)


def variable(name):
    return f"v_{safe(name)}"


def text_value(word):
    """Returns the codes of a text in quotes."""
    found = re.findall(r"\\(.)|([^\\])", word[1:-1], re.S)
    return values.as_list([ESCAPES.get(it, ord(it)) if it else ord(other) for it, other in found])


def calls_in(tree, found):
    """Counts the calls in a tree, each by how it is written."""
    if isinstance(tree, (tuple, list)):
        if tree and tree[0] == "call":
            found[repr(tree)] = found.get(repr(tree), 0) + 1
        for part in tree:
            calls_in(part, found)
    return found


def names_in(tree):
    if not isinstance(tree, (tuple, list)) or not tree:
        return set()
    own = {tree[1].split(".")[0]} if tree[0] == "name" else set()
    return own.union(*(names_in(part) for part in tree))


def access(code, name):
    return f"component({code}, {name})" if name.isdigit() else f"{code}['{name}']"


class Coder:
    """Makes the code in Python of a clause: its variables, and the calls that it has more than once."""

    def __init__(self, evaluator, definition, variables, tree):
        self.evaluator, self.definition, self.variables = evaluator, definition, variables
        repeated = [it for it, count in calls_in(tree, {}).items() if count > 1]
        self.repeated = {it: i for i, it in enumerate(repeated)}

    def code(self, tree, variables):
        """Returns the code of a tree. A call that comes again is made once, unless an inner variable is in it."""
        number = self.repeated.get(repr(tree)) if tree[0] == "call" else None
        if number is not None and all(variables.get(it) == self.variables.get(it) for it in names_in(tree)):
            return f"(m[{number}] if {number} in m else m.setdefault({number}, {self.of(tree, variables)}))"
        return self.of(tree, variables)

    def of(self, tree, variables):
        kind, *parts = tree
        if kind == "if":
            condition, yes, no = (self.code(it, variables) for it in parts)
            return f"({yes} if {condition} else {no})"
        if kind == "let":
            own = variable(parts[0])
            rest = self.code(parts[2], variables | {parts[0]: own})
            return f"(lambda {own}: {rest})({self.code(parts[1], variables)})"
        if kind == "function":
            own = [f"{variable(it)}_{i}" for i, it in enumerate(parts[0])]
            body = self.code(parts[1], variables | dict(zip(parts[0], own)))
            return f"Fn({len(own)}, lambda {', '.join(own)}: {body})"
        if kind == "tuple":
            return "Tup((" + "".join(f"{self.code(it, variables)}, " for it in parts[0]) + "))"
        if kind == "record":
            fields = "".join(f"'{name}': {self.code(it, variables)}, " for name, it in parts[1])
            return "{" + (f"**{self.code(parts[0], variables)}, " if parts[0] else "") + fields + "}"
        if kind == "field":
            return access(self.code(parts[0], variables), parts[1])
        return self.of_words(kind, parts, variables)

    def of_words(self, kind, parts, variables):
        if kind == "number":
            return str(parts[0])
        if kind == "text":
            return self.evaluator.kept(text_value(parts[0]))
        if kind == "name":
            return self.named(parts[0], variables, [])
        if kind == "operator":
            return self.operator(parts, variables)
        given = [self.code(it, variables) for it in parts[1]]
        if parts[0][0] == "name":
            return self.named(parts[0][1], variables, given)
        return f"apply({self.code(parts[0], variables)}, {', '.join(given)})"

    def operator(self, parts, variables):
        word, left, right = parts
        if word in ("∷", "++"):
            return self.listed(parts, variables)
        given = [self.code(left, variables), self.code(right, variables)]
        return OPERATORS[word].format(*given) if word in OPERATORS else self.named(f"◌{word}◌", variables, given)

    def listed(self, parts, variables):
        """A list, with no bracket in another for each element."""
        runs, tree = [[]], ("operator", *parts)
        while tree[0] == "operator" and tree[1] in ("∷", "++"):
            runs[-1].append(self.code(tree[2], variables))
            if tree[1] == "++":
                runs.append([])
            tree = tree[3]
        code = self.code(tree, variables)
        for i, run in enumerate(reversed(runs)):
            added = run.pop() if i else None
            code = f"joined({added}, {code})" if added else code
            code = f"as_list(({', '.join(run)},), {code})" if run else code
        return code

    def named(self, word, variables, given):
        """The code of a name that is applied to what is given."""
        head, *fields = word.split(".")
        if head in variables and not (fields and fields[0][:1].isupper()):
            code = variables[head]
            for name in fields:
                code = access(code, name)
            return self.applied(code, given)
        if word in FIXED:
            return FIXED[word]
        made = self.evaluator.home(self.definition.module, word)
        if made is None and fields and not fields[0][:1].isupper() and word not in WORDS:
            code = self.named(head, variables, [])
            for name in fields:
                code = access(code, name)
            return self.applied(code, given)
        return self.defined(made, variables, given) if made else self.of_the_kit(word, given)

    def applied(self, code, given):
        return f"apply({code}, {', '.join(given)})" if given else code

    def defined(self, made, variables, given):
        """The code of a definition that is applied. One of the same `module _` has its parameters."""
        if made.parameters and made.siblings is self.definition.siblings:
            given = [variables[f"#{it}"] for it in made.parameters] + given
        own, count = self.evaluator.own_name(made), made.count()
        if count == 0:
            return self.applied(f"constant('{own}')", given)
        if len(given) < count:
            return f"Fn({count}, {own}, ({''.join(f'{it}, ' for it in given)}))"
        return self.applied(f"{own}({', '.join(given[:count])})", given[count:])

    def of_the_kit(self, word, given):
        imported = self.evaluator.files[self.definition.module].names.get(word, ("", ""))[0]
        if imported.endswith("TheConstants"):
            return str(self.evaluator.constants[word])
        if word in WORDS:
            if len(given) == WORDS[word][0]:
                short = SHORT.get(word, "")
                return short.format(*given) if short else f"w_{safe(word)}({', '.join(given)})"
            return self.applied(f"Fn({WORDS[word][0]}, w_{safe(word)})", given)
        last = word.rpartition(".")[2].strip("◌")
        if last[:1].isupper() or last in self.evaluator.constructors or not last.isidentifier() or last == "ℕ":
            return "(" + "".join(f"{it}, " for it in [f"'{last}'", *given]) + ")"
        raise Unknown(f"no such name: {word}")


def match(tree, code, variables, tests):
    """Adds the tests and the variables of a pattern, where this code is what it is to match."""
    kind, *parts = tree
    if kind == "number":
        tests.append(f"{code} == {parts[0]}")
    elif kind == "name":
        match_name(parts[0], code, variables, tests)
    elif kind == "call" and parts[0][1] == "suc":
        tests.append(f"{code} > 0")
        match(parts[1][0], f"({code} - 1)", variables, tests)
    elif kind == "tuple":
        for i, part in enumerate(parts[0]):
            way = "component" if i + 1 < len(parts[0]) else "components_from"
            match(part, f"{way}({code}, {i})", variables, tests)
    elif kind == "operator" and parts[0] == "∷":
        tests.append(f"{code} is not None")
        match(parts[1], f"{code}[0]", variables, tests)
        match(parts[2], f"{code}[1]", variables, tests)
    else:
        name, held = (parts[0], parts[1:]) if kind == "operator" else (parts[0][1].rpartition(".")[2], parts[1])
        tests.append(f"{code}[0] == '{name}'")
        for i, part in enumerate(held, 1):
            match(part, f"{code}[{i}]", variables, tests)


def match_name(word, code, variables, tests):
    last = word.rpartition(".")[2]
    said = {"true": code, "false": f"not {code}", "[]": f"{code} is None", "zero": f"{code} == 0"}
    if word in said:
        tests.append(said[word])
    elif last[:1].isupper():
        tests.append(f"{code}[0] == '{last}'")
    elif word != "_":
        variables[word] = code


class Evaluator:
    """Files by their names, with the values of their definitions. The constants are those of the code."""

    def __init__(self, texts, constants):
        self.files = {module: File(module, text) for module, text in texts.items()}
        self.constructors = set().union(*(it.constructors for it in self.files.values()))
        self.constants, self.own_names, self.failed, self.values = constants, {}, {}, {}
        self.come_to = set()
        self.world = {name: value for name, value in vars(values).items() if callable(value)}
        self.world |= {f"w_{safe(word)}": code for word, (_, code) in WORDS.items()}
        self.world |= {"Fn": Fn, "Tup": Tup, "constant": self.constant, "come_to": self.note}
        for made in (it for file in self.files.values() for it in file.definitions.values() if not it.is_fact):
            self.define(made)

    def note(self, clause):
        self.come_to.add(clause)

    def own_name(self, made):
        """Returns the name of a definition in Python."""
        key = (made.module, made.name)
        return self.own_names.setdefault(key, f"d{len(self.own_names)}_{safe(made.name)}")

    def kept(self, value):
        """Returns the name of a value that is made once."""
        name = f"k{len(self.world)}"
        self.world[name] = value
        return name

    def home(self, module, word):
        """Returns the definition that a word of a file means, or None."""
        file = self.files[module]
        if word in file.definitions:
            return file.definitions[word]
        head, _, last = word.rpartition(".")
        path, real = file.names.get(word) or (file.aliases.get(head, ""), last)
        other = self.files.get(path.rpartition(".")[2])
        return other.definitions.get(real) if other and "declared" not in path else None

    def define(self, made):
        """Puts the function of a definition in place; one that can't be read can't be told."""
        name = self.own_name(made)
        self.failed.pop(name, None)
        try:
            if made.clauses:
                exec(compile(self.source(made, name, {}), name, "exec"), self.world)
        except (Unknown, IndexError) as why:
            self.failed[name] = str(why)
            self.world[name] = self.untold(f"{made.module}.{made.name}: {why}")

    def untold(self, why):
        def tell(*given):
            raise Unknown(why)

        return tell

    def source(self, made, name, outer):
        """Returns the function of a definition, or of one after `where` with the variables around it."""
        letter = "b" if outer else "a"
        given = [f"{letter}{i}" for i in range(made.count())]
        variables = outer | {it: code for it, code in zip(made.parameters, given)}
        variables |= {f"#{it}": code for it, code in zip(made.parameters, given)}
        lines = [f"def {name}({', '.join(given)}):"]
        for number, clause in enumerate(made.clauses):
            note = [] if outer else [f"come_to('{name}:{number}')"]
            lines += self.clause(made, clause, given[len(made.parameters) :], dict(variables), note)
        return "\n".join([*lines, f"  raise Unknown('no clause of {safe(made.name)}')"])

    def clause(self, made, clause, given, variables, note):
        """Returns the lines of a clause."""
        patterns, words = patterns_of(words_in(clause))
        end = next((i for i, word in enumerate(words) if word.text == "where"), len(words))
        tests = []
        for pattern, code in zip(patterns, given):
            match(Reader(pattern).whole(), code, variables, tests)
        inner = self.inner(made, clause[words[end].start + 5 :], variables) if end < len(words) else []
        tree = Reader(words[:end]).whole()
        coder = Coder(self, made, variables, tree)
        memory = ["m = {}"] if coder.repeated else []
        body = [*note, *inner, *memory, f"return {coder.code(tree, variables)}"]
        return [f"  if {' and '.join(tests) or 'True'}:", *(f"    {it}" for it in body)]

    def inner(self, made, text, variables):
        """Returns the functions after `where`, and notes their names as variables."""
        found = list(File(made.module, dedent(text)).definitions.values())
        for each in found:
            own = f"i_{safe(each.name)}"
            variables[each.name] = f"Fn({each.count()}, {own})" if each.count() else f"{own}()"
            self.own_names[made.module, each.name, made.name] = own
        sources = [self.source(each, f"i_{safe(each.name)}", variables) for each in found]
        return [line for source in sources for line in source.split("\n")]

    def constant(self, name):
        """Returns the value of a definition without arguments, which is made once, and notes what that came to."""
        if name not in self.values:
            around, self.come_to = self.come_to, set()
            try:
                self.values[name] = (self.world[name](), self.come_to)
            finally:
                self.come_to = around
        value, clauses = self.values[name]
        self.come_to |= clauses
        return value

    # Facts.

    def facts(self):
        return [it for file in self.files.values() for it in file.definitions.values() if it.is_fact]

    def equation(self, fact):
        """Returns the code of what a fact says."""
        words = words_in(fact.said)
        end = next((i for i, word in enumerate(words) if word.text == "unfolding"), len(words))
        tree = Reader(words[:end]).whole()
        return compile(Coder(self, fact, {}, ()).code(tree, {}), fact.name, "eval")

    def holds(self, code):
        """Returns whether an equation holds, and which clauses that came to."""
        self.come_to = set()
        said = eval(code, self.world)
        if type(said) is not tuple or said[0] != "≡":
            raise Unknown("no equation")
        return values.are_same(said[1], said[2]), self.come_to


def dedent(text):
    lines = [it for it in text.split("\n") if it.strip()]
    least = min(len(it) - len(it.lstrip()) for it in lines)
    return "\n".join(it[least:] for it in lines)
