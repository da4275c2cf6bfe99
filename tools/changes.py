"""The changes of the definitions that have to be believed, for tools/change-definitions: what the definitions are, and
what is changed in each."""
import collections
import os
import re

ROOT = os.path.dirname(os.path.dirname(os.path.abspath(__file__)))
# The files of what is promised: a claim there is a clause, and tools/clauses.md has the witness of each.
PROMISES = ("ByteEnds", "Endings", "Compiles", "Reports", "Headline")
# The files of the code that have types or limits.
SOURCES = {"bword": "edition ends name operators store", "blang": "code limits run status token"}
# The kit's words that are exchanged for one another.
EXCHANGED = """nat_lt nat_le; int_lt int_le; && ||; + -; * /; % /; take drop; true false; max min; ≤ <; × ⊎; ++ +++; ▹ ▷;
bit_and bit_or; int_div int_rem; is_some is_none; list_any list_all; pos neg_ℤ"""
DROPPED = {"not", "reverse", "suc"}
ASYMMETRIC = {"-", "/", "%", "^", "++", "▸", "▹", "▷", "⨾", "-ℤ"}
OPERATORS = ASYMMETRIC | {*"+ * ∷ && || == ≡ ≢ ≤ < × ⊎ → >>= , ; = : . | if then else in let λ ← do ⊥".split(), "\n"}
# The constructors that are spelled as a variable is.
SPELLED_AS_VARIABLES = ("true", "false", "zero", "suc", "pos", "negsuc", "record")
TOKEN = re.compile(r'--[^\n]*|"(?:\\.|[^"\\])*"|[(){},;]|\n|[^\s(){},;"]+')




def read(path):
    with open(path, encoding="utf-8") as file:
        return file.read()


# The types of the code.


class Type:
    """An enum or a struct of the code: its name, its file, and its constructors or fields with their types."""

    def __init__(self, crate, file, kind, name, body):
        self.crate, self.file, self.kind, self.name, self.parts = crate, file, kind, name, []
        self.value = None
        body = re.sub(r"^\s*(?:///?|#\[)[^\n]*\n", "", body, flags=re.M)
        if kind == "struct":
            self.parts = re.findall(r"^\s*(?:pub )?(\w+): ([^\n]*?),$", body, re.M)
            return
        for found in re.finditer(r"^    (\w+)(?:\(([^\n]*)\)| \{(.*?)\})?(?: = \d+)?,$", body, re.M | re.S):
            named = re.findall(r"\w+: ([^\n]*?)(?=, \w+:|,?\s*$)", found[3] or "", re.M)
            self.parts.append((found[1], named or split_types(found[2] or "")))


def split_types(text):
    return [it for it in re.split(r", (?![^<\[]*[>\]])", text) if it]


def types_of_code():
    """Returns the types of the code by name, and the constants of each file with their values."""
    types, constants = {}, collections.defaultdict(dict)
    for crate, files in SOURCES.items():
        for file in files.split():
            text = read(f"{ROOT}/crates/{crate}/src/{file}.rt")
            pattern = r"^pub (enum|struct) (\w+)(?:<'a>)?(?:;| \{\n(.*?)^\})"
            for kind, name, body in re.findall(pattern, text, re.M | re.S):
                made = types[name] = Type(crate, file, kind, name, body)
                model = re.search(rf"^impl Model for {name} .*?ghost Value = \{{ (.*?) \}};.*?^\}}", text, re.M | re.S)
                made.value = model and model[1]
            for name, value in re.findall(r"^pub const (\w+): \w+ = (\w+)(?: as \w+)?;", text, re.M):
                constants[file][name] = value
    return types, constants


# The definitions and their changes.


class Definition:
    """A definition of a file: where its text lies, the types of its arguments, and its clauses."""

    def __init__(self, name, indent, start):
        self.name, self.indent, self.start, self.end, self.arguments, self.clauses = name, indent, start, start, [], []
        self.is_record = self.is_data = self.is_over = False
        self.believed_as = name


class Clause:
    """A clause: where it begins, its patterns, and its right side, each as tokens with their places."""

    def __init__(self, name, start, left, right, end):
        self.name, self.start, self.left, self.right, self.end = name, start, left, right, end


def tokens_in(text, start, end):
    """Returns the words of a part of a text, with their places, and no comments."""
    found = [(it[0], it.start()) for it in TOKEN.finditer(text, start, end)]
    return [it for it in found if not it[0].startswith("--")]


def believed():
    """Returns the names of the definitions that have to be believed, by their files."""
    found, module = collections.defaultdict(set), None
    for line in read(f"{ROOT}/docs/BELIEVE.md").splitlines():
        if line.startswith("#"):
            made = re.match(r"### `crates/b(?:word|lang)/specs/(\w+)\.antt`", line)
            module = made and made[1]
        elif module and (made := re.match(r"- `([^`]+)`", line)):
            found[module].add(made[1])
    return found


DECLARED = re.compile(r"( *)(?:(?:abbrev|unfoldable|pub|opaque) )*(?:(record|data) ([^\s(){}:]+)|([^\s(){}:]+) :\s)")


def is_first(made, last):
    """Returns whether a line declares something: the first of its paragraph, or what comes after `where`."""
    return made and (last is None or (last.is_over and len(made[1]) > len(last.indent)))


def definitions_in(text):
    """Returns the definitions of a file: each stands in a paragraph, and one after `where` belongs to it."""
    found = []
    for paragraph in re.finditer(r"(?:[^\n]+\n)+", text):
        offset, last = paragraph.start(), None
        for line in paragraph[0].splitlines(True):
            made = DECLARED.match(line)
            bare = line.strip()
            if re.match(r"--|use |pub use |infix|(abbrev )?mutual$|module |where$", bare):
                pass
            elif is_first(made, last) and "=" not in bare.split():
                parent = last
                last = Definition(made[3] or made[4], made[1], offset)
                last.is_record, last.is_data = made[2] == "record", made[2] == "data"
                last.believed_as = parent.believed_as if parent else last.name
                found.append(last)
            elif last:
                last.is_over = last.is_over or line.startswith(f"{last.indent}{last.name} ") or "◌" in last.name
            offset += len(line)
            if last:
                last.end = offset
    for definition in found:
        fill(definition, text)
    return found


def fill(definition, text):
    """Finds the types and the clauses of a definition."""
    heads = [definition.start]
    if not definition.is_record and not definition.is_data:
        pattern = rf"^{definition.indent}(?!  |--).*?(?= )"
        begun = [it.start() for it in re.finditer(pattern, text[definition.start : definition.end], re.M)]
        heads = [definition.start + it for it in begun]
    definition.arguments = types_in(text[heads[0] : heads[1] if len(heads) > 1 else definition.end])
    for start, end in zip(heads[1:] or heads, [*heads[2:], definition.end]):
        tokens = tokens_in(text, start, end)
        depth, at = 0, 0
        for at, (word, _) in enumerate(tokens):
            depth += (word in "({") - (word in ")}") if len(word) == 1 else 0
            if depth == 0 and (word == "=" or (word == "where" and len(heads) == 1)):
                break
        else:
            continue
        right = [it for it in tokens[at + 1 :]]
        stop = next((i for i, it in enumerate(right) if it[0] == "where" and len(heads) > 1), len(right))
        definition.clauses.append(Clause(definition.name, start, tokens[1:at], right[:stop], end))


def types_in(signature):
    """Returns the types of the arguments of a signature, each as its text."""
    said = re.sub(r"--[^\n]*", "", signature).partition(" : ")[2]
    parts, depth, held = [], 0, ""
    for piece in re.split(r"([(){}]|→)", said):
        depth += (piece in "({") - (piece in ")}") if piece else 0
        if piece == "→" and depth == 0:
            parts.append(held)
            held = ""
        else:
            held += piece
    types = []
    for part in (" ".join(it.split()) for it in parts):
        groups = re.findall(r"\(([^():]+) : ((?:[^()]|\([^()]*\))*)\)", part)
        if groups and part.startswith("("):
            types += [(name, kind) for names, kind in groups for name in names.split()]
        elif not part.startswith("{"):
            types.append((None, part))
    return types


class Context:
    """What the definitions and the types say of names: the types of arguments, and what is of one type."""

    def __init__(self):
        self.signatures, self.constructors, self.fields = {}, {}, collections.defaultdict(list)
        self.siblings = collections.defaultdict(list)
        types, constants = types_of_code()
        for made in types.values():
            if made.kind == "enum":
                self.note_data(made.name, [(name, tuple(held)) for name, held in made.parts])
            else:
                self.note_record(made.name, made.parts)
        for names in constants.values():
            for name in names:
                self.siblings[name] = [it for it in names if it != name]
        self.homes = {name: f"Constants_of_{file}" for file, names in constants.items() for name in names}

    def variants(self, kind):
        """Returns the variants of a type, each with what it holds and those that hold the same."""
        of_type = [it for it in self.constructors if it.startswith(f"{kind}.")]
        return [(it.partition(".")[2], *self.constructors[it]) for it in of_type]

    def note_data(self, name, variants):
        for variant, held in variants:
            same = [it for it, its in variants if its == held and it != variant]
            self.constructors[f"{name}.{variant}"] = (held, same)

    def note_record(self, record, fields):
        for name, kind in fields:
            same = [it for it, its in fields if its == kind and it != name]
            if same:
                self.fields[name].append((record, same[0]))

    def note_file(self, module, text, definitions):
        """Takes in what the definitions of a file say."""
        for definition in definitions:
            body = text[definition.start : definition.end]
            if definition.is_data:
                lines = re.findall(r"^ +([^\s(){}:]+) : (.*)$", body, re.M)
                self.note_data(definition.name, [(name, tuple(types_in(f"x : {held}"))) for name, held in lines])
                for name, _ in lines:
                    self.homes[f"{definition.name}.{name}"] = module
            elif definition.is_record:
                self.homes[definition.name] = module
                self.note_record(definition.name, re.findall(r"^ +pub ([^\s(){}:]+) : (.*)$", body, re.M))
            else:
                self.signatures[definition.name] = [kind for _, kind in definition.arguments]


class Names:
    """What the words of a file stand for."""

    def __init__(self, module, text, context, homes):
        self.context, self.module, self.exchanged = context, module, set()
        self.imported = set(re.findall(r"[^\s,{}]+", " ".join(re.findall(r"^use [^\n]*?\{(.*)\}", text, re.M))))
        self.aliases = dict(re.findall(r"^use Rattle\S*\.(\w+)\.TheVariants as (\w+)", text, re.M))
        self.aliases = {alias: made for made, alias in self.aliases.items()}
        self.bare = {}
        for made, names in re.findall(r"^use Rattle\S*\.(\w+)\.TheVariants\.\{(.*)\}", text, re.M):
            self.bare |= {name: f"{made}.{name}" for name in names.split(", ")}
        reached = {module} | set(re.findall(r"^use Rattle\.b\w+\.specs\.(\w+)\.\{", text, re.M))
        for key, home in homes.items():
            name = key.rpartition(".")[2]
            if home in reached and (home == module or name in self.imported) and "." in key:
                self.bare.setdefault(name, key)

    def constructor(self, word):
        """Returns the types of the arguments of a constructor and those of the same types, or None."""
        alias, _, name = word.rpartition(".")
        key = f"{self.aliases[alias]}.{name}" if alias in self.aliases else None if alias else self.bare.get(word)
        return self.context.constructors.get(key)

    def spelled(self, kind):
        """Returns the variants of a type by their names, each as this file spells it."""
        found = {it.partition(".")[2]: word for word, it in self.bare.items() if it.startswith(f"{kind}.")}
        for alias in (it for it, made in self.aliases.items() if made == kind):
            found = {variant: f"{alias}.{variant}" for variant, _, _ in self.context.variants(kind)}
        return found

    def home(self, word):
        """Returns the file of a constant, or of a constructor of a type of which the file has another."""
        for made in dict.fromkeys(it.partition(".")[0] for it in self.bare.values()):
            if f"{made}.{word}" in self.context.constructors:
                return self.context.homes.get(f"{made}.{word}", f"Variants_of_{made}")
        return self.context.homes.get(word)


def is_variable(word):
    return bool(re.fullmatch(r"[a-z]\w*'?", word)) and word not in SPELLED_AS_VARIABLES


class Node:
    """A word or what stands in brackets, with its place."""

    def __init__(self, word, start, end=None, inner=None):
        self.word, self.start, self.inner = word, start, inner
        self.end = start + len(word) if end is None else end


def nested(tokens, layout=False):
    """Returns the tokens as a list of nodes; a line's end counts where steps stand below one another."""
    stack = [[]]
    opened = []
    for word, start in tokens:
        if word == "\n" and not layout:
            continue
        if word in ("(", "{"):
            opened.append(Node(word, start))
            stack.append([])
        elif word in (")", "}"):
            node = opened.pop()
            node.inner, node.end = stack.pop(), start + 1
            stack[-1].append(node)
        else:
            stack[-1].append(Node(word, start))
    return stack[0]


def is_operator(node):
    return node.inner is None and (node.word in OPERATORS or (node.word[-1] == "." and len(node.word) > 1))


def operands(nodes):
    """Returns the operands of a list of nodes and the operators between them, in order."""
    runs, between = [[]], []
    for node in nodes:
        if is_operator(node):
            between.append(node)
            runs.append([])
        else:
            runs[-1].append(node)
    return runs, between


def lists_in(nodes):
    """Returns the list of nodes and those in brackets within it."""
    found = [nodes]
    for node in nodes:
        if node.inner is not None:
            found += lists_in(node.inner)
    return found


def element_type(kind):
    found = re.fullmatch(r"(?:List|Option) (?:\((.*)\)|([^\s()]+))", kind or "")
    return found and (found[1] or found[2])


def bound_by(nodes, kinds, names):
    """Returns the variables of patterns with their types, where these are known."""
    found = {}
    for node, kind in zip(nodes, [*kinds, *[None] * len(nodes)]):
        if node.inner is None:
            if is_variable(node.word):
                found[node.word] = kind
            continue
        runs, between = operands(node.inner)
        if between and all(it.word == "∷" for it in between):
            element = element_type(kind)
            found |= bound_by([it for run in runs for it in run], [*[element] * (len(runs) - 1), kind], names)
        elif between:
            found |= bound_by([it for run in runs for it in run], [], names)
        elif node.inner:
            head, *held = node.inner
            said = names.constructor(head.word)
            types = [it[1] if isinstance(it, tuple) else it for it in said[0]] if said else []
            types = [element_type(kind)] if head.word == "Some" else types
            found |= bound_by(held, types, names)
    return found


# Each kind of change: where a text is replaced, as a list of (start, end, text).


def of_words(text, clause, names, variables):
    """A number by one, a word of the kit for its fellow, one that is left out."""
    fellows = {}
    for pair in EXCHANGED.replace("\n", " ").split(";"):
        one, other = pair.split()
        fellows[one], fellows[other] = other, fellows.get(other, one)
    for word, start in clause.right:
        end = start + len(word)
        if word.isdigit():
            yield [(start, end, str(int(word) + 1))]
            if int(word):
                yield [(start, end, str(int(word) - 1))]
        elif word in fellows and fellows[word] != "+++":
            yield [(start, end, fellows[word])]
        elif word in DROPPED:
            yield [(start, end, "")]


def of_siblings(text, clause, names, variables):
    """A constructor, a constant, a field or a function exchanged for the next one of its type."""
    context = names.context
    for word, start in clause.right:
        end, head, field = start + len(word), *word.rpartition(".")[::2]
        made = names.constructor(word)
        if made and made[1]:
            prefix = f"{head}." if head else ""
            yield [(start, end, prefix + made[1][0])]
        elif word in context.siblings:
            for other in context.siblings[word][:1]:
                yield [(start, end, other)]
        elif field in context.fields and (head or text[start - 1] == ")") and not made:
            for record, other in context.fields[field]:
                if record in names.imported or context.homes.get(record) == names.module:
                    yield [(end - len(field), end, other)]
        elif word in names.alike and word not in variables and (word, clause.name) not in names.exchanged:
            names.exchanged.add((word, clause.name))
            yield [(start, end, names.alike[word])]


def of_variables(text, clause, names, variables):
    """A variable exchanged for one of its type."""
    for (word, start), (after, _) in zip(clause.right, [*clause.right[1:], ("", 0)]):
        head = word.partition(".")[0]
        if after != "=" and head in variables and not word.endswith("."):
            kind = variables[head]
            others = [it for it, its in variables.items() if it != head and its == kind]
            for other in others[:1]:
                yield [(start, start + len(head), other)]


def of_branches(text, clause, names, variables):
    """The branches of an `if` exchanged."""
    for nodes in lists_in(nested(clause.right, "do\n" in text[clause.start : clause.end])):
        words = [it.word if it.inner is None else "" for it in nodes]
        for at in (i for i, it in enumerate(words) if it == "if"):
            depth, then, other, end = 0, None, None, len(nodes)
            for i in range(at + 1, len(nodes)):
                depth += words[i] == "if"
                if words[i] == "then" and depth == 0:
                    then = i
                elif words[i] == "else" and depth == 0 and other is None:
                    other = i
                elif words[i] == "else" and other is None:
                    depth -= 1
                elif words[i] in (",", ";", "in", "\n") and other is not None and i > other + 1:
                    end = i
                    break
            if then is None or other is None or other + 1 >= end:
                continue
            yes, no = nodes[then + 1 : other], [it for it in nodes[other + 1 : end] if it.word != "\n"]
            first, second = (yes[0].start, yes[-1].end), (no[0].start, no[-1].end)
            yield [(*first, f"({text[slice(*second)]})"), (*second, f"({text[slice(*first)]})")]


def of_operands(text, clause, names, variables):
    """The sides of an operator exchanged, or two arguments of one type; an element left out, or exchanged."""
    for nodes in lists_in(nested(clause.right, "do\n" in text[clause.start : clause.end])):
        runs, between = operands(nodes)
        mixed = len({it.word for it in between if it.word not in ("then", "else", "if", "in", "=")}) > 1
        for i, node in enumerate(between):
            left, right = runs[i], runs[i + 1]
            if not left or not right or (mixed and not is_alone(between, i)):
                continue
            first, second = (left[0].start, left[-1].end), (right[0].start, right[-1].end)
            is_last = i + 1 == len(between) or between[i + 1].word != node.word
            swapped = [(*first, text[slice(*second)]), (*second, text[slice(*first)])]
            if node.word in ASYMMETRIC or (node.word == "∷" and not is_last):
                if text[slice(*first)] != text[slice(*second)]:
                    yield swapped
            if node.word in ("∷", "▸", "▹", "▷", "⨾", "++", "×"):
                yield [(first[0], second[0], "")]
                if node.word in ("++", "▸", "▹", "▷", "⨾", "×") and is_last:
                    yield [(first[1], second[1], "")]
        for run in runs:
            yield from of_arguments(text, run, names)


def is_alone(between, i):
    """Returns whether no operator beside this one could take one of its operands."""
    word = between[i].word
    near = [it.word for it in between[max(0, i - 1) : i + 2]]
    return all(it in (word, *"then else if in = ; , ← let → . λ".split(), "\n") for it in near)


def of_arguments(text, run, names):
    """Two arguments of one type exchanged, where they stand side by side."""
    kinds = names.context.signatures.get(run[0].word if run else None)
    pairs = list(zip(run[1:], run[2:]))
    for i, (one, other) in enumerate(pairs):
        of_one_type = kinds and i + 1 < len(kinds) and kinds[i] == kinds[i + 1]
        if of_one_type or run[0].word in ("nat_lt", "nat_le", "int_lt", "int_le", "int_div", "int_rem"):
            texts = text[one.start : one.end], text[other.start : other.end]
            if texts[0] != texts[1] and not (is_variable(texts[0]) and is_variable(texts[1])):
                yield [(one.start, one.end, texts[1]), (other.start, other.end, texts[0])]
            elif texts[0] != texts[1]:
                yield [(one.start, other.end, f"{texts[1]} {texts[0]}")]


def of_clauses(text, definition):
    """The right sides of two clauses exchanged; a clause left out where another may catch its case."""
    clauses = [it for it in definition.clauses if it.right]
    spans = []
    for clause in clauses:
        inner = [it for it in clause.right if it[0] != "\n"]
        spans.append((inner[0][1], inner[-1][1] + len(inner[-1][0])))
    for first, second in zip(spans, spans[1:]):
        if text[slice(*first)] != text[slice(*second)]:
            yield [(*first, text[slice(*second)]), (*second, text[slice(*first)])]
    catches = [all(is_variable(it) or it == "_" for it, _ in clause.left if it not in "()") for clause in clauses]
    catches = [any(it == "_" for it, _ in clause.left) or caught for clause, caught in zip(clauses, catches)]
    for i, clause in enumerate(clauses):
        if any(catches[i + 1 :]):
            yield [(clause.start, clause.end, "")]


KINDS = (of_words, of_siblings, of_variables, of_branches, of_operands)


class Change:
    """A change of a definition: its file and number, the definition, and what is replaced in the file."""

    def __init__(self, module, number, name, line, edits, text):
        self.module, self.number, self.name, self.line = module, number, name, line
        self.is_of_value = str(number).startswith("v")
        self.edits = sorted(edits, reverse=True)
        self.text = text
        for start, end, new in self.edits:
            self.text = self.text[:start] + new + self.text[end:]
        said = [f"{shown(text, start, end)} -> {new or 'nothing'}" for start, end, new in self.edits[::-1]]
        self.said = "; ".join(said)

    def __str__(self):
        return f"{self.module}.{self.number} line {self.line}, {self.name}: " + " ".join(self.said.split())


def shown(text, start, end):
    """Returns what is replaced, with a little of what stands before it."""
    before = text[text.rfind("\n", 0, start) + 1 : start][-24:]
    return f"{before}[{text[start:end]}]"


def is_claimed(module, text, definition):
    """Returns whether a definition is a type, or a clause of a promise."""
    head = text[definition.start : definition.end].partition(" : ")[2].partition("\n")[0]
    return definition.is_data or definition.is_record or (module in PROMISES and head.endswith("Type 0"))


def changes_of(module, text, names, wanted):
    """Returns the changes of a file, in order."""
    found, seen = [], {text}
    for definition in definitions_in(text):
        if definition.believed_as not in wanted or is_claimed(module, text, definition):
            continue
        edits = []
        for clause in definition.clauses:
            kinds = [kind for _, kind in definition.arguments]
            variables = bound_by(nested([it for it in clause.left if it[0] != "\n"]), kinds, names)
            for kind in KINDS:
                edits += kind(text, clause, names, variables)
        for edit in [*edits, *of_clauses(text, definition)]:
            line = text.count("\n", 0, edit[0][0]) + 1
            change = Change(module, len(found) + 1, definition.name, line, edit, text)
            if change.text not in seen:
                seen.add(change.text)
                found.append(change)
    return found


def all_changes(of_file=changes_of):
    """Returns the changes of each file with definitions to believe, and the names of each, by the file's name."""
    wanted, context, texts, found, names_of = believed(), Context(), {}, {}, {}
    for crate in SOURCES:
        for module in re.findall(r"mod (\w+)", read(f"{ROOT}/crates/{crate}/specs/Lib.antt")):
            texts[module] = read(f"{ROOT}/crates/{crate}/specs/{module}.antt")
            context.note_file(module, texts[module], definitions_in(texts[module]))
    for module in (it for it in texts if it in wanted):
        names = names_of[module] = Names(module, texts[module], context, context.homes)
        names.alike = alike_in(texts[module])
        found[module] = of_file(module, texts[module], names, wanted[module])
    return found, names_of


def alike_in(text):
    """Returns for each function of a file the next one that has the same type."""
    by_type = collections.defaultdict(list)
    for definition in definitions_in(text):
        if definition.clauses and not definition.is_record and not definition.is_data:
            head = text[definition.start : definition.clauses[0].start]
            by_type[" ".join(head.partition(" : ")[2].split())].append(definition.name)
    groups = [it for it in by_type.values() if len(it) > 1]
    return {name: group[(i + 1) % len(group)] for group in groups for i, name in enumerate(group)}
