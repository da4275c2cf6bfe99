"""The changes of functions of the code, for tools/change-code: what a function is, and what is changed in it."""
import re

TOKEN = re.compile(
    r'//[^\n]*|b?"(?:\\.|[^"\\])*"|b?\'(?:\\.[^\']*|[^\'\\])\'|\'\w+|\d\w*|\w+|==|!=|<=|>=|&&|\|\||=>|->|::|\.\.=?'
    r"|\s+|.", re.S
)
FUNCTION = re.compile(r"^( *)(?:pub(?:\(crate\))? )?fn (\w+)", re.M)
TABLE = re.compile(r"^const ([A-Z_]+): \[(.*?); \d+\] = \[\n(.*?)^\];", re.M | re.S)
EXCHANGED = {
    "==": "!=", "!=": "==", "&&": "||", "||": "&&", "<=": "<", ">=": ">", "true": "false", "false": "true",
    "saturating_add": "saturating_sub", "saturating_sub": "saturating_add", "wrapping_add": "wrapping_sub",
    "wrapping_sub": "wrapping_add", "min": "max", "max": "min", "first": "last", "last": "first", "any": "all",
    "is_some": "is_none", "is_none": "is_some", "break": "continue",
}
RESULTS = {
    "bool": ("true", "false"), "usize": ("0",), "u64": ("0",), "": ("{}",), "Result<(), AllocError>": ("Ok(())",),
}
# What is handed on in a call of a command, and what stands for it.
OTHER_EDITION = "match {} {{ Edition::One => Edition::Two, Edition::Two => Edition::One }}"
HANDED = {
    "edition": (OTHER_EDITION, "Edition::One", "Edition::Two"),
    "steps": ("{}.saturating_add(1)", "10000000", "1000"),
    "files": (
        "SourceFiles {{ first: bsources::SourceFile::new({0}.first.name, b\"\"), rest: {0}.rest }}",
        "SourceFiles {{ first: bsources::SourceFile {{ name: \"?\", lines: {0}.first.lines }}, rest: {0}.rest }}",
    ),
    "name": ("None",), "function": ("None",), "is_check": ("!{}",), "for_editor": ("!{}",), "rows": ("Rows::From(1)",),
    "source": ("SourceNames {{ edition: Edition::One, ..{} }}",),
}


def tokens_of(text):
    return TOKEN.findall(text)


def closing(tokens, at):
    """Returns the place of the bracket that closes the one at this place."""
    depth = 0
    for place in range(at, len(tokens)):
        depth += (tokens[place] in "([{") - (tokens[place] in ")]}") if len(tokens[place]) == 1 else 0
        if depth == 0:
            return place
    return len(tokens) - 1


def functions(text):
    """Yields the name, the result, the head and the places of the body of each function without a contract."""
    for found in FUNCTION.finditer(text):
        tokens = tokens_of(text[found.start():])
        at, start = 0, found.start()
        while tokens[at] != "{":
            at = closing(tokens, at) if tokens[at] == "(" else at
            at += 1
        head = "".join(tokens[:at])
        if re.search(r"\b(?:ensures|requires)\b", head) or "const fn" in head:
            yield found[2], None, None, None, None
            continue
        body = start + len(head)
        end = body + len("".join(tokens[at:closing(tokens, at) + 1]))
        result = re.search(r"\) -> (.*?)\s*(?:where.*)?$", head, re.S)
        yield found[2], result[1] if result else "", head, body, end


def replaced(tokens, first, end, *new):
    return "".join([*tokens[:first], *new, *tokens[end:]])


def near(tokens, place):
    """Returns the line in which a token stands."""
    text = "".join(tokens)
    at = len("".join(tokens[:place]))
    return text[text.rfind("\n", 0, at) + 1:(text + "\n").find("\n", at)].strip()


def token_changes(tokens):
    """Yields the changes of one token: what is said, and the new text."""
    for at, token in enumerate(tokens):
        spaced = 0 < at < len(tokens) - 1 and tokens[at - 1].isspace() and tokens[at + 1].isspace()
        new = EXCHANGED.get(token)
        if token in "<>" and len(token) == 1 and spaced:
            new = token + "="
        if token == "||" and not spaced or token in ("min", "max", "first", "last", "any") and tokens[at + 1] != "(":
            new = None
        if re.fullmatch(r"\d+", token) and tokens[at - 1] != "." and not re.search(r"\||\.\.", near(tokens, at)):
            more = str(int(token) + 1)
            yield f"{token} is {more}: {near(tokens, at)}", replaced(tokens, at, at + 1, more)
            new = "0" if token == "1" else None
        is_negated = token == "!" and not tokens[at - 1][-1].isalnum()
        if is_negated and (tokens[at + 1][0].isalpha() or tokens[at + 1] in "(*&"):
            new = " "
        if new:
            yield f"{token} is {new}: {near(tokens, at)}", replaced(tokens, at, at + 1, new)


def statement_changes(tokens):
    """Yields the changes that leave a statement out."""
    begins = 1
    at = 1
    while at < len(tokens) - 1:
        token = tokens[at]
        if token in ("{", "}") or token.startswith("//"):
            begins = at + 1
        elif token == "(" or token == "[":
            at = closing(tokens, at)
        elif token == ";":
            said = " ".join("".join(tokens[begins:at + 1]).split())
            leaves = said.startswith("return") and re.search(r"let [^;]* else \{\s*$", "".join(tokens[:begins]))
            if re.match(r"[\w*]", said) and not re.match(r"let |use |for |if |match |while ", said) and not leaves:
                yield f"left out: {said}", replaced(tokens, begins, at + 1)
            begins = at + 1
        at += 1


def pattern_start(tokens, at):
    """Returns where the pattern begins that ends before this place."""
    depth = 0
    while at > 0:
        token = tokens[at - 1]
        after = next((it for it in tokens[at:] if not it.isspace()), "")
        if depth == 0 and (token in ("{", "(", "[", ",") or token == "}" and after not in ("=>", "|", "if", ")", ",")):
            return at
        depth += (token in (")", "]", "}")) - (token in ("(", "[", "{"))
        at -= 1
    return at


def block_start(tokens, at):
    """Returns the place of the brace around a place, or None where the innermost bracket is another one."""
    depth = 0
    while at > 0:
        at -= 1
        depth += (tokens[at] in (")", "]", "}")) - (tokens[at] in ("(", "[", "{"))
        if depth < 0:
            return at if tokens[at] == "{" else None
    return None


def takes_the_rest(tokens, at):
    """Whether the match around a place has an arm for all that no other one is for, or the place is in no match."""
    start = block_start(tokens, at)
    if start is None:
        return True
    place = start + 1
    while tokens[place] != "}":
        if tokens[place] == "=>" and "".join(tokens[pattern_start(tokens, place):place]).strip() == "_":
            return True
        place = closing(tokens, place) + 1 if tokens[place] in ("(", "[", "{") else place + 1
    return False


def pattern_changes(tokens):
    """Yields the changes of a match: a pattern that is never taken, that lacks a part, or that has no condition."""
    for at, token in enumerate(tokens):
        if token == "=>":
            start = pattern_start(tokens, at)
            pattern = re.sub(r"//[^\n]*", "", "".join(tokens[start:at])).strip()
            condition = re.search(r"\sif\b.*$", pattern, re.S)
            bare = pattern[:condition.start()] if condition else pattern
            if pattern != "_" and (condition or takes_the_rest(tokens, at)):
                yield f"never: {near(tokens, at)}", replaced(tokens, start, at, f" {bare} if false ")
            if condition:
                yield f"always: {near(tokens, at)}", replaced(tokens, start, at, f" {bare} if true ")
        if token == "|" and tokens[at - 1].isspace() and tokens[at + 1].isspace() and takes_the_rest(tokens, at):
            end = part_end(tokens, at + 2)
            yield f"without{''.join(tokens[at + 1:end])}: {near(tokens, at)}", replaced(tokens, at, end)
            start = pattern_start(tokens, at)
            if "|" not in tokens[start:at]:
                first = "".join(tokens[start:at]).strip()
                yield f"without {first}: {near(tokens, at)}", replaced(tokens, start, at + 1)


def part_end(tokens, at):
    """Returns where a part of a pattern ends."""
    while tokens[at] not in ("|", ")", "=>", ","):
        if tokens[at].isspace() and tokens[at + 1] in ("|", "=>", "if", ")"):
            return at
        at = closing(tokens, at) + 1 if tokens[at] in ("(", "[", "{") else at + 1
    return at


def condition_changes(tokens):
    """Yields the changes of a condition that always holds, and of one that never does."""
    for at, token in enumerate(tokens):
        if token == "if" and tokens[at + 2] != "let":
            end = at + 1
            while tokens[end] not in ("{", "=>", ")"):
                end = closing(tokens, end) if tokens[end] in "([" else end
                end += 1
            if tokens[end] != "=>":
                for value in ("true", "false"):
                    yield f"{value}: {near(tokens, at)}", replaced(tokens, at + 1, end, f" {value} ")


def results_of(kind):
    return ("None",) if kind.startswith("Option<") else RESULTS.get(kind, ())


def changes_of_function(name, result, body):
    tokens = tokens_of(body)
    for value in results_of(result):
        yield f"gives {value}", "{ " + value.replace("{}", "") + " }"
    for change in (token_changes, statement_changes, pattern_changes, condition_changes):
        yield from change(tokens)


def calls_changed(body):
    """Yields the changes of what is handed on in a body of serving."""
    for found in re.finditer(r"(?<=[(\s])((?:\w+\.)?(\w+))(?=[,)])|(?<=[^:]): ((?:\w+\.)?(\w+)),", body):
        whole, word = found[1] or found[3], found[2] or found[4]
        start = found.start(1) if found[1] else found.start(3)
        line = body[body.rfind("\n", 0, start) + 1:body.find("\n", start)].strip()
        if "=>" in body[start:body.find("\n", start)] or body[:start].endswith("mut ") or whole == "lib.name":
            continue
        # A field of a record that has the name of its value.
        in_record = re.search(r"\w+ \{\s*(?:[^{}()]*(?:\([^()]*\))?[^{}()]*)$", body[:start])
        is_field = re.fullmatch(rf"{word},", line) and in_record
        for new in HANDED.get(word, ()):
            text = new.format(whole)
            given = f"{word}: {text}" if is_field else text
            yield f"{whole} is {text}: {line}", body[:start] + given + body[start + len(whole):]


def serving_functions(text):
    """Yields the functions of serving with their bodies, each of which has a contract."""
    for found in re.finditer(r"^(?:pub )?fn (\w+).*?^\{\n(.*?)^\}$", text, re.M | re.S):
        yield found[1], found.start(2) - 2, found.end(2) + 1


def parameters(text):
    """Returns the names of parameters, of a text that begins after their parenthesis."""
    tokens, names, part, at = tokens_of(text), [], "", 0
    while True:
        end = closing(tokens, at) if tokens[at] in ("(", "[") else at
        if tokens[at] in (",", ")"):
            names += [part] if part.strip() else []
            part = ""
            if tokens[at] == ")":
                break
        else:
            part += "".join(tokens[at:end + 1])
        at = end + 1
    return [re.sub(r"^&?('\w+ )?(mut )?", "", it.partition(":")[0].strip()) for it in names]


def renamed(head, name, number):
    """Returns the head of a function of its own for a change."""
    return re.sub(rf"^( *)(?:pub(?:\(crate\))? )?fn {name}\b", rf"\1fn {name}_{number}", head)


def rows_of(text):
    """Returns the rows of a table, each with its comma."""
    rows, tokens, row = [], tokens_of(text), ""
    at = 0
    while at < len(tokens):
        end = closing(tokens, at) if tokens[at] in ("(", "[") else at
        row += "".join(tokens[at:end + 1])
        if tokens[at] == ",":
            rows.append(row)
            row = ""
        at = end + 1
    return [it for it in rows if it.strip(" \n,")]


def without(rows, at):
    other = at + 1 if at + 1 < len(rows) else at - 1
    return [*rows[:at], rows[other], *rows[at + 1:]]
