"""Expressions of B over the words of a run that stands.

They have the operators of B with their precedence, words of 16 bits, names, indices, pointers, addresses and constants.
No function is called. What stores a word is allowed where the user asks for it alone."""
import functools
from typing import Callable, NamedTuple, Optional

from .language import KEYWORDS
from .tokens import Token, TokenFault, constant_of, tokens_of
from .words import WORD, signed

RANKS = (("*", "/", "%"), ("+", "-"), ("<<", ">>"), ("<", "<=", ">", ">="), ("==", "!="), ("&",), ("|",))
RANK = {sign: rank for rank, signs in enumerate(RANKS) for sign in signs}
MOST_NESTING = 50  # levels
MOST_TEXT = 10_000  # characters


class Fault(Exception):
    """Why an expression has no value, in words for the user."""


class Scope(NamedTuple):
    """What an expression is over: the address of a name, a word of memory, and how a word is stored, which is None
    where nothing may be stored."""

    address_of: Callable[[str], int]
    word: Callable[[int], int]
    store: Optional[Callable[[int, int], None]]


class Node(NamedTuple):
    """A part of an expression: what gives its word, and what gives its address, or None."""

    word: Callable[[], int]
    address: Optional[Callable[[], int]] = None
    is_operand: bool = True


class Value(NamedTuple):
    """The word of an expression, and where it lies, or None."""

    word: int
    address: Optional[int]


def divided(left, right):
    if right == 0:
        raise Fault("division by 0")
    quotient = abs(signed(left)) // abs(signed(right))
    return quotient if (signed(left) < 0) == (signed(right) < 0) else -quotient


OPERATORS = {
    "+": lambda left, right: left + right,
    "-": lambda left, right: left - right,
    "*": lambda left, right: left * right,
    "/": divided,
    "%": lambda left, right: signed(left) - divided(left, right) * signed(right),
    "<": lambda left, right: int(signed(left) < signed(right)),
    "<=": lambda left, right: int(signed(left) <= signed(right)),
    ">": lambda left, right: int(signed(left) > signed(right)),
    ">=": lambda left, right: int(signed(left) >= signed(right)),
    "==": lambda left, right: int(left == right),
    "!=": lambda left, right: int(left != right),
    "&": lambda left, right: left & right,
    "|": lambda left, right: left | right,
    "<<": lambda left, right: left << right if right < 16 else 0,
    ">>": lambda left, right: left >> right if right < 16 else 0,
}


@functools.lru_cache(64)
def _tokens(text):
    """Kept, since a condition is evaluated again and again."""
    return tuple(tokens_of(text))


class _Parser:
    """Reads an expression, by recursive descent with a rank for each operator."""

    def __init__(self, text, scope):
        if len(text) > MOST_TEXT:
            raise Fault("the expression is too long")
        self.tokens, self.at, self.scope, self.level = _tokens(text), 0, scope, 0

    def look(self) -> Token:
        return self.tokens[self.at]

    def is_sign(self, *texts):
        return self.look().kind == "sign" and self.look().text in texts

    def take(self) -> Token:
        token = self.look()
        self.at += token.kind != "end"
        return token

    def expect(self, text):
        if not self.is_sign(text):
            raise Fault(f"a {text} is missing before {self.look().text or 'the end'}")
        self.take()

    def whole(self) -> Node:
        node = self.rvalue()
        if self.is_sign(";"):
            self.take()
        if self.look().kind != "end":
            raise Fault(f"the expression can't go on with {self.look().text}")
        return node

    def rvalue(self) -> Node:
        self.level += 1
        if self.level > MOST_NESTING:
            raise Fault("the expression is nested too deeply")
        node = self.conditional()
        sign = self.look().text
        if self.look().kind == "sign" and sign.startswith("=") and sign != "==":
            self.take()
            node = self.assigned(node, sign[1:])
        self.level -= 1
        return node

    def assigned(self, left, operator) -> Node:
        """An assignment, of which the sign is `=` and the operator or none."""
        address = self.lvalue(left if left.is_operand else Node(left.word), "=")
        right = self.rvalue()
        self.may_store()

        def word():
            at = address()
            old = self.scope.word(at)
            return self.stored(at, OPERATORS[operator](old, right.word()) if operator else right.word())

        return Node(word, is_operand=False)

    def may_store(self):
        if self.scope.store is None:
            raise Fault("nothing is stored here: the debug console stores")

    def stored(self, address, word):
        self.scope.store(address & WORD, word & WORD)
        return word & WORD

    def lvalue(self, node, sign):
        if node.address is None:
            raise Fault(f"{sign} wants a name, an index or a pointer")
        return node.address

    def conditional(self) -> Node:
        test = self.binary(len(RANKS) - 1)
        if not self.is_sign("?"):
            return test
        self.take()
        yes = self.rvalue()
        self.expect(":")
        self.level += 1
        no = self.conditional()
        self.level -= 1
        return Node(lambda: yes.word() if test.word() else no.word(), is_operand=False)

    def binary(self, rank) -> Node:
        """Operands and the operators up to a rank, of which those of the same rank bind to the left."""
        left = self.prefixed()
        while self.look().kind == "sign" and RANK.get(self.look().text, len(RANKS)) <= rank:
            sign = self.take().text
            left = self.joined(left, sign, self.binary(RANK[sign] - 1))
        return left

    def joined(self, left, operator, right) -> Node:
        return Node(lambda: OPERATORS[operator](left.word(), right.word()) & WORD, is_operand=False)

    def prefixed(self) -> Node:
        if not self.is_sign("-", "!", "*", "&", "++", "--"):
            return self.postfixed()
        sign = self.take().text
        self.level += 1
        if self.level > MOST_NESTING:
            raise Fault("the expression is nested too deeply")
        node = self.prefixed()
        self.level -= 1
        if sign == "-":
            return Node(lambda: -node.word() & WORD)
        if sign == "!":
            return Node(lambda: int(node.word() == 0))
        if sign == "*":
            return Node(lambda: self.scope.word(node.word()), node.word)
        if sign == "&":
            return Node(self.lvalue(node, "&"))
        return self.changed(node, sign, False)

    def changed(self, node, sign, gives_old) -> Node:
        """`++` or `--` before or after an operand."""
        address, by = self.lvalue(node, sign), 1 if sign == "++" else -1
        self.may_store()

        def word():
            at = address()
            old = self.scope.word(at)
            new = self.stored(at, old + by)
            return old if gives_old else new

        return Node(word)

    def postfixed(self) -> Node:
        node = self.primary()
        while self.is_sign("[", "(", "++", "--"):
            sign = self.take().text
            if sign == "(":
                raise Fault("no function is called in an expression")
            if sign == "[":
                node = self.indexed(node, self.rvalue())
                self.expect("]")
            else:
                node = self.changed(node, sign, True)
        return node

    def indexed(self, node, index) -> Node:
        def address():
            return node.word() + index.word() & WORD

        return Node(lambda: self.scope.word(address()), address)

    def primary(self) -> Node:
        token = self.take()
        if token.kind == "name" and token.text not in KEYWORDS:
            address = self.scope.address_of(token.text)
            return Node(lambda: self.scope.word(address), lambda: address)
        if token.kind in ("number", "character"):
            word = constant_of(token)
            return Node(lambda: word)
        if token.text == "(":
            node = self.rvalue()
            self.expect(")")
            return node._replace(is_operand=True)
        if token.kind == "string":
            raise Fault("a string has no address here")
        raise Fault(f"an operand is missing {'before ' + token.text if token.text else 'at the end'}")


def evaluate(text: str, scope: Scope) -> Value:
    """The value of an expression; a Fault tells why there is none."""
    try:
        node = _Parser(text, scope).whole()
        if node.address is None or not node.is_operand:
            return Value(node.word() & WORD, None)
        address = node.address() & WORD
        return Value(scope.word(address), address)
    except TokenFault as fault:
        raise Fault(str(fault)) from None
    except RecursionError:
        raise Fault("the expression is nested too deeply") from None
