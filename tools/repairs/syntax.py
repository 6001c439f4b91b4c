"""Models as texts: tokens, and trees by the grammar."""
import re

GAP = re.compile(r"(?:[ \t\n\r]+|//[^\n]*)*")
TOKEN = re.compile(
    r"[A-Za-z_][A-Za-z0-9_]*|[0-9]+|->|\.\.|==|!=|<=|>=|&&|\|\||[{}\[\]();,.=<>+*!-]"
)
KEYWORDS = set(
    "enum abstract class extends var as int bool ref where forall foreach exists sum count"
    " alldifferent pack in maximize minimize true false this and or not".split()
)
SPELLINGS = {"==": "=", "&&": "and", "||": "or", "!": "not", "foreach": "forall"}
COMPARISONS = ("=", "!=", "<", "<=", ">", ">=")
QUANTIFIERS = ("forall", "exists", "sum", "count", "alldifferent", "pack")


class Wrong(Exception):
    """A text that is no model, or one without meaning."""


def placed_tokens(text):
    """The tokens of a text, each with its place; second spellings give the first one."""
    tokens, at = [], GAP.match(text).end()
    while at < len(text):
        found = TOKEN.match(text, at)
        if not found:
            raise Wrong(f"no token at {at}")
        tokens.append((SPELLINGS.get(found.group(), found.group()), at))
        at = GAP.match(text, found.end()).end()
    return tokens


class Parser:
    """Reads the items of a model: nested tuples, whose first part says what they are.

    The places of the constraints that were read are kept, in their order.
    """

    def __init__(self, text):
        placed = placed_tokens(text)
        self.tokens = [token for token, _ in placed]
        self.places = [place for _, place in placed]
        self.at = 0
        self.stated = []

    def peek(self):
        return self.tokens[self.at] if self.at < len(self.tokens) else ""

    def take(self):
        token = self.peek()
        self.at += 1
        return token

    def maybe(self, token):
        if self.peek() == token:
            self.at += 1
            return True
        return False

    def need(self, token):
        if not self.maybe(token):
            raise Wrong(f"{token} is missing before {self.peek()!r}")

    def word(self):
        token = self.take()
        if not re.match(r"[A-Za-z_]", token) or token in KEYWORDS:
            raise Wrong(f"{token!r} is no word")
        return token

    def number(self):
        token = self.take()
        if not token.isdigit():
            raise Wrong(f"{token!r} is no number")
        return int(token)

    def items(self):
        items = []
        while self.peek():
            items.append(self.item())
        return items

    def item(self):
        token = self.peek()
        if self.maybe("enum"):
            name, values = self.word(), []
            self.need("{")
            values.append(self.word())
            while self.maybe(","):
                values.append(self.word())
            self.need("}")
            return ("enum", name, values)
        if token in ("abstract", "class"):
            return self.klass(self.maybe("abstract"))
        if token in ("maximize", "minimize"):
            self.take()
            goal = ("goal", token, self.expr())
            self.need(";")
            return goal
        return self.member()

    def klass(self, is_abstract):
        self.need("class")
        name = self.word()
        parent = self.word() if self.maybe("extends") else None
        self.need("{")
        members = []
        while not self.maybe("}"):
            members.append(self.member())
        return ("class", name, is_abstract, parent, members)

    def member(self):
        if self.maybe("var"):
            name = self.word()
            self.need("as")
            shape = self.shape()
            self.need(";")
            return ("var", name, shape)
        self.need("where")
        if not self.maybe("{"):
            return ("where", [self.constraint()])
        listed = []
        while not self.maybe("}"):
            listed.append(self.constraint())
        return ("where", listed)

    def constraint(self):
        place = self.places[self.at] if self.at < len(self.places) else None
        expr = self.expr()
        self.need(";")
        self.stated.append(place)
        return expr

    def count(self):
        if not self.maybe("["):
            return None
        n = self.number()
        self.need("]")
        return n

    def bound(self):
        return -self.number() if self.maybe("-") else self.number()

    def shape(self):
        if self.maybe("int"):
            return ("span", -1048576, 1048575)
        if self.maybe("bool"):
            return ("bool",)
        if self.maybe("ref"):
            name, n = self.word(), self.count()
            return ("ref", name) if n is None else ("set", name, n)
        if self.peek() == "-" or self.peek().isdigit():
            low = self.bound()
            self.need("..")
            return ("span", low, self.bound())
        name, n = self.word(), self.count()
        return ("named", name) if n is None else ("many", name, n)

    def expr(self):
        left = self.level(("or",))
        return ("pair", "->", left, self.expr()) if self.maybe("->") else left

    def level(self, operators):
        below = {"or": self.conjunction, "+": self.product}[operators[0]]
        left = below()
        while self.peek() in operators:
            left = ("pair", self.take(), left, below())
        return left

    def conjunction(self):
        left = self.negation()
        while self.maybe("and"):
            left = ("pair", "and", left, self.negation())
        return left

    def negation(self):
        return ("not", self.negation()) if self.maybe("not") else self.comparison()

    def comparison(self):
        left = self.level(("+", "-"))
        if self.peek() in COMPARISONS:
            return ("pair", self.take(), left, self.level(("+", "-")))
        return ("pair", "in", left, self.path()) if self.maybe("in") else left

    def product(self):
        left = self.unary()
        while self.maybe("*"):
            left = ("pair", "*", left, self.unary())
        return left

    def unary(self):
        return ("minus", self.unary()) if self.maybe("-") else self.post()

    def post(self):
        left = self.primary()
        while self.maybe("."):
            left = ("dot", left, self.word())
        return left

    def path(self):
        path = ("this",) if self.maybe("this") else ("name", self.word())
        while self.maybe("."):
            path = ("dot", path, self.word())
        return path

    def primary(self):
        token = self.peek()
        if token.isdigit():
            return ("number", self.number())
        if token in ("true", "false"):
            return ("truth", self.take() == "true")
        if self.maybe("this"):
            return ("this",)
        if self.maybe("("):
            inner = self.expr()
            self.need(")")
            return ("paren", inner)
        return self.quantifier() if token in QUANTIFIERS else ("name", self.word())

    def quantifier(self):
        kind, name = self.take(), self.word()
        self.need("in")
        over, least = self.path(), None
        if kind in ("forall", "exists", "sum") and self.maybe("where"):
            least = self.expr()
        self.need("{")
        bodies = [self.expr()]
        if kind in ("forall", "exists", "pack"):
            self.need(";")
            while not self.maybe("}"):
                bodies.append(self.expr())
                self.need(";")
        else:
            self.need("}")
        if kind == "pack" and len(bodies) != 3:
            raise Wrong("pack has three bodies")
        return ("quantifier", kind, name, over, least, bodies)
