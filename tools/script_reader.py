"""Reads scripts by the tokens and the grammar of docs/SPECIFICATION.md, and tells the first token that doesn't fit.

The program tells of a text without a tree where its declaration begins. This reader is a second one, which goes on to
the token at which no form of the grammar goes on. It is plain and not proved: what counts is what the program says.
"""
import re
import sys

NAME = rb"[A-Za-z_][A-Za-z0-9_]*(?:::[A-Za-z_][A-Za-z0-9_]*)?"
BYTE = rb"0*(?:25[0-5]|2[0-4][0-9]|1[0-9][0-9]|[0-9]{1,2})"
ADDRESS = BYTE + rb"(?:\." + BYTE + rb"){3}"
WIDTH = rb"0*(?:3[0-2]|[12]?[0-9])"
PORT = rb"0*(?:6553[0-5]|655[0-2][0-9]|65[0-4][0-9]{2}|6[0-4][0-9]{3}|[1-5]?[0-9]{1,4})/(?:tcp|udp)"
SPACE = re.compile(rb"(?:[ \t\n]|\r\n|#[^\n]*)*")
# The kinds of tokens. Of those that fit at a place the longest is the token, and of equally long ones the first.
KINDS = [(kind, re.compile(form)) for kind, form in (
    ("name", NAME), ("number", rb"[0-9]+"), ("port", PORT), ("address", ADDRESS), ("subnet", ADDRESS + b"/" + WIDTH),
    ("string", rb'"(?:\\[ntr"\\]|\\x[0-9A-Fa-f]{2}|[^"\\\n])*"'), ("attribute", b"&" + NAME),
    ("load", rb"@load[ \t]+(?:(?!\r\n)[^ \t\n])+"),
    ("sign", rb"!in(?![A-Za-z0-9_])|\?\$|==|!=|<=|>=|&&|\|\||\+=|-=|\+\+|--|[()\[\]{},;:?$=<>+\-*/%!|]"))]

RESERVED = set("""module export global const redef enum record type event hook function bool count int string time interval
    addr port subnet table set vector of if else while for in local print schedule add delete return next break T F""".split())
SIMPLE_TYPES = set("bool count int string time interval addr port subnet".split())
UNITS = {unit + plural for unit in "usec msec sec min hr day".split() for plural in ("", "s")}
DEEPEST = 200
# A level of nesting passes up to a dozen calls of the reader.
sys.setrecursionlimit(20 * DEEPEST)


class Token:
    """A token: its kind ('word' for a reserved name, 'end' behind the last one), its text and its first byte."""

    def __init__(self, kind, text, place):
        self.kind, self.text, self.place = kind, text, place


class DoesNotFit(Exception):
    """The token at which no form goes on, what was to come there, and where the innermost statement begins."""

    def __init__(self, token, wanted, statement):
        super().__init__(wanted)
        self.token, self.wanted, self.statement = token, wanted, statement


def tokens(text, place=0):
    """The tokens from a place on, up to the first byte that begins none; at the end one of kind 'end'."""
    made = []
    while True:
        place = SPACE.match(text, place).end()
        fits = [(found.end(), kind) for kind, form in KINDS if (found := form.match(text, place))]
        if not fits:
            return made + [Token("end", "", place)]
        end, kind = max(fits, key=lambda fit: fit[0])
        word = text[place:end].decode("utf8", "replace")
        made.append(Token("word" if kind == "name" and word in RESERVED else kind, word, place))
        place = end


def level(form):
    """A form that counts for how deep a declaration is nested."""
    def counted(reader, *words):
        reader.depth += 1
        if reader.depth > DEEPEST:
            reader.refuse(f"no more than {DEEPEST} levels of nesting")
        form(reader, *words)
        reader.depth -= 1
    return counted


class Reader:
    """Goes over tokens, a call for each form of the grammar; a call ends behind its form or raises DoesNotFit."""

    def __init__(self, made):
        self.made, self.at, self.depth, self.statements = made, 0, 0, []

    def refuse(self, wanted):
        raise DoesNotFit(self.made[self.at], wanted, self.statements[-1] if self.statements else None)

    def stands(self, *texts):
        """Whether one of these signs or reserved words is next."""
        token = self.made[self.at]
        return token.kind in ("sign", "word") and token.text in texts

    def passes(self, *texts):
        """Goes past one of these signs or words if it is next."""
        found = self.stands(*texts)
        self.at += found
        return found

    def want(self, *texts):
        if not self.passes(*texts):
            self.refuse(" or ".join(f"`{text}`" for text in texts))

    def is_kind(self, *kinds):
        return self.made[self.at].kind in kinds

    def want_kind(self, kind, wanted):
        if not self.is_kind(kind):
            self.refuse(wanted)
        self.at += 1

    def name(self):
        self.want_kind("name", "a name")

    def listed(self, form, *ends):
        """One or more of a form with commas between; with ends, a comma may stand in front of one of these."""
        form()
        while self.passes(","):
            if ends and self.stands(*ends):
                return
            form()

    # Declarations.

    @level
    def declaration(self):
        if self.is_kind("load"):
            self.at += 1
        elif self.passes("module"):
            self.name()
            self.want(";")
        elif self.passes("export"):
            self.want("{")
            while not self.passes("}"):
                self.declaration()
        elif self.passes("global", "const"):
            self.name()
            if self.passes(":"):
                self.type()
            if self.passes("="):
                self.initial()
            self.attributes()
            self.want(";")
        elif self.passes("redef"):
            self.redefinition()
        elif self.passes("type"):
            self.name()
            self.want(":")
            self.type()
            self.want(";")
        elif self.passes("event", "hook"):
            self.name()
            self.parameters()
            self.attributes()
            self.block()
        elif self.passes("function"):
            self.name()
            self.parameters()
            if self.passes(":"):
                self.type()
            self.block()
        else:
            self.refuse("a declaration (`global`, `const`, `redef`, `type`, `event`, `hook`, `function`, `module`, `export`, `@load`)")

    def redefinition(self):
        if self.passes("enum"):
            self.name()
            self.want("+=")
            self.words()
        elif self.passes("record"):
            self.name()
            self.want("+=")
            self.want("{")
            self.fields()
        else:
            self.name()
            self.want("=", "+=")
            self.initial()
        self.want(";")

    def words(self):
        self.want("{")
        self.listed(self.name, "}")
        self.want("}")

    def fields(self):
        while not self.passes("}"):
            self.name()
            self.want(":")
            self.type()
            self.attributes()
            self.want(";")

    def parameter(self):
        self.name()
        self.want(":")
        self.type()

    def parameters(self):
        self.want("(")
        if not self.passes(")"):
            self.listed(self.parameter)
            self.want(")")

    def attributes(self):
        while self.is_kind("attribute"):
            self.at += 1
            if self.passes("="):
                self.unary()

    def initial(self):
        if not self.passes("{"):
            self.expression()
        elif not self.passes("}"):
            self.listed(self.expression, "}")
            self.want("}")

    @level
    def type(self):
        if self.is_kind("name") or self.stands(*SIMPLE_TYPES):
            self.at += 1
        elif self.passes("table", "set"):
            is_table = self.made[self.at - 1].text == "table"
            self.want("[")
            self.listed(self.type)
            self.want("]")
            if is_table:
                self.want("of")
                self.type()
        elif self.passes("vector"):
            self.want("of")
            self.type()
        elif self.passes("record"):
            self.want("{")
            self.fields()
        elif self.passes("enum"):
            self.words()
        elif self.passes("event", "hook"):
            self.parameters()
        elif self.passes("function"):
            self.parameters()
            if self.passes(":"):
                self.type()
        else:
            self.refuse("a type")

    # Statements.

    def block(self):
        self.want("{")
        while not self.passes("}"):
            self.statement()

    @level
    def statement(self):
        self.statements.append(self.made[self.at])
        if self.stands("{"):
            self.block()
        elif not self.passes(";"):
            self.simple_statement()
        self.statements.pop()

    def condition(self):
        self.want("(")
        self.expression()
        self.want(")")

    def simple_statement(self):
        if self.passes("if"):
            self.condition()
            self.statement()
            if self.passes("else"):
                self.statement()
            return
        if self.passes("while"):
            self.condition()
            return self.statement()
        if self.passes("for"):
            self.loop_head()
            return self.statement()
        if self.passes("local"):
            self.name()
            if self.passes(":"):
                self.type()
            if self.passes("="):
                self.initial()
        elif self.passes("print"):
            self.listed(self.expression)
        elif self.passes("event"):
            self.name()
            self.arguments()
        elif self.passes("schedule"):
            self.expression()
            self.want("{")
            self.name()
            self.arguments()
            self.want("}")
        elif self.passes("add", "delete"):
            self.expression()
        elif self.passes("return"):
            if not self.stands(";"):
                self.expression()
        elif not self.passes("next", "break"):
            self.expression()
        self.want(";")

    def loop_head(self):
        self.want("(")
        if self.passes("["):
            self.listed(self.name)
            self.want("]")
        else:
            self.name()
        if self.passes(","):
            self.name()
        self.want("in")
        self.expression()
        self.want(")")

    # Expressions.

    @level
    def expression(self):
        self.conditional()
        if self.passes("=", "+=", "-="):
            self.expression()

    @level
    def conditional(self):
        self.chain("||", lambda: self.chain("&&", self.comparison))
        if self.passes("?"):
            self.expression()
            self.want(":")
            self.conditional()

    def chain(self, signs, operand):
        operand()
        while self.passes(*signs.split()):
            operand()

    def sum(self):
        self.chain("+ -", lambda: self.chain("* / %", self.unary))

    def comparison(self):
        self.sum()
        if self.passes("==", "!=", "<", "<=", ">", ">=", "in", "!in"):
            self.sum()

    @level
    def unary(self):
        if self.passes("!", "-", "++", "--"):
            self.unary()
        else:
            self.postfix()

    def item(self):
        if self.passes("$"):
            self.name()
            self.want("=")
        self.expression()

    def items(self, end):
        if not self.passes(end):
            self.listed(self.item)
            self.want(end)

    def arguments(self):
        self.want("(")
        self.items(")")

    def postfix(self):
        self.primary()
        while self.stands("$", "?$", "[", "("):
            if self.passes("["):
                self.listed(self.expression)
                self.want("]")
            elif self.stands("("):
                self.arguments()
            else:
                self.at += 1
                self.name()

    def primary(self):
        if self.is_kind("number"):
            self.at += 1
            self.at += self.is_kind("name") and self.made[self.at].text in UNITS
        elif self.is_kind("string", "port", "address", "subnet", "name") or self.stands("T", "F"):
            self.at += 1
        elif self.passes("("):
            self.expression()
            self.want(")")
        elif self.passes("|"):
            self.expression()
            self.want("|")
        elif self.passes("["):
            self.items("]")
        elif self.passes("table", "set", "vector"):
            self.arguments()
        elif self.passes("hook"):
            self.name()
            self.arguments()
        else:
            self.refuse("a value")


def misfit(text, place=0):
    """What doesn't fit first in the declarations from a place on, as DoesNotFit, or None where all of them read."""
    made = tokens(text, place)
    reader = Reader(made)
    try:
        while not reader.is_kind("end"):
            reader.declaration()
    except DoesNotFit as found:
        return found
    return None if made[-1].place == len(text) else DoesNotFit(made[-1], "a token", None)
