"""The tokens of a text, and the places where a text has none.

`tokens(text)` gives the tokens of a text of bytes, which is held as a string of characters below 256. The first place that belongs to no
token is refused by `Refused`, with its kind and line.
"""

import re


class Refused(Exception):
    """A text that is no program: the kind of its first mistake, and the line of that."""

    def __init__(self, kind, line):
        super().__init__(kind, line)
        self.kind = kind
        self.line = line


class Token:
    """What kind of token it is, its text, its line, and whether it stands in a pragma, the ends of which count as standing in it.

    The kinds are `name`, `keyword`, `number`, `string`, `symbol`, `start` and `end` of a pragma, `directive`, and `last`, behind all others.
    A number has its value, and whether it is unsigned; the text of a string is the bytes that it stands for.
    """

    __slots__ = ("kind", "text", "line", "in_pragma", "value", "unsigned")

    def __init__(self, kind, text, line, in_pragma=False, value=0, unsigned=False):
        self.kind = kind
        self.text = text
        self.line = line
        self.in_pragma = in_pragma
        self.value = value
        self.unsigned = unsigned

    def __repr__(self):
        return f"{self.kind} {self.text!r} at {self.line}"


USED = frozenset("int long unsigned void if else while for return break continue printf".split())
LEFT_OUT = frozenset(
    "auto case char const default do double enum extern float goto inline register restrict short signed sizeof static struct switch "
    "typedef union volatile".split()
)
SYMBOLS = (
    "<<= >>= += -= *= /= %= &= |= ^= <= >= == != ++ -- << >> && || -> + - * / % & | ^ ~ ! < > = ( ) [ ] { } ; , : ? .".split()
)

BLANKS = re.compile(r"(?:[ \t\r]|\\\n)*")
WORD = re.compile(r"[A-Za-z_][A-Za-z_0-9]*")
WORD_RUN = re.compile(r"[A-Za-z_0-9]*")
NUMBER = re.compile(r"(0[xX][0-9a-fA-F]+|0[0-7]*|[1-9][0-9]*)([uU](?:ll|LL|l|L)?|(?:ll|LL|l|L)[uU]?)?")
SYMBOL = re.compile("|".join(re.escape(symbol) for symbol in SYMBOLS))
STRING = re.compile(r'"((?:[^"\\\x00-\x08\x0a-\x1f]|\\[nt\\"])*)"')
ESCAPE = re.compile(r"\\(.)")
ESCAPES = {"n": "\n", "t": "\t", "\\": "\\", '"': '"'}


class Reader:
    """Goes through a text from token to token."""

    def __init__(self, text):
        self.text = text
        self.place = 0
        self.line = 1
        # only blanks have stood on this line so far
        self.line_begins = True
        self.in_pragma = False
        self.found = []

    def at(self, bytes_):
        return self.text.startswith(bytes_, self.place)

    def go(self, end):
        """Goes on to this place, and counts the newlines."""
        self.line += self.text.count("\n", self.place, end)
        self.place = end

    def to_newline(self):
        end = self.text.find("\n", self.place)
        self.go(len(self.text) if end < 0 else end)

    def skip_comment(self):
        """Whether a comment stood here; it is passed."""
        if self.at("/*"):
            end = self.text.find("*/", self.place + 2)
            if end < 0:
                raise Refused("Lexical", self.line)
            self.go(end + 2)
            return True
        if self.at("//"):
            self.to_newline()
            while self.place < len(self.text) and self.text[self.place - 1] == "\\":
                self.go(self.place + 1)
                self.to_newline()
            return True
        return False

    def skip_blanks_of_a_line(self):
        self.go(BLANKS.match(self.text, self.place).end())
        while self.at("/") and self.skip_comment():
            self.go(BLANKS.match(self.text, self.place).end())

    def add(self, kind, text, **more):
        self.found.append(Token(kind, text, self.line, self.in_pragma, **more))
        self.line_begins = False

    def newline(self):
        if self.in_pragma:
            self.add("end", "")
            self.in_pragma = False
        self.go(self.place + 1)
        self.line_begins = True

    def hash_line(self):
        """A `#` with only blanks before it on its line."""
        line = self.line
        word = WORD_RUN.match(self.text, self.place + 1)
        if word.group() == "include":
            self.to_newline()
        elif word.group() == "pragma":
            self.go(word.end())
            self.skip_blanks_of_a_line()
            first = WORD_RUN.match(self.text, self.place)
            if first.group() == "oss":
                self.in_pragma = True
                self.found.append(Token("start", "#pragma oss", line, True))
                self.line_begins = False
                self.go(first.end())
            else:
                self.to_newline()
        else:
            self.add("directive", "#" + word.group())
            self.to_newline()

    def number(self):
        run = WORD_RUN.match(self.text, self.place)
        form = NUMBER.fullmatch(run.group())
        if not form:
            raise Refused("Lexical", self.line)
        digits, suffix = form.group(1), form.group(2) or ""
        if digits[:2] in ("0x", "0X"):
            value = int(digits[2:], 16)
        else:
            value = int(digits, 8 if digits[0] == "0" else 10)
        if value >= 1 << 64:
            raise Refused("Lexical", self.line)
        self.add("number", run.group(), value=value, unsigned="u" in suffix.lower() or value >= 1 << 63)
        self.go(run.end())

    def word(self):
        word = WORD.match(self.text, self.place)
        if len(word.group()) > 63:
            raise Refused("TooLarge", self.line)
        self.add("keyword" if word.group() in USED or word.group() in LEFT_OUT else "name", word.group())
        self.go(word.end())

    def token(self):
        """The token that begins here."""
        byte = self.text[self.place]
        if byte.isascii() and byte.isdigit():
            self.number()
        elif byte.isascii() and (byte.isalpha() or byte == "_"):
            self.word()
        elif byte == '"':
            string = STRING.match(self.text, self.place)
            if not string:
                raise Refused("Lexical", self.line)
            self.add("string", ESCAPE.sub(lambda escape: ESCAPES[escape.group(1)], string.group(1)))
            self.go(string.end())
        else:
            symbol = SYMBOL.match(self.text, self.place)
            if not symbol:
                raise Refused("Lexical", self.line)
            self.add("symbol", symbol.group())
            self.go(symbol.end())

    def read(self):
        while True:
            self.skip_blanks_of_a_line()
            if self.place == len(self.text):
                break
            if self.at("\n"):
                self.newline()
            elif self.at("#") and self.line_begins:
                self.hash_line()
            else:
                self.token()
        # the end of the tokens stands in no pragma
        self.found.append(Token("last", "", 1 + self.text.count("\n")))
        return self.found


def tokens(text):
    if len(text) > 1 << 20:
        raise Refused("TooLarge", 1)
    return Reader(text).read()
