"""Lexemes of a source (Haskell 2010 Report, chapter 2), written from the rules and apart from the proved definitions."""

import unicodedata

WHITE = {0x09, 0x0A, 0x0B, 0x0C, 0x0D, 0x20, 0x85, 0xA0, 0x1680, *range(0x2000, 0x200B),
         0x2028, 0x2029, 0x202F, 0x205F, 0x3000}
SPECIAL = set('(),;[]`{}')
ASCII_SYMBOLS = set('!#$%&*+./<=>?@\\^|-~:')
RESERVED_WORDS = set('case class data default deriving do else foreign if import in infix infixl infixr instance let '
                     'module newtype of then type where _'.split())
RESERVED_OPERATORS = {'..', ':', '::', '=', '\\', '|', '<-', '->', '@', '~', '=>'}
CONTROL_NAMES = ('NUL SOH STX ETX EOT ENQ ACK BEL BS HT LF VT FF CR SO SI DLE DC1 DC2 DC3 DC4 NAK SYN ETB CAN EM SUB '
                 'ESC FS GS RS US SP DEL').split()
DIGITS = set('0123456789')
OCTITS = set('01234567')
HEXITS = set('0123456789abcdefABCDEF')
ILL_FORMED = 'ill-formed'  # a byte that begins no well-formed character; of no class, since it is no single character


def category(c):
    return unicodedata.category(c) if c is not None and len(c) == 1 else ''


def is_white(c):
    return c is not None and len(c) == 1 and ord(c) in WHITE


def is_small(c):
    return c == '_' or category(c) == 'Ll'


def is_large(c):
    return category(c) in ('Lu', 'Lt')


def is_symbol(c):
    if c is None or len(c) != 1:
        return False
    return c in ASCII_SYMBOLS if ord(c) < 128 else category(c)[0] in 'SP'


def is_control(c):
    return category(c) == 'Cc'


def is_in_name(c):
    return is_small(c) or is_large(c) or category(c) == 'Nd' or c == "'"


def is_graphic(c):
    return is_in_name(c) or is_symbol(c) or c in SPECIAL or c == '"'


class NoLexeme(Exception):
    """Nothing begins at a place, its line and column."""

    def __init__(self, at):
        super().__init__(at)
        self.at = at


class Token:
    """A lexeme, a pragma (its words with their places in `words`), or what layout put (`put`)."""

    def __init__(self, kind, text, at, put=None):
        self.kind, self.text, self.at, self.put, self.words = kind, text, at, put, []


def characters(source):
    found, i = [], 0
    while i < len(source):
        first = source[i]
        length = 1 if first < 0x80 else 2 if 0xC2 <= first <= 0xDF else 3 if 0xE0 <= first <= 0xEF else 4
        try:
            found.append(source[i:i + length].decode('utf-8'))
            i += length
        except UnicodeDecodeError:
            found.append(ILL_FORMED)
            i += 1
    return found


class Lexer:
    """The lexemes of a source one after another."""

    def __init__(self, source):
        self.chars = characters(source)
        self.i = 1 if self.chars[:1] == ['\ufeff'] else 0
        self.line, self.col = 1, 1
        self.front = True  # no lexeme but pragmas for LANGUAGE stands before
        self.behind_import = False

    def get(self, i):
        return self.chars[i] if i < len(self.chars) else None

    def text(self, start, end):
        return ''.join(self.chars[start:end])

    def run(self, i, test):
        while i < len(self.chars) and test(self.chars[i]):
            i += 1
        return i

    def go_to(self, end):
        while self.i < end:
            c = self.chars[self.i]
            if c == '\r' and self.get(self.i + 1) == '\n':
                pass
            elif c in ('\n', '\r', '\f'):
                self.line, self.col = self.line + 1, 1
            elif c == '\t':
                self.col = (self.col - 1) // 8 * 8 + 9
            else:
                self.col += 1
            self.i += 1

    def next(self):
        """The next lexeme or pragma that counts; None at the end."""
        while True:
            c = self.get(self.i)
            if c is None:
                return None
            if is_white(c):
                self.go_to(self.i + 1)
            elif c == '{' and self.get(self.i + 1) == '-':
                pragma = self.pragma()
                if pragma:
                    return pragma
                self.go_to(self.sure(self.nested_comment(self.i + 2)))
            elif self.operator(self.i)[1] == 'dashes':
                self.go_to(self.sure(self.line_comment(self.i)))
            else:
                end, kind = self.sure(self.lexeme(self.i))
                token = Token(kind, self.text(self.i, end), (self.line, self.col))
                self.go_to(end)
                self.front = False
                self.behind_import = kind == 'word' and token.text == 'import'
                return token

    def sure(self, found):
        if found is None:
            raise NoLexeme((self.line, self.col))
        return found

    def nested_comment(self, i):
        depth = 1
        while depth:
            c = self.get(i)
            if c is None or c == ILL_FORMED or (is_control(c) and not is_white(c)):
                return None
            two = (c, self.get(i + 1))
            depth += {('{', '-'): 1, ('-', '}'): -1}.get(two, 0)
            i += 2 if two in (('{', '-'), ('-', '}')) else 1
        return i

    def line_comment(self, i):
        end = self.run(i, lambda c: c not in ('\n', '\r', '\f'))
        for c in self.chars[i:end]:
            if c == ILL_FORMED or (is_control(c) and c != '\t'):
                return None
        return end

    def pragma(self):
        """The pragma at this place, where it counts."""
        if self.text(self.i, self.i + 3) != '{-#':
            return None
        start = self.run(self.i + 3, is_white)
        end = self.run(start, is_in_name)
        word = self.text(start, end)
        words = []
        if word.isascii() and word.upper() == 'LANGUAGE' and self.front:
            while True:
                at = self.run(end, is_white)
                if (not words and at == end) or not (is_small(self.get(at)) or is_large(self.get(at))):
                    return None
                end = self.run(at, is_in_name)
                words.append((at, self.text(at, end)))
                end = self.run(end, is_white)
                if self.get(end) != ',':
                    break
                end += 1
        elif word.isascii() and word.upper() == 'SOURCE' and self.behind_import:
            end = self.run(end, is_white)
        else:
            return None
        if self.text(end, end + 3) != '#-}':
            return None
        token = Token('language' if words else 'source', '', (self.line, self.col))
        for at, extension in words:
            self.go_to(at)
            token.words.append(((self.line, self.col), extension))
        self.go_to(end + 3)
        self.behind_import = False
        return token

    def operator(self, i):
        """The end and the kind of the run of symbols at a place."""
        end = self.run(i, is_symbol)
        text = self.text(i, end)
        if text in RESERVED_OPERATORS:
            return end, 'sign'
        if len(text) >= 2 and set(text) == {'-'}:
            return end, 'dashes'
        return end, 'consym' if text[:1] == ':' else 'varsym'

    def lexeme(self, i):
        """The end and the kind of the longest lexeme at a place, or None."""
        c = self.get(i)
        if c in SPECIAL:
            return i + 1, 'special'
        if is_small(c):
            end = self.run(i, is_in_name)
            return end, 'word' if self.text(i, end) in RESERVED_WORDS else 'varid'
        if is_large(c):
            return self.qualified(self.run(i, is_in_name))
        if is_symbol(c):
            return self.operator(i)
        if c in DIGITS:
            return self.number(i)
        if c == "'":
            end = self.character(i + 1)
            return (end + 1, 'char') if end is not None and self.get(end) == "'" else None
        if c == '"':
            return self.string(i + 1)
        return None

    def qualified(self, end):
        kind = 'conid'
        while self.get(end) == '.':
            c = self.get(end + 1)
            if is_large(c):
                end, kind = self.run(end + 1, is_in_name), 'qconid'
            elif is_small(c):
                last = self.run(end + 1, is_in_name)
                return (end, kind) if self.text(end + 1, last) in RESERVED_WORDS else (last, 'qvarid')
            elif is_symbol(c):
                last, sort = self.operator(end + 1)
                return (end, kind) if sort in ('sign', 'dashes') else (last, 'q' + sort)
            else:
                break
        return end, kind

    def number(self, i):
        for letters, digits in (('oO', OCTITS), ('xX', HEXITS)):
            if self.get(i) == '0' and self.get(i + 1) in set(letters):
                end = self.run(i + 2, lambda c: c in digits)
                if end > i + 2:
                    return end, 'integer'
        end, kind = self.run(i, lambda c: c in DIGITS), 'integer'
        if self.get(end) == '.' and self.get(end + 1) in DIGITS:
            end, kind = self.run(end + 1, lambda c: c in DIGITS), 'fraction'
        if self.get(end) in ('e', 'E'):
            first = end + 2 if self.get(end + 1) in ('+', '-') else end + 1
            last = self.run(first, lambda c: c in DIGITS)
            if last > first:
                end, kind = last, 'fraction'
        return end, kind

    def character(self, i):
        c = self.get(i)
        if c == '\\':
            return self.escape(i + 1, False)
        return i + 1 if c != "'" and (c == ' ' or is_graphic(c)) else None

    def string(self, i):
        while True:
            c = self.get(i)
            if c == '"':
                return i + 1, 'string'
            if c is None or c == ILL_FORMED or is_control(c):
                return None
            if c != '\\':
                i += 1
            elif is_white(self.get(i + 1)):
                end = self.run(i + 1, is_white)
                if self.get(end) != '\\':
                    return None
                i = end + 1
            else:
                i = self.escape(i + 1, True)
                if i is None:
                    return None

    def escape(self, i, in_string):
        """The end of an escape behind its backslash, or None."""
        c = self.get(i)
        if c is None or c == ILL_FORMED:
            return None
        if c in 'abfnrtv\\"\'' or (c == '&' and in_string):
            return i + 1
        if c == '^':
            d = self.get(i + 1)
            return i + 2 if d is not None and len(d) == 1 and (('A' <= d <= 'Z') or d in '@[\\]^_') else None
        for first, digits, base in ((i, DIGITS, 10), (i + 1, OCTITS, 8), (i + 1, HEXITS, 16)):
            if (base == 10 and c in DIGITS) or (base == 8 and c == 'o') or (base == 16 and c == 'x'):
                end = self.run(first, lambda d: d in digits)
                return end if end > first and int(self.text(first, end), base) <= 0x10FFFF else None
        names = [name for name in CONTROL_NAMES if self.text(i, i + len(name)) == name]
        return i + len(max(names, key=len)) if names else None
