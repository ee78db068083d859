"""Headers, the form of a module that is built, and its scope, written apart from the proved definitions."""

from lexemes import Lexer, NoLexeme, Token

EXTENSIONS = ['ImplicitPrelude', 'NoImplicitPrelude', 'MonomorphismRestriction', 'NoMonomorphismRestriction',
              'Haskell2010']


class Leaves(Exception):
    """A diagnostic: its number, place and text."""

    def __init__(self, code, at, text):
        super().__init__(code)
        self.diagnostic = (at, code, text)


class Braced:
    """Tokens with the signs that layout puts, where no block but the module's is open (Report, section 10.3)."""

    def __init__(self, source):
        self.lexer = Lexer(source)
        self.queue = []
        self.block = None  # the indentation of the open block; 0 where its brace is written
        self.opens = 'start'
        self.line = 0  # of the last lexeme
        self.last = None  # the place of the last lexeme or pragma
        self.lexeme = (1, 1)  # the place of the last lexeme
        self.over = False

    def put(self, sign, at):
        self.queue.append(Token('put', '', at, sign))

    def fill(self):
        token = self.lexer.next()
        if token is None:
            self.over = True
            if self.opens:
                self.put('{', self.lexeme)
                self.put('}', self.lexeme)
            elif self.block:
                self.put('}', self.lexeme)
            return
        self.last = token.at
        if token.kind in ('language', 'source'):
            self.queue.append(token)
            return
        line, col = token.at
        brace = (token.kind, token.text) == ('special', '{')
        opens = self.opens and not brace and not (
            self.opens == 'start' and (token.kind, token.text) == ('word', 'module'))
        if opens:
            self.put('{', token.at)
            if col > (self.block or 0):
                self.block = col
            else:
                self.put('}', token.at)
        if self.block and line != self.line and not (opens and self.block == col):
            if col < self.block:
                self.put('}', token.at)
                self.block = None
            elif col == self.block:
                self.put(';', token.at)
        if brace and self.block is None:
            self.block = 0
        self.opens = token.text if token.kind == 'word' and token.text in ('where', 'let', 'do', 'of') else None
        self.line, self.lexeme = line, token.at
        self.queue.append(token)

    def peek(self):
        while not self.queue and not self.over:
            self.fill()
        return self.queue[0] if self.queue else None

    def take(self):
        token = self.peek()
        self.queue.pop(0)
        return token

    def at(self, kind, text=None):
        token = self.peek()
        return token is not None and token.kind == kind and text in (None, token.text)

    def puts(self, sign):
        token = self.peek()
        return token is not None and token.put == sign

    def part(self):
        """Whether a semicolon is next."""
        return self.puts(';') or self.at('special', ';')

    def opened(self):
        """The opening brace, and whether layout put it; None where there is none."""
        if self.puts('{') or self.at('special', '{'):
            return self.take().put == '{'
        return None

    def closes(self, put):
        return self.puts('}') if put else self.at('special', '}')

    def place(self):
        """Where the next token is told: of what the end puts, at the last lexeme."""
        token = self.peek()
        return (self.last or (1, 1)) if token is None or (token.put and self.over) else token.at


class Import:
    def __init__(self, at):
        self.at, self.module, self.place, self.source, self.plain = at, None, None, False, True


class Header:
    """A module's header; without a `module` line it is named Main, at 1:1."""

    def __init__(self):
        self.name, self.at, self.begun, self.extensions, self.imports = 'Main', (1, 1), False, [], []


class HeaderReader:
    def __init__(self, source):
        self.tokens = Braced(source)
        self.header = Header()

    def leave(self):
        raise Leaves('E03', self.tokens.place(), 'this is no module header')

    def need(self, kind, text=None):
        if not self.tokens.at(kind, text):
            self.leave()
        return self.tokens.take()

    def module_name(self):
        return self.need('qconid' if self.tokens.at('qconid') else 'conid')

    def one_of(self, *kinds):
        for kind in kinds:
            if self.tokens.at(kind):
                return self.tokens.take()
        return self.leave()

    def in_parentheses(self, *kinds):
        self.need('special', '(')
        self.one_of(*kinds)
        self.need('special', ')')

    def parts(self):
        """What is told in parentheses behind a type or class, from its parenthesis on."""
        self.need('special', '(')
        if self.tokens.at('sign', '..'):
            self.tokens.take()
        elif not self.tokens.at('special', ')'):
            while True:
                if self.tokens.at('special', '('):
                    self.in_parentheses('varsym', 'consym')
                else:
                    self.one_of('varid', 'conid')
                if not self.tokens.at('special', ','):
                    break
                self.tokens.take()
        self.need('special', ')')

    def names(self, exported):
        """A list of exports or of what is imported."""
        self.need('special', '(')
        if self.tokens.at('special', ','):
            self.tokens.take()
        else:
            while not self.tokens.at('special', ')'):
                self.name(exported)
                if not self.tokens.at('special', ','):
                    break
                self.tokens.take()
        self.need('special', ')')

    def name(self, exported):
        qualified = ('qvarsym',) if exported else ()
        if exported and self.tokens.at('word', 'module'):
            self.tokens.take()
            self.module_name()
        elif self.tokens.at('special', '('):
            self.in_parentheses('varsym', *qualified)
        elif self.tokens.at('varid') or (exported and self.tokens.at('qvarid')):
            self.tokens.take()
        else:
            self.one_of(*(('conid', 'qconid') if exported else ('conid',)))
            if self.tokens.at('special', '('):
                self.parts()

    def imported(self):
        found = Import(self.need('word', 'import').at)
        if self.tokens.at('source'):
            self.tokens.take()
            found.source = True
        if self.tokens.at('varid', 'qualified'):
            self.tokens.take()
            found.plain = False
        name = self.module_name()
        found.module, found.place = name.text, name.at
        if self.tokens.at('varid', 'as'):
            self.tokens.take()
            self.module_name()
            found.plain = False
        if self.tokens.at('varid', 'hiding'):
            self.tokens.take()
            self.names(False)
            found.plain = False
        elif self.tokens.at('special', '('):
            self.names(False)
            found.plain = False
        self.header.imports.append(found)

    def read(self):
        tokens, header = self.tokens, self.header
        while tokens.at('language'):
            for at, extension in tokens.take().words:
                if extension not in EXTENSIONS:
                    raise Leaves('E05', at, 'unknown extension ' + extension)
                header.extensions.append(extension)
        if tokens.at('word', 'module'):
            tokens.take()
            name = self.module_name()
            header.name, header.at, header.begun = name.text, name.at, True
            if tokens.at('special', '('):
                self.names(True)
            self.need('word', 'where')
        put = tokens.opened()
        if put is None:
            self.leave()
        while True:
            while tokens.part():
                tokens.take()
            if not tokens.at('word', 'import'):
                return header
            self.imported()
            if tokens.peek() is None or tokens.closes(put):
                return header
            if not tokens.part():
                self.leave()


def header_of(source):
    """The header of a source, or the diagnostic that it has."""
    try:
        return HeaderReader(source).read()
    except NoLexeme as fault:
        raise Leaves('E01', fault.at, 'no lexeme begins here') from None


class FormReader:
    """The data types of a module of the form that is built, or the place at which it leaves that form."""

    def __init__(self, source, header):
        self.tokens, self.header = Braced(source), header

    def leave(self, at=None):
        raise Leaves('E00', at or self.tokens.place(), 'this form is not built yet')

    def word(self):
        token = self.tokens.peek()
        if not (self.tokens.at('conid') and token.text.isascii() and token.text.isalnum()):
            self.leave()
        return self.tokens.take()

    def data(self):
        self.tokens.take()
        name = self.word()
        if not self.tokens.at('sign', '='):
            self.leave()
        self.tokens.take()
        constructor, fields = self.word(), []
        while self.tokens.at('conid'):
            fields.append(self.word())
        return name, constructor, fields

    def read(self):
        tokens, header, found = self.tokens, self.header, []
        while tokens.at('language'):
            tokens.take()
        if not header.begun:
            self.leave((1, 1))
        tokens.take(), tokens.take()
        if not tokens.at('word', 'where'):
            self.leave()
        tokens.take()
        put = tokens.opened()
        imports = iter(header.imports)
        while not tokens.closes(put):
            if tokens.part():
                tokens.take()
                continue
            if tokens.at('word', 'import') and not found:
                named = next(imports)
                if not named.plain or named.module == 'Prim':
                    self.leave(named.at)
                tokens.take()
                if tokens.at('source'):
                    tokens.take()
                tokens.take()
            elif tokens.at('word', 'data'):
                found.append(self.data())
            else:
                self.leave()
            if not tokens.part() and not tokens.closes(put):
                self.leave()
        tokens.take()
        if tokens.peek() is not None:
            self.leave()
        return found


def scope_of(module, datas, imported):
    """The diagnostics of scope of a module's data types; `imported` has the types of each module that is imported."""
    found, meant = set(), {}
    for other, names in [(module, [name.text for name, _, _ in datas])] + imported:
        for name in names:
            meant.setdefault(name, set()).add(other)
    types, constructors = set(), set()
    for name, constructor, fields in datas:
        for token, before in ((name, types), (constructor, constructors)):
            if token.text in before:
                found.add((token.at, 'E23', token.text + ' is defined twice'))
            before.add(token.text)
        for field in fields:
            entities = meant.get(field.text, ())
            if not entities:
                found.add((field.at, 'E21', field.text + ' is not in scope'))
            elif len(entities) > 1:
                found.add((field.at, 'E22', field.text + ' is ambiguous'))
    return found


def first_fault(source):
    """The first place of a source at which no lexeme begins, or None."""
    lexer = Lexer(source)
    try:
        while lexer.next() is not None:
            pass
    except NoLexeme as fault:
        return fault.at
    return None
