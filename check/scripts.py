"""Random scripts: trees of sound modules, and trees whose sources are changed at random."""

MODULES = ['A', 'B', 'C', 'D', 'E', 'A.B', 'B.A', 'Main', 'Prelude', "C'", 'Ab']
NAMES = ['T', 'U', 'V', 'W', 'T2', 'C', 'K', 'L', 'Cc']
OTHER_PATHS = [b'x.hs', b'A/b.hs', b'A.hs.hs', b'README', b'A/.hs', b'Prim.hs', b"A'/B.hs", b'A.hs-boot', b'/A.hs',
               b'A//B.hs', b'1.hs', b'A.B.hs', b'B/Prim.hs']
ILL_FORMED = '\ue000'  # stands for the byte FF
PIECES = ["T'", 'T_', 'é', 'É', 'A.T', 'a', '(', ')', ',', ';', '{', '}', '[', ']', '`', '=', '|', '..', '.', '->', '::',
          ':', ':+', '+', '!', '-', '--', '--|', '"s"', "'c'", '0', '0x', '1.5', '\x01', ILL_FORMED, '"', "'", '{-', '-}',
          '{- c -}', '{-# SOURCE #-}', '{-# LANGUAGE NoImplicitPrelude #-}', '{-# INLINE x #-}', 'where', 'let', 'of',
          'do', 'in', 'module', 'import', 'data', 'qualified', 'as', 'hiding', 'case', 'if', 'then', 'else', 'type', '_',
          'x', "x'", 'あ', '½', '∀', 'ǅx', '\u00a0', '\t', '\f', '\v', 'A..b', 'A...', 'A.where', 'Prim', '\ufeff', '@',
          '~', '\\', '=>', '<-', 'deriving', 'T.U.V', 'X', '٣']
EXTENSIONS = ['NoImplicitPrelude', 'ImplicitPrelude', 'MonomorphismRestriction', 'NoMonomorphismRestriction',
              'Haskell2010']
UNKNOWN = ['Foo', 'GADTs', 'noImplicitPrelude', 'where', "x'", '_']


def path_of(module, boot=False):
    return (module.replace('.', '/') + ('.hs-boot' if boot else '.hs')).encode()


def bytes_of(text):
    return b''.join(b'\xff' if c == ILL_FORMED else c.encode() for c in text)


def put(path, content):
    return b'put %s %d\n%s\n' % (path, len(content), content)


class Writer:
    """Writes scripts out of one stream of random numbers."""

    def __init__(self, random):
        self.random, self.tree = random, []

    def chance(self, part):
        return self.random.random() < part

    def pick(self, choices):
        return self.random.choice(choices)

    def some(self, choices, least, most):
        return [self.pick(choices) for _ in range(self.random.randint(least, most))]

    def script(self):
        if self.chance(.0005):
            return self.many_modules()
        return self.sound_tree() if self.chance(.4) else self.any_tree()

    def many_modules(self):
        """A tree of about as many modules as a build takes."""
        numbers = list(range(4096 + self.random.randint(-2, 3)))
        script = b'flags NoImplicitPrelude\n'
        for number in self.random.sample(numbers, len(numbers)):
            other = self.pick(numbers)
            lines = [f'module M{number} where'] + ([f'import M{other}'] if self.chance(.3) and other < number else [])
            script += put(path_of(f'M{number}', self.chance(.001)), bytes_of('\n'.join(lines)))
        return script + b'build 1\nquit\n'

    # trees that are sound, or nearly

    def sound_tree(self):
        modules = sorted(self.random.sample(MODULES, self.random.randint(2, 7)))
        types, files = {}, []
        for place, module in enumerate(modules):
            imports = self.random.sample(modules[:place], min(place, self.pick([0, 1, 1, 2, 2, 3])))
            if imports and self.chance(.2):
                imports.append(self.pick(imports))
            own = self.random.sample(NAMES, self.pick([0, 1, 1, 2, 3]))
            seen = own + [name for other in imports for name in types[other]]
            constructors = self.random.sample(NAMES, len(own))
            if own and self.chance(.05):
                own.append(self.pick(own))
                constructors.append(self.pick(NAMES))
            if constructors and self.chance(.05):
                constructors[-1] = constructors[0]
            lines = [f'module {module} where'] + ['import ' + other for other in imports]
            for name, constructor in zip(own, constructors):
                fields = [self.pick(seen if seen and self.chance(.97) else NAMES)
                          for _ in range(self.pick([0, 0, 1, 1, 2]))]
                lines.append(f'data {name} = ' + ' '.join([constructor] + fields))
            types[module] = own
            braces = self.chance(.1)
            files.append((module, lines[0] + ' {' + ';'.join(lines[1:]) + '}' if braces else '\n'.join(lines) + '\n'))
        if self.chance(.5):
            self.random.shuffle(files)
        script = b'flags NoImplicitPrelude\n'
        for module, text in files:
            script += put(path_of(module), bytes_of(text))
            if self.chance(.05):
                script += put(path_of(module, True), bytes_of(text))
        script += b'build 1\n'
        if self.chance(.5):
            script += b'del ' + path_of(self.pick(modules)) + b'\nbuild 1\n'
        return script + b'quit\n'

    # trees of any sources

    def any_tree(self):
        flags = [b'', b'flags\n', b'flags NoImplicitPrelude Haskell2010\n', b'flags NoImplicitPrelude ImplicitPrelude\n']
        script = self.pick([b'flags NoImplicitPrelude\n'] * 6 + flags)
        self.tree = self.random.sample(MODULES, self.random.randint(1, 5))
        if self.chance(.4):
            self.tree = self.random.sample(['A', 'B', 'C'], self.random.randint(1, 3))
        changed = self.chance(.5)
        for _ in range(self.pick([1, 1, 2])):
            for module in self.tree:
                text = self.module(module)
                if changed and self.chance(.5):
                    text = self.change(text)
                script += put(path_of(module, self.chance(.04)), bytes_of(text))
                if self.chance(.03):
                    script += b'del ' + path_of(self.pick(MODULES)) + b'\n'
                if self.chance(.02):
                    script += put(self.pick(OTHER_PATHS), b'abc')
            script += b'build 1\n'
        if self.chance(.97):
            script += b'quit\n'
        if self.chance(.03):
            at = self.random.randint(0, len(script))
            script = script[:at] + self.pick([b'x', b'\n', b' ', b'build 1\n', b'put', b'\x00', b'\xff']) + script[at:]
        return script[:self.random.randrange(len(script) + 1)] if self.chance(.02) else script

    def module(self, module):
        pragmas = [self.pragma() for _ in range(self.pick([0, 0, 0, 1, 2]))]
        head = self.head(module) if self.chance(.97) else ''
        imports = [self.imported(module) for _ in range(self.pick([0, 0, 1, 1, 1, 2, 2, 3]))]
        if module == min(self.tree):
            imports = imports[:self.pick([0, 0, 0, 0, 0, 1])]
        datas = [self.data() for _ in range(self.pick([0, 1, 1, 2, 3, 4]))]
        if self.chance(.02):
            datas.insert(self.random.randint(0, len(datas)), self.imported(module))
        body = imports + datas
        line = self.pick(['\n'] * 6 + ['\r\n', '\r', '\f'])
        style = self.random.random()
        if style < .72 or not head:
            indent = self.pick(['', '', '', '  ', '\t', ' '])
            text = line.join(pragmas + [head] + [indent + item for item in body]) + self.pick(['', line])
            if self.chance(.05):
                text = text.replace(' = ', line + indent + self.pick(['', ' ', '  ']) + '= ', 1)
            if self.chance(.05):
                text = text.replace(line, line + ' ', 1)
        elif style < .86:
            parted = self.pick(['; ', ';', '\n;', ' ;\n ;']).join(body)
            end = self.pick(['}', ' }', '}\n', ';}', '', ' ', '} ', ' }}'])
            text = ' '.join(pragmas + [head]) + ' {' + self.pick([' ', '\n', '']) + parted + end
        else:
            text = ' '.join(pragmas + [head]) + ' ' + self.pick(['; ', ';', '\n ; ']).join(body) + self.pick(['', ';', '\n'])
        if self.chance(.06):
            text = '\ufeff' + text
        if self.chance(.15):
            at = self.random.randint(0, len(text))
            text = text[:at] + self.pick([' -- c\n', '{- c -}', '\t', '\n', ' -- \n', '\n\n', '--\n']) + text[at:]
        return text

    def pragma(self):
        words = self.some(EXTENSIONS, 1, 3)
        if self.chance(.12):
            words[-1] = self.pick(UNKNOWN)
        def space():
            return self.pick(['', ' ', '  ', '\n', '\t']) if self.chance(.4) else ''
        listed = ','.join(space() + word + space() for word in words)
        if self.chance(.06):
            listed = self.pick(['', listed + ',', listed.replace(',', ' '), '{- c -}' + listed, listed + ' x y'])
        keyword = self.pick(['LANGUAGE', 'LANGUAGE', 'language', 'LaNgUaGe'])
        return '{-#' + self.pick([' ', '', '\n']) + keyword + self.pick([' ', '  ', '\n']) + listed + self.pick([' ', '']) + '#-}'

    def head(self, module):
        name = module if self.chance(.97) else self.pick(MODULES + ['X'])
        return 'module ' + name + (' ' + self.names(True) if self.chance(.04) else '') + ' where'

    def imported(self, module):
        lower = [other for other in self.tree if other < module]
        other = self.pick(self.tree if self.chance(.9) else MODULES)
        if lower and self.chance(.8):
            other = self.pick(lower)
        other = 'Prim' if self.chance(.03) else module if self.chance(.01) else other
        text = 'import '
        if self.chance(.05):
            text += self.pick(['{-# SOURCE #-} ', '{-# source #-}', '{-#SOURCE#-} '])
        text += ('qualified ' if self.chance(.04) else '') + other
        text += ' as ' + self.pick(MODULES) if self.chance(.04) else ''
        return text + (self.pick([' ', ' hiding ']) + self.names(False) if self.chance(.04) else '')

    def names(self, exported):
        """A list of exports or of what is imported."""
        listed = []
        for _ in range(self.random.randint(0, 3)):
            qualifier = self.pick(['A.', 'B.C.']) if exported and self.chance(.2) else ''
            parts = self.pick(['(..)', '()', '( .. )', '(' + ', '.join(self.some(['x', 'C', '(:+)', '(+)', 'as'], 0, 3)) + ')'])
            forms = [qualifier + self.pick(['x', 'f', "g'", 'as', 'hiding', 'qualified']),
                     '(' + self.pick(['', ' ']) + qualifier + self.pick(['+', '-', '!', '.', '<>', '*']) + ')',
                     qualifier + self.pick(NAMES), qualifier + self.pick(NAMES) + parts]
            listed.append('module ' + self.pick(MODULES) if exported and self.chance(.1) else self.pick(forms))
        return '(' + self.pick([', ', ',', ' ,\n   ']).join(listed) + (',' if self.chance(.15) else '') + ')'

    def data(self):
        return 'data ' + self.pick(NAMES) + ' = ' + ' '.join([self.pick(NAMES)] + self.some(NAMES, 0, self.pick([0, 0, 1, 3])))

    def change(self, text):
        """A text with a piece put in, taken away or exchanged."""
        for _ in range(self.pick([1, 1, 1, 2])):
            at, way = self.random.randint(0, len(text)), self.random.random()
            words, lines = text.split(' '), text.split('\n')
            word, line = self.random.randrange(len(words)), self.random.randrange(len(lines))
            if way < .45:
                text = text[:at] + self.pick(['', ' ']) + self.pick(PIECES) + self.pick(['', ' ']) + text[at:]
            elif way < .6:
                text = text[:at] + text[at + self.random.randint(1, 6):]
            elif way < .7:
                text = text[:at]
            elif way < .8:
                text = ' '.join(words[:word] + [self.pick(PIECES)] + words[word + 1:])
            elif way < .9:
                text = ' '.join(words[:word] + words[word + 1:])
            else:
                lines[line] = self.pick([' ', '  ', '\t', '']) + lines[line].lstrip()
                text = '\n'.join(lines)
        return text
