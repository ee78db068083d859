"""Graphs, builds, reports and sessions, written apart from the proved definitions. Boot files are not built yet."""

import re

from modules import EXTENSIONS, FormReader, Leaves, first_fault, header_of, scope_of

BOOT, REAL = 0, 1
MOST_NODES = 4096
SEGMENT = re.compile(rb"[A-Z][A-Za-z0-9_']*\Z")
PATH = rb'([\x21-\x7e]{1,255})'


def node_of(path):
    """The node (module, BOOT or REAL) whose file a path is, or None."""
    for ending, sort in ((b'.hs-boot', BOOT), (b'.hs', REAL)):
        if path.endswith(ending):
            segments = path[:-len(ending)].split(b'/')
            name = b'.'.join(segments).decode()
            return (name, sort) if all(map(SEGMENT.match, segments)) and name != 'Prim' else None
    return None


def path_of(node):
    return node[0].replace('.', '/') + ('.hs' if node[1] == REAL else '.hs-boot')


def name_of(node):
    return node[0] + ('' if node[1] == REAL else '[boot]')


def closure(starts, edges):
    found, left = set(), list(starts)
    while left:
        one = left.pop()
        if one not in found:
            found.add(one)
            left.extend(edges[one])
    return found


class Tree:
    """The nodes of some files, their imports as (module, place, SOURCE), and the diagnostics of the graph."""

    def __init__(self, files, prelude):
        self.sources = {node_of(path): content for path, content in files.items() if node_of(path)}
        self.nodes = sorted(self.sources)
        self.modules = {module for module, _ in self.nodes}
        self.headers, self.told = {}, {node: set() for node in self.nodes}
        self.imports = {node: [] for node in self.nodes}
        for node in self.nodes:
            if node[1] == REAL:
                self.read_header(node, prelude)
        self.edges = {node: set(self.leads(node)) for node in self.nodes}
        self.reach = {node: closure(self.edges[node], self.edges) for node in self.nodes}
        for node in self.nodes:
            self.tell_imports(node)
            self.tell_cycle(node)
        for node in self.nodes[MOST_NODES:]:
            self.told[node].add(((1, 1), 'E07', 'too many modules'))
        self.loops = self.loops_of_modules()
        self.needs = {node: self.needs_of(node) for node in self.nodes}

    def read_header(self, node, prelude):
        try:
            header = header_of(self.sources[node])
        except Leaves as fault:
            self.told[node].add(fault.diagnostic)
            return
        self.headers[node] = header
        if header.name != node[0]:
            self.told[node].add((header.at, 'E13', 'header names ' + header.name))
        for extension in header.extensions:
            if extension.endswith('ImplicitPrelude'):
                prelude = extension == 'ImplicitPrelude'
        imports = [(found.module, found.place, found.source) for found in header.imports]
        if prelude and all(module != 'Prelude' for module, _, _ in imports):
            imports.insert(0, ('Prelude', (1, 1), False))
        self.imports[node] = imports

    def lead(self, module, source):
        node = (module, BOOT if source else REAL)
        return node if node in self.sources else None

    def leads(self, node):
        own = [(node[0], BOOT)] if node[1] == REAL else []
        led = [self.lead(module, source) for module, _, source in self.imports[node]]
        return [one for one in own + led if one in self.sources]

    def tell_imports(self, node):
        for module, place, source in self.imports[node]:
            real, boot = (module, REAL) in self.sources, (module, BOOT) in self.sources
            if module == 'Prim':
                real, boot = True, False
            if not (real or (boot and source)):
                self.told[node].add((place, 'E10', f'module {module} not found'))
            elif source and not boot:
                self.told[node].add((place, 'E12', f'module {module} has no boot file'))

    def tell_cycle(self, node):
        if node in self.reach[node]:
            cycle = {other for other in self.reach[node] if node in self.reach[other]}
            into = [one for one in self.imports[node] if self.lead(one[0], one[2]) in cycle]
            module, place, _ = into[0] if into else (node[0], (1, 1), False)
        else:
            into = [one for one in self.imports[node] if one[2] and one[0] == node[0]]
            if not into or (node[0], BOOT) not in self.sources:
                return
            module, place, _ = into[0]
        self.told[node].add((place, 'E11', 'import cycle through ' + module))

    def loops_of_modules(self):
        edges = {module: set() for module in self.modules}
        for node in self.nodes:
            edges[node[0]].update(module for module, _, _ in self.imports[node] if module in self.modules)
        reach = {module: closure([module], edges) for module in self.modules}
        return {module: frozenset(other for other in reach[module] if module in reach[other])
                for module in self.modules}

    def needs_of(self, node):
        needed = set(self.reach[node])
        while True:
            more = set(needed)
            for other in needed:
                if self.loops[other[0]] != self.loops[node[0]]:
                    for mate in self.nodes:
                        if mate[0] in self.loops[other[0]]:
                            more |= {mate} | self.reach[mate]
            if more == needed:
                return needed - {node}
            needed = more

    def order(self):
        listed, left = {}, list(self.nodes)
        while left:
            node = next((one for one in left if self.needs[one] <= listed.keys()), left[0])
            listed[node] = True
            left.remove(node)
        return list(listed)


def checked(tree, node, exports):
    """The diagnostics of a node whose needs are sound; `exports` takes the types of a sound one."""
    fault = first_fault(tree.sources[node])
    if fault:
        return {(fault, 'E01', 'no lexeme begins here')}
    if node[1] == BOOT:
        return {((1, 1), 'E00', 'this form is not built yet')}
    try:
        datas = FormReader(tree.sources[node], tree.headers[node]).read()
    except Leaves as fault:
        return {fault.diagnostic}
    exports[node[0]] = [name.text for name, _, _ in datas]
    return scope_of(node[0], datas, [(module, exports[module]) for module, _, _ in tree.imports[node]])


def report_of(files, prelude):
    """The lines of a build's report, and whether a node isn't sound."""
    tree, sound, exports, lines = Tree(files, prelude), set(), {}, []
    order = tree.order()
    checks = failed = blocked = 0
    for node in order:
        told = tree.told[node]
        before = [need for need in order if need in tree.needs[node] and need not in sound]
        if told:
            lines.append(name_of(node) + ': failed')
        elif before:
            lines.append(f'{name_of(node)}: blocked by {name_of(before[0])}')
            blocked += 1
            continue
        else:
            lines.append(name_of(node) + ': checked: no interface')
            checks += 1
            told = checked(tree, node, exports)
        if told:
            failed += 1
        else:
            sound.add(node)
        for (line, col), code, text in sorted(told):
            lines.append(f'{path_of(node)}:{line}:{col}: error {code}: {text}')
    lines.append(f'build: {len(sound)} ok, {checks} checked, {failed} failed, {blocked} blocked')
    return lines, failed + blocked > 0


def session(script):
    """What a session writes for a script, and its exit status."""
    files, prelude, lines, failed, at = {}, True, [], False, 0
    while True:
        end = script.find(b'\n', at)
        line = script[at:end] if end >= 0 else None
        put = line and re.match(rb'put ' + PATH + rb' (0|[1-9][0-9]*)\Z', line)
        delete = line and re.match(rb'del ' + PATH + rb'\Z', line)
        words = (line or b'').decode('latin-1').split(' ')
        after = end + 1
        if line == b'quit':
            return text_of(lines), 1 if failed else 0
        if line == b'build 1':
            report, unsound = report_of(files, prelude)
            lines.extend(report)
            failed = failed or unsound
        elif delete:
            if files.pop(delete.group(1), None) is None:
                lines.append('del: no file ' + delete.group(1).decode())
        elif words[0] == 'flags' and all(word in EXTENSIONS for word in words[1:]):
            said = [word for word in words if word.endswith('ImplicitPrelude')]
            prelude = not said or said[-1] == 'ImplicitPrelude'
        elif put and int(put.group(2)) <= 1048576 and script[after + int(put.group(2)):][:1] == b'\n':
            files[put.group(1)] = script[after:after + int(put.group(2))]
            after += int(put.group(2)) + 1
        else:
            return text_of(lines + [f'bad script at byte {at}']), 7
        at = after


def text_of(lines):
    return ''.join(line + '\n' for line in lines).encode()
