"""Makes of a program what checking it would give: its functions, objects, labels, levels and calls across levels.

It stands in for the checker in runs of the definitions: of the rules it looks only at those without which no meaning is
(two levels in a group, a call that crosses without a bidirectional entry).
"""
import json
import re

from c_source import BadSource, items_of, text_of_word
from values import Con, NIL, NONE, Rec, elements, option, sequence

WIDTHS = {'I8': 1, 'U8': 1, 'I16': 2, 'U16': 2, 'I32': 4, 'U32': 4, 'Long': 8, 'ULong': 8, 'LLong': 8, 'ULLong': 8}


class Definition:
    """A function's definition: its place among the items, its parts, the static locals and the names that it uses."""

    def __init__(self, index, item):
        _, self.result, name, _, params, body, _, self.line = item.args
        self.index = index
        self.name = text_of_word(name)
        self.params = elements(params)
        self.body = elements(body.args[0])
        self.statics = []       # (declarator, label)
        self.variables = set()  # at file scope
        self.calls = []
        Uses(self).block(self.body, frozenset(text_of_word(p.fields['name']) for p in self.params))


class Uses:
    """Walks a function's body with the names that are hidden there, and notes what it declares static, names and calls."""

    def __init__(self, function):
        self.function = function
        self.label = None       # of the next static declaration

    def block(self, statements, hidden):
        for s in statements:
            hidden = self.statement(s, hidden)

    def statement(self, s, hidden):
        """The names that are hidden behind the statement."""
        name, args = s.fields['node'].name, s.fields['node'].args
        if name == 'Act.Declare':
            return self.declaration(args[0], hidden)
        if name == 'Act.Cle':
            self.label = text_of_word(args[0].args[0])
        elif name == 'Act.Block':
            self.block(elements(args[0]), hidden)
        else:
            inner = hidden
            for part in args:
                inner = self.part(part, inner)
        return hidden

    def part(self, part, hidden):
        if part.__class__ is Con and part.name == 'Some':
            part = part.args[0]
        if part.__class__ is not Rec:
            return hidden
        if part.fields['node'].name.startswith('Act.'):
            return self.statement(part, hidden)
        self.expression(part, hidden)
        return hidden

    def declaration(self, d, hidden):
        for declarator in elements(d.fields['names']):
            hidden = hidden | {text_of_word(declarator.fields['name'])}
            if d.fields['is_static']:
                self.function.statics.append((declarator, self.label))
            self.initialiser(declarator.fields['init'], hidden)
        self.label = None
        return hidden

    def initialiser(self, init, hidden):
        if init.name == 'Init.One':
            self.expression(init.args[0], hidden)
        elif init.name == 'Some':
            self.initialiser(init.args[0], hidden)
        elif init.name == 'Init.Many':
            for part in elements(init.args[0]):
                self.initialiser(part, hidden)

    def expression(self, e, hidden):
        node = e.fields['node']
        if node.name == 'Node.Variable' and text_of_word(node.args[0]) not in hidden:
            self.function.variables.add(text_of_word(node.args[0]))
        if node.name == 'Node.Call':
            self.function.calls.append((text_of_word(node.args[0]), e.fields['line']))
        for part in node.args:
            for inner in elements(part) if node.name == 'Node.Call' and part is node.args[1] else [part]:
                if inner.__class__ is Rec:
                    self.expression(inner, hidden)


class Object:
    """An object of static duration. A static local has the index of its function as its owner."""

    def __init__(self, declarator, owner, item, label):
        self.declarator = declarator
        self.name = text_of_word(declarator.fields['name'])
        self.owner = owner
        self.item = item
        self.label = label


class Program:
    """What the items of a program say. `checked()` is the record that the definitions take."""

    def __init__(self, source):
        self.items = items_of(source)
        self.functions, self.objects, self.structs = [], [], {}
        self.defs, self.levels, self.function_labels = [], [], {}
        self.pending, self.regions = None, []
        for index, item in enumerate(self.items):
            getattr(self, 'read_' + item.name.split('.')[1].lower())(index, item)
        self.numbers = {f.name: k for k, f in enumerate(self.functions)}
        if 'main' not in self.numbers or not self.defs:
            raise BadSource('no main or no level')
        self.assign_levels()
        self.find_rows()

    # ---- items

    def label(self):
        """The label of the next item."""
        label = self.pending or (self.regions[-1] if self.regions else None)
        self.pending = None
        return label

    def read_cle(self, index, item):
        pragma = item.args[0]
        name = text_of_word(pragma.args[0])
        if pragma.name == 'Pragma.Def':
            described = json.loads(text_of_word(pragma.args[1]))
            self.defs.append((name, described, item.args[1]))
            if described['level'] not in self.levels:
                self.levels.append(described['level'])
        elif pragma.name == 'Pragma.Begin':
            self.regions.append(name)
        elif pragma.name == 'Pragma.End':
            self.regions.remove(name)
        else:
            self.pending = name

    def read_struct(self, index, item):
        self.structs[text_of_word(item.args[0])] = [m for d in elements(item.args[1]) for m in elements(d.fields['names'])]

    def read_variables(self, index, item):
        label = self.label()
        for declarator in elements(item.args[0].fields['names']):
            self.objects.append(Object(declarator, None, index, label))

    def read_function(self, index, item):
        label = self.label()
        if label:
            self.function_labels[text_of_word(item.args[2])] = label
        if item.args[5] is not NONE:
            function = Definition(index, item)
            for declarator, own in function.statics:
                self.objects.append(Object(declarator, len(self.functions), index, own))
            self.functions.append(function)

    # ---- levels

    def level_of_label(self, label):
        return next(self.levels.index(d['level']) for name, d, _ in self.defs if name == label)

    def assign_levels(self):
        """Unannotated items that are tied together take the level of the annotated items that they are tied to."""
        functions = [('function', k) for k in range(len(self.functions))]
        objects = [('object', k) for k in range(len(self.objects))]
        fixed = {('function', self.numbers[f]): self.level_of_label(l) for f, l in self.function_labels.items() if f in self.numbers}
        fixed.update({('object', k): self.level_of_label(o.label) for k, o in enumerate(self.objects) if o.label})
        groups = self.groups([x for x in functions + objects if x not in fixed], fixed)
        of_main = next((levels for members, levels in groups if ('function', self.numbers['main']) in members), None)
        main = fixed.get(('function', self.numbers['main']), 0) if of_main is None else one_level(of_main, 0)
        level = dict(fixed)
        for members, levels in groups:
            level.update({member: one_level(levels, main) for member in members})
        self.main = main
        self.of_functions = [level[f] for f in functions]
        self.of_objects = [level[o] for o in objects]

    def ties(self):
        for k, f in enumerate(self.functions):
            for n, o in enumerate(self.objects):
                if o.owner == k or o.owner is None and o.name in f.variables:
                    yield ('function', k), ('object', n)
            for name, _ in f.calls:
                if name in self.numbers and name not in self.function_labels:
                    yield ('function', k), ('function', self.numbers[name])

    def groups(self, free, fixed):
        """The groups of unannotated items, each with the levels that it is tied to."""
        group = {x: {x} for x in free}
        levels = {x: set() for x in free}
        for a, b in self.ties():
            if a in group and b in group and group[a] is not group[b]:
                whole = group[a] | group[b]
                group.update({member: whole for member in whole})
            for one, other in ((a, b), (b, a)):
                if one in group and other in fixed:
                    levels[one].add(fixed[other])
        return [(members, set().union(*(levels[m] for m in members))) for members in {id(g): g for g in group.values()}.values()]

    # ---- calls across levels

    def find_rows(self):
        triples = set()
        for k, f in enumerate(self.functions):
            for name, line in f.calls:
                callee = self.numbers.get(name)
                if callee is not None and self.of_functions[callee] != self.of_functions[k]:
                    self.want_entry(name, self.of_functions[k], line)
                    triples.add((self.of_functions[k], self.of_functions[callee], callee))
        self.rows = sorted(triples)

    def want_entry(self, name, caller, line):
        label = self.function_labels[name]
        described = next(d for n, d, _ in self.defs if n == label)
        if not any(e['remotelevel'] == self.levels[caller] and e['direction'] == 'bidirectional' for e in described.get('cdf', [])):
            raise BadSource(f'line {line}: no bidirectional entry for {name}')

    def width(self, ctype):
        """How many bytes a value takes in a payload."""
        if ctype.name == 'CType.Void':
            return 0
        if ctype.name == 'CType.Integer':
            return WIDTHS[ctype.args[0].name.split('.')[1]]
        if ctype.name == 'CType.Array':
            return self.width(ctype.args[0]) * ctype.args[1]
        return sum(self.width(m.fields['ctype']) for m in self.structs[text_of_word(ctype.args[0])])

    # ---- the record

    def row_record(self, row):
        f = self.functions[row[2]]
        types = [p.fields['ctype'] for p in f.params]
        arrays = [t for t in types if t.name == 'CType.Array']
        return Rec({'from': row[0], 'to': row[1], 'function': row[2], 'name': encoded(f.name),
                    'label': encoded(self.function_labels[f.name]), 'operation': NONE, 'args': NIL, 'result': f.result,
                    'request': sum(map(self.width, types)), 'reply': self.width(f.result) + sum(map(self.width, arrays)),
                    'oneway': False})

    def mention(self, name):
        if name[0] == '@':
            return Con('Mention.Level', (self.levels.index(name[1:]),))
        return Con('Mention.Label', ([d[0] for d in self.defs].index(name),))

    def mentions(self, names):
        return sequence(map(self.mention, names))

    def taints(self, described):
        entry = next(iter(described.get('cdf', [])), {})
        if 'argtaints' not in entry:
            return None
        args = [Rec({'all': self.mentions(names)}) for names in entry['argtaints']]
        return Rec({'args': sequence(args), 'code': self.mentions(entry['codtaints']), 'result': self.mentions(entry['rettaints'])})

    def entry(self, entry):
        directive = entry['guarddirective']
        fields = [Rec({'reply': r['on'] == 'reply', 'path': sequence(map(encoded, r['field'].split('.'))), 'with': r['with']})
                  for r in directive.get('redact', [])]
        return Rec({'remote': self.levels.index(entry['remotelevel']), 'direction': Con('Direction.' + entry['direction'].capitalize()),
                    'operation': Con('Operation.' + directive['operation'].capitalize()), 'redact': sequence(fields), 'oneway': False})

    def label_fact(self, definition):
        name, described, line = definition
        return Rec({'name': encoded(name), 'level': self.levels.index(described['level']), 'line': line,
                    'entries': sequence(map(self.entry, described.get('cdf', []))), 'taints': option(self.taints(described))})

    def label_number(self, label):
        return option([d[0] for d in self.defs].index(label) if label else None)

    def object_fact(self, o):
        fields = o.declarator.fields
        return Rec({'name': fields['name'], 'ctype': fields['ctype'], 'owner': option(o.owner), 'item': o.item, 'line': fields['line']})

    def checked(self):
        functions = [Rec({'name': encoded(f.name), 'item': f.index, 'line': f.line}) for f in self.functions]
        levels = sequence(map(encoded, self.levels))
        return Rec({
            'typed': Rec({'program': Rec({'items': sequence(self.items)}), 'functions': sequence(functions),
                          'objects': sequence(map(self.object_fact, self.objects))}),
            'labels': Rec({'levels': levels, 'labels': sequence(map(self.label_fact, self.defs)),
                           'on_functions': sequence(self.label_number(self.function_labels.get(f.name)) for f in self.functions),
                           'on_objects': sequence(self.label_number(o.label) for o in self.objects)}),
            'levels': Rec({'of_functions': sequence(self.of_functions), 'of_objects': sequence(self.of_objects), 'main': self.main}),
            'gedl': Rec({'levels': levels, 'main': self.main, 'rows': sequence(map(self.row_record, self.rows))}),
        })


def one_level(levels, other):
    if len(levels) > 1:
        raise BadSource('a group has two levels')
    return next(iter(levels), other)


def encoded(text):
    return sequence(text.encode())
