"""Reads the text of definitions (`CRATE/specs/*.antt`) and makes Python functions of it, clause by clause.

It proves nothing and checks no types: what it computes is what the clauses say, read literally. It reads the part of the language
that the meaning is written in: functions by clauses with `where`, `let`, `if`, lambdas, records, tuples, infix operators, data
types. Types, signatures and implicit arguments are passed over.
"""
import os
import re

import library
from values import Con, Fun, Rec, Thunk, apply, cell, joined, whnf, with_last

TOKEN = re.compile(r'\s+|--[^\n]*|"[^"]*"|[(){};,]|[^\s(){};,."]+(?:\.(?=[^\s(){};,.])[^\s(){};,."]+)*|\.[^\s(){};,."]+|\.')
# how tightly an infix operator binds, and to which side; a file's own operators are added when it is read
OPERATORS = {'→': (1, 'r'), '×': (2, 'r'), '≡': (20, 'n'), '==': (50, 'n'), '&&': (40, 'r'), '||': (38, 'r'), '++': (65, 'r'),
             '∷': (65, 'r'), '+': (70, 'l'), '-': (70, 'l'), '*': (75, 'l'), '/': (75, 'l'), '%': (75, 'l'), '^': (80, 'r'),
             '+ℤ': (70, 'l'), '-ℤ': (70, 'l'), '*ℤ': (75, 'l')}
ENDS = (')', '}', ';', ',', 'else', 'in', '=', 'where')


class Unreadable(Exception):
    """The text isn't of the part of the language that is read here."""


def tokens_of(text):
    found = []
    at = 0
    while at < len(text):
        match = TOKEN.match(text, at)
        token = match.group(0)
        if not token.isspace() and not token.startswith('--'):
            found.append(token)
        at = match.end()
    return found


class Parser:
    """Expressions and patterns as tuples whose first part says what they are."""

    def __init__(self, text):
        self.tokens = tokens_of(text)
        self.at = 0
        self.in_test = False    # between `if` and `then`, where `then` is no operator

    def peek(self):
        return self.tokens[self.at] if self.at < len(self.tokens) else None

    def next(self):
        self.at += 1
        return self.tokens[self.at - 1]

    def want(self, token):
        found = self.next()
        if found != token:
            raise Unreadable(f'{token} wanted, {found} found behind {" ".join(self.tokens[max(0, self.at - 9):self.at - 1])}')

    def is_operator(self, token):
        return token in OPERATORS and not (token == 'then' and self.in_test)

    def expression(self, least=0):
        left = self.application()
        while self.peek() is not None and self.is_operator(self.peek()):
            tightness, side = OPERATORS[self.peek()]
            if tightness < least:
                break
            operator = self.next()
            left = ('operator', operator, left, self.expression(tightness if side == 'r' else tightness + 1))
        return left

    def application(self):
        if self.peek() == 'λ':
            return self.function()
        if self.peek() == 'let':
            return self.definition()
        if self.peek() == 'if':
            return self.decision()
        head, args = self.atom(), []
        while True:
            token = self.peek()
            if token is None or token in ENDS or self.is_operator(token) or token == 'then' and self.in_test:
                return ('apply', head, args) if args else head
            if token == '{':
                self.skip_braces()
            elif token == 'λ':
                return ('apply', head, args + [self.function()])
            else:
                args.append(self.atom())

    def definition(self):
        self.want('let')
        name = self.next()
        while self.peek() != '=':
            self.next()
        self.want('=')
        value = self.expression()
        self.want('in')
        return ('let', name, value, self.expression())

    def decision(self):
        self.want('if')
        outside, self.in_test = self.in_test, True
        test = self.expression()
        self.in_test = outside
        self.want('then')
        yes = self.expression()
        self.want('else')
        return ('if', test, yes, self.expression())

    def function(self):
        self.want('λ')
        names = []
        while self.peek() != '.':
            token = self.next()
            if token == '(':
                token = self.next()
                while self.next() != ')':
                    pass
            names.append(token)
        self.want('.')
        return ('function', names, self.expression())

    def skip_braces(self):
        depth = 0
        while True:
            token = self.next()
            depth += {'{': 1, '}': -1}.get(token, 0)
            if depth == 0:
                return

    def fields_behind(self, value):
        while self.peek() is not None and self.peek()[0] == '.' and len(self.peek()) > 1:
            for name in self.next()[1:].split('.'):
                value = ('field', value, name)
        return value

    def atom(self):
        token = self.next()
        if token == '(':
            return self.fields_behind(self.parenthesised())
        if token == 'record':
            return self.record()
        if token[0] == '"':
            return ('literal', token[1:-1].replace('\\n', '\n'))
        if re.fullmatch(r'[0-9_]+', token):
            return ('literal', int(token.replace('_', '')))
        if '.' in token and token != '.':
            return ('dotted', token.split('.'))
        return ('name', token)

    def parenthesised(self):
        outside, self.in_test = self.in_test, False
        values = [self.expression()]
        while self.peek() == ',':
            self.next()
            values.append(self.expression())
        self.want(')')
        self.in_test = outside
        return values[0] if len(values) == 1 else ('tuple', values)

    def record(self):
        base = None if self.peek() == '{' else self.atom()
        self.want('{')
        fields = []
        while self.peek() != '}':
            name = self.next()
            self.want('=')
            fields.append((name, self.expression()))
            if self.peek() == ';':
                self.next()
        self.want('}')
        return ('record', base, fields)

    # ---- patterns: a name with the patterns of its arguments

    def patterns(self):
        found = []
        while self.peek() != '=':
            if self.peek() == '{':
                self.skip_braces()
            else:
                found.append(self.pattern_atom())
        return found

    def pattern_atom(self):
        token = self.next()
        if token != '(':
            return (token, [])
        inner = self.pattern()
        self.want(')')
        return inner

    def pattern(self):
        left = self.pattern_application()
        if self.peek() in OPERATORS:
            return (self.next(), [left, self.pattern()])
        return left

    def pattern_application(self):
        if self.peek() == '(':
            return self.pattern_atom()
        name, args = self.next(), []
        while self.peek() != ')' and self.peek() not in OPERATORS:
            args.append(self.pattern_atom())
        return (name, args)

    def clause(self):
        """The name that a clause defines, its patterns and its right side."""
        first = self.pattern_atom()
        if self.peek() in OPERATORS:
            name, patterns = f'◌{self.next()}◌', [first] + self.patterns()
        else:
            name, patterns = first[0], self.patterns()
        self.want('=')
        body = self.expression()
        if self.peek() is not None:
            raise Unreadable(f'{self.peek()} is left over in {name}')
        return name, patterns, body


# ---- what a name means where it stands

class Constructor:
    def __init__(self, name):
        self.name = name


class Local:
    """A name that is bound to a value."""

    def __init__(self, code):
        self.code = code


class Function:
    def __init__(self, code, arity):
        self.code = code
        self.arity = arity


class Qualifier:
    """A type whose constructors are named behind its short name."""

    def __init__(self, ctype):
        self.ctype = ctype


BUILT_IN = {name: Constructor(name) for name in ('∷', '[]', 'tt', 'Some', 'None', 'Ok', 'Err')}
SPECIAL_PATTERNS = ('zero', 'suc', 'true', 'false', 'pos', 'negsuc')
# the operators on numbers and truth values
ARITHMETIC = {'+': '({} + {})', '-': 'max(0, {} - {})', '*': '({} * {})', '/': '({} // {})', '%': '({} % {})', '^': '({} ** {})',
              '+ℤ': '({} + {})', '-ℤ': '({} - {})', '*ℤ': '({} * {})', '==': '({} == {})', '&&': '({} and {})', '||': '({} or {})'}


# functions of the standard library that are written out in place, and which give numbers or truth values
IN_PLACE = {'nat_lt': '({} < {})', 'nat_le': '({} <= {})', 'int_lt': '({} < {})', 'int_le': '({} <= {})', 'int_eq': '({} == {})',
            'not': '(not {})', 'suc': '({} + 1)', 'pos': '{}', 'negsuc': '(-1 - {})', 'bit_and': '({} & {})', 'bit_or': '({} | {})'}


class Scope:
    """The meanings of names, the inner ones first."""

    def __init__(self, names, outer=None):
        self.names = names
        self.outer = outer

    def find(self, name):
        if name in self.names:
            return self.names[name]
        return self.outer.find(name) if self.outer else None


def items_of(lines):
    """The lines of a text as items: a line and those that are indented further, or close it."""
    items = []
    for line in lines:
        text = line.strip()
        if not text or text.startswith('--'):
            continue
        indent = len(line) - len(line.lstrip())
        if items and (indent > items[-1][0] or text[0] in '})'):
            items[-1][1].append(line)
        else:
            items.append((indent, [line]))
    return [lines for _, lines in items]


def without_modifiers(text):
    return re.sub(r'^\s*((pattern|unfoldable|abbrev|pub)\s+)+', '', text)


def clauses_in(items):
    """The clauses of items by the name that they define, in order: (patterns, right side, lines behind `where`)."""
    found = {}
    for lines in items:
        inner = next((k for k, line in enumerate(lines) if line.strip() == 'where'), len(lines))
        text = without_modifiers('\n'.join(lines[:inner]))
        if tokens_of(text)[1:2] == [':']:
            continue        # a signature
        name, patterns, body = Parser(text).clause()
        found.setdefault(name, []).append((patterns, body, lines[inner + 1:]))
    return found


class Compiler:
    """Python text for clauses. Names of variables are numbered, so that none is used twice."""

    def __init__(self):
        self.count = 0

    def fresh(self, name):
        self.count += 1
        return f'{re.sub("[^A-Za-z0-9_]", "", name) or "x"}_{self.count}'

    # ---- expressions: as an argument (`lazy`), as a number or truth value (`strict`), at the end of a function (`tail`)

    def lazy(self, e, scope):
        if e[0] == 'literal' or e[0] in ('function', 'tuple') or e[0] == 'record' and e[1] is None:
            return self.tail(e, scope)
        if e[0] == 'name' and not isinstance(scope.find(e[1]), Function):
            return self.tail(e, scope)
        if e[0] == 'operator' and e[1] == '∷':
            return self.tail(e, scope)
        if e[0] == 'apply' and isinstance(self.meaning(e[1], scope), Constructor):
            return self.tail(e, scope)
        return f'Thunk(lambda: {self.tail(e, scope)})'

    def strict(self, e, scope):
        if e[0] == 'literal' or e[0] == 'operator' and e[1] in ARITHMETIC or self.is_in_place(e):
            return self.tail(e, scope)
        if e[0] == 'apply':
            meaning = self.meaning(e[1], scope)
            if isinstance(meaning, Function) and meaning.arity == len(e[2]):
                return f'whnf({meaning.code}({", ".join(self.lazy(a, scope) for a in e[2])}))'
        return f'whnf({self.tail(e, scope)})'

    def tail(self, e, scope):
        return getattr(self, 'tail_' + e[0])(e, scope)

    def meaning(self, e, scope):
        if e[0] == 'name':
            return scope.find(e[1])
        if e[0] == 'dotted' and isinstance(scope.find(e[1][0]), Qualifier):
            return Constructor(f'{scope.find(e[1][0]).ctype}.{e[1][1]}')
        return None

    def tail_literal(self, e, scope):
        return repr(e[1])

    def tail_name(self, e, scope):
        meaning = scope.find(e[1])
        if isinstance(meaning, Constructor):
            return f'Con({meaning.name!r})'
        if isinstance(meaning, Function):
            return f'Fun({meaning.arity}, {meaning.code})' if meaning.arity else f'{meaning.code}'
        if isinstance(meaning, Local):
            return meaning.code
        if e[1][0].islower() or e[1][0] == '◌':
            raise Unreadable(f'unknown name {e[1]}')
        return 'None'       # a type

    def tail_dotted(self, e, scope):
        meaning = self.meaning(e, scope)
        if meaning:
            return f'Con({meaning.name!r})'
        value = ('name', e[1][0])
        for name in e[1][1:]:
            value = ('field', value, name)
        return self.tail(value, scope)

    def is_in_place(self, e):
        return e[0] == 'apply' and e[1][0] == 'name' and e[1][1] in IN_PLACE and IN_PLACE[e[1][1]].count('{}') == len(e[2])

    def tail_apply(self, e, scope):
        if self.is_in_place(e):
            return IN_PLACE[e[1][1]].format(*(self.strict(a, scope) for a in e[2]))
        meaning = self.meaning(e[1], scope)
        args = [self.lazy(a, scope) for a in e[2]]
        if isinstance(meaning, Constructor):
            return f'Con({meaning.name!r}, ({", ".join(args)},))'
        if isinstance(meaning, Function) and meaning.arity:
            arity = meaning.arity
            if len(args) < arity:
                return f'Fun({arity}, {meaning.code}, ({", ".join(args)},))'
            call = f'({meaning.code}, ({", ".join(args[:arity])},))'
            return call if len(args) == arity else f'(apply, ({call}, {", ".join(args[arity:])},))'
        return f'(apply, ({self.lazy(e[1], scope)}, {", ".join(args)},))'

    def tail_operator(self, e, scope):
        _, operator, left, right = e
        if operator in ARITHMETIC:
            return ARITHMETIC[operator].format(self.strict(left, scope), self.strict(right, scope))
        if operator == '∷':
            return f"Con('∷', ({self.lazy(left, scope)}, {self.lazy(right, scope)}))"
        if operator == '++':
            if right[0] == 'operator' and right[1] == '∷' and right[3] == ('name', '[]'):
                return f'with_last({self.lazy(left, scope)}, {self.lazy(right[2], scope)})'
            return f'joined({self.lazy(left, scope)}, {self.lazy(right, scope)})'
        if scope.find(f'◌{operator}◌'):
            return self.tail(('apply', ('name', f'◌{operator}◌'), [left, right]), scope)
        return 'None'       # a type

    def tail_function(self, e, scope):
        names = [self.fresh(name) for name in e[1]]
        inner = Scope({name: Local(code) for name, code in zip(e[1], names)}, scope)
        return f'Fun({len(names)}, lambda {", ".join(names)}: {self.tail(e[2], inner)})'

    def tail_let(self, e, scope):
        name = self.fresh(e[1])
        return f'(lambda {name}: {self.tail(e[3], Scope({e[1]: Local(name)}, scope))})({self.lazy(e[2], scope)})'

    def tail_if(self, e, scope):
        return f'({self.tail(e[2], scope)} if {self.strict(e[1], scope)} else {self.tail(e[3], scope)})'

    def tail_tuple(self, e, scope):
        return f"Con(',', ({', '.join(self.lazy(x, scope) for x in e[1])},))"

    def tail_record(self, e, scope):
        fields = ', '.join(f'{name!r}: {self.lazy(value, scope)}' for name, value in e[2])
        base = f'**{self.strict(e[1], scope)}.fields, ' if e[1] else ''
        return f'Rec({{{base}{fields}}})'

    def tail_field(self, e, scope):
        if e[2] == 'now':   # the list inside a constant array
            return self.tail(e[1], scope)
        part = f'.args[{e[2]}]' if e[2].isdigit() else f'.fields[{e[2]!r}]'
        return self.strict(e[1], scope) + part

    # ---- clauses

    def test(self, pattern, code, names, scope, out):
        """Lines that leave the clause (`break`) where the value isn't of the pattern's form, and bind its names."""
        name, args = pattern
        meaning = scope.find(name) if '.' not in name else self.meaning(('dotted', name.split('.')), scope)
        if name == '_':
            return
        if name in SPECIAL_PATTERNS:
            self.test_number(name, args, code, names, scope, out)
        elif isinstance(meaning, Constructor):
            out.append(f'{code} = {"cell" if meaning.name in ("∷", "[]") else ""}(whnf({code}))')
            out.append(f'if {code}.name != {meaning.name!r}: break')
            parts = [self.fresh('p') for _ in args]
            if parts:
                out.append(f'{", ".join(parts)}, = {code}.args')
            for part, inner in zip(parts, args):
                self.test(inner, part, names, scope, out)
        elif args:
            raise Unreadable(f'unknown constructor {name}')
        else:
            names[name] = Local(code)

    def test_number(self, name, args, code, names, scope, out):
        fails = {'zero': '!= 0', 'suc': '== 0', 'true': 'is False', 'false': 'is True', 'pos': '< 0', 'negsuc': '>= 0'}[name]
        out.append(f'{code} = whnf({code})')
        out.append(f'if {code} {fails}: break')
        if args:
            part = self.fresh('n')
            out.append(f'{part} = {{}}'.format({'suc': f'{code} - 1', 'pos': code, 'negsuc': f'-1 - {code}'}[name]))
            self.test(args[0], part, names, scope, out)

    def clause(self, params, patterns, body, inner_lines, scope, out):
        """A block that returns where the patterns fit, and else falls through."""
        names, lines = {}, []
        for code, pattern in zip(params, patterns):
            self.test(pattern, code, names, scope, lines)
        inner = Scope(names, scope)
        if inner_lines:
            inner = self.definitions(clauses_in(items_of(inner_lines)), inner, lines)
        if body[0] == 'function' and len(params) > len(patterns):
            renamed = {name: Local(code) for name, code in zip(body[1], params[len(patterns):])}
            inner, body = Scope(renamed, inner), body[2]
        lines.append(f'return {self.tail(body, inner)}')
        out.append('while True:')
        out.extend('    ' + line for line in lines)

    def definitions(self, found, scope, out, globally=False):
        """Python functions for clauses by name; a name without patterns is a thunk."""
        names = {name: Function(self.fresh(name), arity_of(clauses)) for name, clauses in found.items()}
        inner = Scope(names, scope)
        for name, clauses in found.items():
            params = [self.fresh('a') for _ in range(names[name].arity)]
            body = []
            for patterns, right, inner_lines in clauses:
                self.clause(params, patterns, right, inner_lines, inner, body)
            body.append(f'raise NoClause({name!r}, ({", ".join(params)}{"," if params else ""}))')
            code = names[name].code
            out.append(f'def {code}({", ".join(params)}):')
            out.extend('    ' + line for line in body)
            if not params:
                out.append(f'{code} = Thunk({code})')
        return inner


def arity_of(clauses):
    """How many arguments clauses take; those of a lambda that is the whole right side count too."""
    patterns, body, inner = clauses[0]
    own = len(patterns)
    return own + len(body[1]) if own and len(clauses) == 1 and body[0] == 'function' else own


class NoClause(Exception):
    """No clause of a function fits its arguments."""


class Definitions:
    """The definitions below a folder of crates. `names('Rattle.cl_mean.specs.Meaning')` gives those of one file."""

    def __init__(self, crates):
        self.crates = crates
        self.files = {}
        self.compiler = Compiler()
        self.python = {'Con': Con, 'Fun': Fun, 'Rec': Rec, 'Thunk': Thunk, 'apply': apply, 'cell': cell, 'joined': joined, 'whnf': whnf,
                       'with_last': with_last, 'NoClause': NoClause}
        self.standard = dict(BUILT_IN)
        for name, function in library.FUNCTIONS.items():
            self.standard[name] = self.keep(name, function.code, function.arity)
        for name, value in {**library.CONSTANTS, **self.limits()}.items():
            if name not in BUILT_IN:
                self.standard[name] = self.keep(name, value, 0)

    def keep(self, name, value, arity):
        code = self.compiler.fresh(name)
        self.python[code] = value
        return Function(code, arity) if arity else Local(code)

    def limits(self):
        """The constants of cl_base."""
        with open(os.path.join(self.crates, 'cl_base/src/limits.rt'), encoding='utf-8') as file:
            return {name: int(value.replace('_', '')) for name, value in re.findall(r'pub const (\w+): \w+ = ([0-9_]+);', file.read())}

    def names(self, path):
        """The names that a file of definitions gives and uses."""
        if path in self.files:
            return self.files[path]
        self.files[path] = names = {}
        try:
            self.read(path, names)
        except Exception:
            del self.files[path]
            raise
        return names

    def read(self, path, names):
        _, crate, rest = path.split('.', 2)
        with open(os.path.join(self.crates, crate, rest.replace('.', '/') + '.antt'), encoding='utf-8') as file:
            items = items_of(file.read().split('\n'))
        written = []
        for lines in items:
            head = lines[0].strip()
            if head.startswith('use '):
                self.use(head[4:], names)
            else:
                self.sort(lines, names, written)
        out = []
        inner = self.compiler.definitions(clauses_in(written), Scope(names, Scope(self.standard)), out)
        exec(compile('\n'.join(out), path, 'exec'), self.python)
        names.update(inner.names)

    def sort(self, lines, names, written):
        """Keeps an item that isn't a `use`: a block's parts, an operator's tightness, a type's constructors, or clauses."""
        head = without_modifiers(lines[0].strip())
        if head.startswith('infix'):
            side, tightness, operator = head.split()
            OPERATORS[operator.strip('◌')] = (int(tightness), {'infixl': 'l', 'infixr': 'r'}.get(side, 'n'))
        elif head.endswith('mutual'):
            for inner in items_of(lines[1:]):
                self.sort(inner, names, written)
        elif head.startswith('data '):
            for inner in items_of(lines[1:]):
                for name in without_modifiers(inner[0].strip()).split(' : ')[0].split():
                    names[name] = names[name.strip('◌')] = Constructor(name.strip('◌'))
        elif not head.startswith(('record ', 'unfolding ')):
            written.append(lines)

    def use(self, text, names):
        listed = re.fullmatch(r'(\S+?)\.\{(.*)\}', text)
        if not listed:
            path, short = re.fullmatch(r'(\S+) as (\S+)', text).groups()
            names[short] = Qualifier(path.split('.')[-2])
            return
        path = listed.group(1)
        for entry in listed.group(2).split(','):
            name, _, short = entry.strip().partition(' as ')
            self.use_name(path, name, short or name, names)

    def use_name(self, path, name, short, names):
        if path.endswith(('.TheVariants', '.TheOpen')):
            names[short] = Constructor(f'{path.split(".")[-2]}.{name}')
        elif '.declared.' in path or path.startswith('Prim.') or path.split('.')[1] in ('std', 'byteorder'):
            if name in self.standard:
                names[short] = self.standard[name]
        elif name in (given := self.names(path)):
            names[short] = given[name]

    def value(self, path, name):
        """What a name of a file means, as a value to apply."""
        meaning = self.names(path)[name]
        if isinstance(meaning, Constructor):
            return Con(meaning.name)
        code = self.python[meaning.code]
        return Fun(meaning.arity, code) if isinstance(meaning, Function) and meaning.arity else code
