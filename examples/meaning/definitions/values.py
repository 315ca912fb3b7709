"""The values that the definitions' text computes with, by need.

Natural numbers and integers are Python's int, truth values its bool, and text is its str. A value that isn't computed yet is a
`Thunk`. A tail call is a tuple of a function and its arguments, which `whnf` runs; so a run as long as its steps needs no stack.
"""


class Thunk:
    """A value that is computed when it is wanted, and once."""
    __slots__ = ('code', 'value')

    def __init__(self, code):
        self.code = code

    def force(self):
        code = self.code
        if code is not None:
            self.value = whnf(code())
            self.code = None
        return self.value


def whnf(value):
    """The value as far as its outermost constructor (weak head normal form)."""
    while True:
        kind = value.__class__
        if kind is tuple:
            value = value[0](*value[1])
        elif kind is not Thunk:
            return value
        elif value.code is None:
            return value.value
        else:
            value = value.force()


class Con:
    """A constructor with its arguments so far. Lists are `∷` and `[]`, tuples are `,`."""
    __slots__ = ('name', 'args')

    def __init__(self, name, args=()):
        self.name = name
        self.args = args


class Rec:
    """A record: its fields by name."""
    __slots__ = ('fields',)

    def __init__(self, fields):
        self.fields = fields


class Fun:
    """A function that still wants arguments."""
    __slots__ = ('arity', 'code', 'held')

    def __init__(self, arity, code, held=()):
        self.arity = arity
        self.code = code
        self.held = held


class Seq:
    """A list that isn't empty, as a part of a Python list. The last element is added to in place where no longer list was made."""
    __slots__ = ('buffer', 'start', 'end')

    def __init__(self, buffer, start, end):
        self.buffer = buffer
        self.start = start
        self.end = end


NIL = Con('[]')
NONE = Con('None')
UNIT = Con('tt')


def apply(function, *args):
    """What a function or a constructor makes of more arguments."""
    function = whnf(function)
    if function.__class__ is Con:
        return Con(function.name, function.args + args)
    held = function.held + args
    arity = function.arity
    if len(held) == arity:
        return (function.code, held)
    if len(held) < arity:
        return Fun(arity, function.code, held)
    return (apply, ((function.code, held[:arity]),) + held[arity:])


def some(value):
    return Con('Some', (value,))


def option(value):
    return NONE if value is None else some(value)


def sequence(values):
    """A list of the definitions from a Python list."""
    values = list(values)
    return Seq(values, 0, len(values)) if values else NIL


def rest_of(seq):
    return Seq(seq.buffer, seq.start + 1, seq.end) if seq.start + 1 < seq.end else NIL


def cell(value):
    """A list as `∷` or `[]`, for a pattern."""
    if value.__class__ is Seq:
        return Con('∷', (value.buffer[value.start], rest_of(value)))
    return value


def elements(value):
    """The elements of a list, each perhaps a thunk."""
    found = []
    value = whnf(value)
    while True:
        if value.__class__ is Seq:
            found.extend(value.buffer[value.start:value.end])
            return found
        if value.name == '[]':
            return found
        found.append(value.args[0])
        value = whnf(value.args[1])


def listed(value):
    """The elements of a list, each computed."""
    return [whnf(x) for x in elements(value)]


def computed(value):
    """The value, computed in all its parts, so that none holds on to what it is computed from."""
    value = whnf(value)
    wanted = [value]
    while wanted:
        held = wanted.pop()
        kind = held.__class__
        if kind is Con:
            wanted.extend(whnf(x) for x in held.args)
        elif kind is Rec:
            wanted.extend(whnf(x) for x in held.fields.values())
        elif kind is Seq:
            wanted.extend(whnf(x) for x in held.buffer[held.start:held.end])
    return value


def with_last(front, last):
    """`front ++ last ∷ []`. What a list grows by is computed: outputs and crossings grow so, and last as long as a run."""
    front = whnf(front)
    last = computed(last)
    if front is NIL or front.__class__ is Con and front.name == '[]':
        return Seq([last], 0, 1)
    if front.__class__ is not Seq:
        front = sequence(elements(front))
    if front.end != len(front.buffer):
        front = sequence(elements(front))
    front.buffer.append(last)
    return Seq(front.buffer, front.start, front.end + 1)


def joined(front, back):
    """`front ++ back`, as far as it is wanted."""
    front = cell(whnf(front))
    if front.name == '[]':
        return whnf(back)
    head, tail = front.args
    return Con('∷', (head, Thunk(lambda: joined(tail, back))))

