"""What the definitions take from the standard library and from the declared types, by name.

Each function here has the meaning of its namesake in Rattle's library; `fold-*`, `map-*` and `out-*` are those that the compiler
makes for the recursive types of cl_tree.
"""
from values import (Con, Fun, NIL, NONE, Rec, Seq, Thunk, UNIT, apply, cell, elements, joined, listed, option, sequence, some, whnf)

FUNCTIONS = {}
CONSTANTS = {'true': True, 'false': False, 'zero': 0, '[]': NIL, 'tt': UNIT, 'None': NONE}


def known(name, arity):
    """Makes a Python function known to the definitions under a name."""
    def keep(code):
        FUNCTIONS[name] = Fun(arity, code)
        return code
    return keep


def strict(name, arity, code):
    """The same for a function that wants all of its arguments."""
    FUNCTIONS[name] = Fun(arity, lambda *args: code(*map(whnf, args)))


def towards_zero(a, b):
    q = abs(a) // abs(b)
    return q if (a < 0) == (b < 0) else -q


# ---- numbers

strict('suc', 1, lambda n: n + 1)
strict('pos', 1, lambda n: n)
strict('negsuc', 1, lambda n: -1 - n)
strict('not', 1, lambda b: not b)
strict('nat_lt', 2, lambda a, b: a < b)
strict('nat_le', 2, lambda a, b: a <= b)
strict('int_lt', 2, lambda a, b: a < b)
strict('int_le', 2, lambda a, b: a <= b)
strict('int_eq', 2, lambda a, b: a == b)
strict('unsigned_abs', 1, abs)
strict('int_div', 2, towards_zero)
strict('int_rem', 2, lambda a, b: a - b * towards_zero(a, b))
strict('int_div_euclid', 2, lambda a, b: a // b if b > 0 else -(a // -b))
strict('int_rem_euclid', 2, lambda a, b: a % abs(b))
strict('bit_and', 2, lambda a, b: a & b)
strict('bit_or', 2, lambda a, b: a | b)
strict('bit_xor', 2, lambda a, b: a ^ b)
strict('decimal', 1, lambda n: sequence(str(n).encode()))
strict('signed_decimal', 1, lambda n: sequence(str(n).encode()))
strict('digits', 3, lambda base, upper, n: sequence(format(n, {10: 'd', 16: 'x'}[base]).encode()))
strict('big_bytes', 2, lambda count, n: sequence((n % 256 ** count).to_bytes(count, 'big')))
strict('big_from', 3, lambda start, count, xs: int.from_bytes(bytes(listed(xs)[start:start + count]).ljust(count, b'\0'), 'big'))
strict('big_number', 2, lambda count, xs: int.from_bytes(bytes(listed(xs)[:count]).ljust(count, b'\0'), 'big'))
strict('code', 1, ord)
strict('codes', 1, lambda text: sequence(text.encode()))

# ---- options and lists

strict('is_none', 1, lambda o: o.name == 'None')
strict('option_map', 2, lambda f, o: o if o.name == 'None' else some(Thunk(lambda: apply(f, o.args[0]))))
strict('length', 1, lambda xs: xs.end - xs.start if xs.__class__ is Seq else len(elements(xs)))
strict('bytes_eq', 2, lambda a, b: listed(a) == listed(b))
strict('take', 2, lambda n, xs: sequence(elements(xs)[:n]))
strict('drop', 2, lambda n, xs: sequence(elements(xs)[n:]))


@known('map', 2)
def mapped(f, xs):
    xs = cell(whnf(xs))
    if xs.name == '[]':
        return NIL
    head, tail = xs.args
    return Con('∷', (Thunk(lambda: apply(f, head)), Thunk(lambda: mapped(f, tail))))


@known('filter', 2)
def filtered(test, xs):
    return sequence(x for x in elements(xs) if whnf(apply(test, x)))


@known('flat_map', 2)
def flat_mapped(f, xs):
    return sequence(y for x in elements(xs) for y in elements(apply(f, x)))


@known('fold', 3)
def folded(f, start, xs):
    for x in elements(xs):
        start = whnf(apply(f, start, x))
    return start


@known('list_any', 2)
def has_any(test, xs):
    return any(whnf(apply(test, x)) for x in elements(xs))


@known('list_all', 2)
def has_all(test, xs):
    return all(whnf(apply(test, x)) for x in elements(xs))


@known('sum_by', 2)
def sum_by(f, xs):
    return sum(whnf(apply(f, x)) for x in elements(xs))


@known('slice_index_or', 3)
def index_or(xs, i, other):
    xs, i = whnf(xs), whnf(i)
    if xs.__class__ is Seq:
        return xs.buffer[xs.start + i] if i < xs.end - xs.start else other
    values = elements(xs)
    return values[i] if i < len(values) else other


@known('slice_index', 2)
def index(xs, i):
    return index_or(xs, i, 0)


@known('slice_set', 3)
def with_element(xs, i, x):
    values, i = elements(xs), whnf(i)
    if i < len(values):
        values[i] = x
    return sequence(values)


# ---- recursive types

def parts_replaced(node, is_part, replaced):
    """One level of a tree, with each of its parts of the recursive type replaced."""
    def within(value):
        value = whnf(value)
        if is_part(value):
            return Thunk(lambda: replaced(value))
        if value.__class__ is Seq:
            return sequence(map(within, elements(value)))
        if value.__class__ is Con and value.name == 'Some':
            return some(within(value.args[0]))
        return value
    return Con(node.name, tuple(map(within, node.args)))


def is_expression(value):
    return value.__class__ is Rec and 'node' in value.fields and value.fields['node'].name.startswith('Node.')


def is_statement(value):
    return value.__class__ is Rec and 'node' in value.fields and value.fields['node'].name.startswith('Act.')


def is_type(value):
    return value.__class__ is Con and value.name.startswith('CType.')


def is_initialiser(value):
    return value.__class__ is Con and value.name.startswith('Init.')


def fold_of_record(is_part):
    """The fold over a struct of lines and one node: `on_node` acts on the node, `on_whole` on the struct."""
    def fold(_, __, on_node, on_whole, tree):
        tree = whnf(tree)
        again = lambda part: fold(_, __, on_node, on_whole, part)
        node = Thunk(lambda: apply(on_node, parts_replaced(tree.fields['node'], is_part, again)))
        return apply(on_whole, Rec({**tree.fields, 'node': node}))
    return fold


def fold_of_enum(is_part):
    def fold(_, step, tree):
        return apply(step, parts_replaced(whnf(tree), is_part, lambda part: fold(_, step, part)))
    return fold


known('fold-Expr', 5)(fold_of_record(is_expression))
known('fold-Stmt', 5)(fold_of_record(is_statement))
known('fold-CType', 3)(fold_of_enum(is_type))
known('fold-Init', 3)(fold_of_enum(is_initialiser))
for name in ('out-Node', 'out-Act', 'out-Init', 'out-CType'):
    known(name, 1)(lambda tree: tree)

# which arguments of a node are statements
STATEMENTS_IN = {'Act.Block': (0,), 'Act.If': (1, 2), 'Act.While': (1,), 'Act.DoWhile': (0,), 'Act.For': (0, 2, 3)}


@known('map-Act', 7)
def map_act(_, __, ___, ____, on_node, on_statement, act):
    act = whnf(act)

    def within(value):
        value = whnf(value)
        if value.__class__ is Con and value.name in ('None', '[]'):
            return value
        if value.__class__ is Con and value.name == 'Some':
            return some(Thunk(lambda: apply(on_statement, value.args[0])))
        if value.__class__ is Seq:
            return sequence(Thunk(lambda part=part: apply(on_statement, part)) for part in elements(value))
        return Thunk(lambda: apply(on_statement, value))
    places = STATEMENTS_IN.get(act.name, ())
    return Con(act.name, tuple(within(value) if i in places else value for i, value in enumerate(act.args)))
