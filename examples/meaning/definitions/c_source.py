"""Reads an annotated C program into the trees of cl_tree (docs/PROFILE.md has the language).

It is there for programs that are accepted: it looks at no rule, and a program that it can't read ends with `BadSource`.
"""
import re
from collections import namedtuple

from values import Con, NONE, Rec, option, sequence, some

# what: pragma, word, number, letter, string (its text is then its bytes), mark
Token = namedtuple('Token', 'what text line')

PIECE = re.compile(r'''(?P<blank>[ \t\r\n]+|//[^\n]*|/\*.*?\*/)|(?P<directive>\#[^\n]*)|(?P<string>"(?:\\.|[^"\\\n])*")
    |(?P<letter>'(?:\\[0-7]{1,3}|\\x[0-9a-fA-F]+|\\.|[^'\\\n])')|(?P<number>[0-9]\w*)|(?P<word>[A-Za-z_]\w*)
    |(?P<mark><<=|>>=|\+\+|--|<<|>>|<=|>=|==|!=|&&|\|\||[-+*/%&|^]=|[-+*/%&|^~!<>=?:;,.(){}\[\]])''', re.S | re.X)
ESCAPE = re.compile(r'''\\([0-7]{1,3}|x[0-9a-fA-F]+|.)|(.)''', re.S)
ESCAPES = {'n': 10, 't': 9, 'r': 13, 'a': 7, 'b': 8, 'f': 12, 'v': 11, '\\': 92, "'": 39, '"': 34, '?': 63}

TYPE_WORDS = ('char', 'signed', 'unsigned', 'short', 'int', 'long')
FIXED = {'int8_t': 'I8', 'uint8_t': 'U8', 'int16_t': 'I16', 'uint16_t': 'U16', 'int32_t': 'I32', 'uint32_t': 'U32',
         'int64_t': 'Long', 'uint64_t': 'ULong'}
# bits without the sign
MAGNITUDE = {'I32': 31, 'U32': 32, 'Long': 63, 'ULong': 64, 'LLong': 63, 'ULLong': 64}
# from the loosest to the tightest
OPERATORS = (('||',), ('&&',), ('|',), ('^',), ('&',), ('==', '!='), ('<', '>', '<=', '>='), ('<<', '>>'), ('+', '-'), ('*', '/', '%'))
BINARY = {'||': 'Or', '&&': 'And', '|': 'BitOr', '^': 'Xor', '&': 'BitAnd', '==': 'Equal', '!=': 'Unequal', '<': 'Less',
          '>': 'Greater', '<=': 'AtMost', '>=': 'AtLeast', '<<': 'Left', '>>': 'Right', '+': 'Add', '-': 'Sub', '*': 'Mul',
          '/': 'Div', '%': 'Rem'}
UNARY = {'-': 'Minus', '+': 'Plus', '~': 'Flip', '!': 'Not'}


class BadSource(Exception):
    """A program that can't be read."""


def word(text):
    return sequence(text.encode())


def text_of_word(value):
    return bytes(value.buffer[value.start:value.end]).decode()


def escaped_bytes(literal):
    """The bytes of a string or character constant, which is given with its quotes."""
    found = []
    for escape, plain in ESCAPE.findall(literal[1:-1]):
        if plain:
            found.append(ord(plain))
        elif escape[0] == 'x':
            found.append(int(escape[1:], 16))
        else:
            found.append(int(escape, 8) if escape[0] in '01234567' else ESCAPES[escape])
    return bytes(found)


def tokens_of(source):
    """The tokens, with each `#define`d name replaced and neighbouring strings joined."""
    text = source.replace('\\\n', '')
    joins = [match.start() - 2 * n for n, match in enumerate(re.finditer(r'\\\n', source))]     # where lines were joined in the text
    tokens, defined, at = [], {}, 0
    while at < len(text):
        match = PIECE.match(text, at)
        line = 1 + text.count('\n', 0, at) + sum(1 for join in joins if join <= at)
        if not match:
            raise BadSource(f'line {line}: no token')
        token = Token(match.lastgroup, match.group(0), line)
        if token.what == 'directive':
            read_directive(token, tokens, defined)
        elif token.text in defined:
            tokens.append(defined[token.text]._replace(line=line))
        elif token.what == 'string' and tokens and tokens[-1].what == 'string':
            tokens[-1] = tokens[-1]._replace(text=tokens[-1].text + escaped_bytes(token.text))
        elif token.what == 'string':
            tokens.append(token._replace(text=escaped_bytes(token.text)))
        elif token.what != 'blank':
            tokens.append(token)
        at = match.end()
    return tokens


def read_directive(token, tokens, defined):
    words = token.text[1:].split(None, 2)
    if words[:2] == ['pragma', 'cle']:
        tokens.append(Token('pragma', words[2].strip(), token.line))
    elif words[0] == 'define':
        literal = words[2].strip()
        defined[words[1]] = Token('letter' if literal[0] == "'" else 'number', literal, token.line)


def number_node(literal):
    """An integer literal in the first kind that holds it (C11 6.4.4.1)."""
    digits, suffix = re.fullmatch(r'(0[xX][0-9a-fA-F]+|[0-9]+)([uUlL]*)', literal).groups()
    suffix = suffix.lower()
    decimal = digits == '0' or digits[0] != '0'
    value = int(digits, 10 if decimal else 16 if digits[1] in 'xX' else 8)
    kinds = ['I32', 'Long', 'LLong'] if decimal else ['I32', 'U32', 'Long', 'ULong', 'LLong', 'ULLong']
    if 'u' in suffix:
        kinds = ['U32', 'ULong', 'ULLong']
    longs = suffix.count('l')
    wanted = [k for k in kinds if longs == 0 or longs == 1 and '32' not in k or k in ('LLong', 'ULLong')]
    kind = next(k for k in wanted if value < 2 ** MAGNITUDE[k])
    return Con('Node.Number', (value, Con('IntKind.' + kind)))


def kind_of(words):
    """The kind that a run of type words spells."""
    if words[0] in FIXED:
        return FIXED[words[0]]
    unsigned = 'unsigned' in words
    if 'char' in words:
        return 'U8' if unsigned else 'I8'
    base = 'Short' if 'short' in words else ('Int', 'Long', 'LLong')[words.count('long')]
    return {'Short': ('I16', 'U16'), 'Int': ('I32', 'U32'), 'Long': ('Long', 'ULong'), 'LLong': ('LLong', 'ULLong')}[base][unsigned]


def expression(line, name, *args, second=None):
    return Rec({'line': line, 'second': second or line, 'node': Con('Node.' + name, args)})


def statement(line, name, *args, second=None):
    return Rec({'line': line, 'second': second or line, 'node': Con('Act.' + name, args)})


def pragma(text):
    """A pragma of the tree from the words behind `#pragma cle`."""
    words = text.split(None, 2)
    if words[0] == 'def':
        return Con('Pragma.Def', (word(words[1]), word(words[2])))
    if words[0] in ('begin', 'end'):
        return Con('Pragma.' + words[0].capitalize(), (word(words[1]),))
    return Con('Pragma.Next', (word(words[0]),))


class Reader:
    """Reads items one by one. Each rule of the grammar has a method."""

    def __init__(self, source):
        self.tokens = tokens_of(source)
        self.at = 0

    def more(self):
        return self.at < len(self.tokens)

    def token(self):
        if not self.more():
            raise BadSource('the source ends too early')
        return self.tokens[self.at]

    def peek(self, ahead=0):
        there = self.at + ahead < len(self.tokens)
        return self.tokens[self.at + ahead].text if there else None

    def line(self):
        return self.token().line

    def next(self):
        token = self.token()
        self.at += 1
        return token.text

    def accept(self, text):
        found = self.peek() == text
        self.at += found
        return found

    def want(self, text):
        line = self.line()
        found = self.next()
        if found != text:
            raise BadSource(f'line {line}: {text} wanted, {found} found')

    # ---- types and declarations

    def begins_type(self, ahead=0):
        return self.peek(ahead) in TYPE_WORDS or self.peek(ahead) in FIXED or self.peek(ahead) in ('struct', 'void')

    def base(self):
        if self.accept('void'):
            return Con('CType.Void')
        if self.accept('struct'):
            return Con('CType.Struct', (word(self.next()),))
        words = [self.next()]
        while self.peek() in TYPE_WORDS:
            words.append(self.next())
        return Con('CType.Integer', (Con('IntKind.' + kind_of(words)),))

    def declarator(self, base, first, with_initialiser=True):
        line, name = self.line(), self.next()
        sizes = []
        while self.accept('['):
            sizes.append(number_node(self.next()).args[0])
            self.want(']')
        for size in reversed(sizes):
            base = Con('CType.Array', (base, size))
        init = some(self.initialiser()) if with_initialiser and self.accept('=') else NONE
        return Rec({'name': word(name), 'ctype': base, 'init': init, 'line': line, 'second': first})

    def initialiser(self):
        if not self.accept('{'):
            return Con('Init.One', (self.expression(),))
        parts = [self.initialiser()]
        while self.accept(','):
            parts.append(self.initialiser())
        self.want('}')
        return Con('Init.Many', (sequence(parts),))

    def declaration(self):
        first, is_static = self.line(), self.accept('static')
        base = self.base()
        names = [self.declarator(base, first)]
        while self.accept(','):
            names.append(self.declarator(base, first))
        return Rec({'is_static': is_static, 'names': sequence(names)})

    def parameters(self):
        """The parameters, and whether `void` stands in their place."""
        self.want('(')
        if self.accept(')'):
            return [], False
        if self.peek() == 'void' and self.peek(1) == ')':
            self.at += 2
            return [], True
        found = []
        while True:
            first = self.line()
            found.append(self.declarator(self.base(), first, with_initialiser=False))
            if not self.accept(','):
                self.want(')')
                return found, False

    # ---- expressions

    def expression(self):
        test = self.binary(0)
        if not self.accept('?'):
            return test
        yes = self.expression()
        self.want(':')
        return expression(test.fields['line'], 'Choice', test, yes, self.expression())

    def binary(self, level):
        if level == len(OPERATORS):
            return self.cast()
        left = self.binary(level + 1)
        while self.peek() in OPERATORS[level]:
            line, operator = self.line(), BINARY[self.next()]
            left = expression(left.fields['line'], 'Binary', Con('BinOp.' + operator), left, self.binary(level + 1), second=line)
        return left

    def cast(self):
        if self.peek() != '(' or not self.begins_type(1):
            return self.unary()
        line = self.line()
        self.want('(')
        ctype = self.base()
        self.want(')')
        return expression(line, 'Cast', ctype, self.cast())

    def unary(self):
        if self.peek() not in UNARY:
            return self.postfix()
        line, operator = self.line(), UNARY[self.next()]
        return expression(line, 'Unary', Con('UnOp.' + operator), self.cast())

    def postfix(self):
        whole = self.primary()
        first = whole.fields['line']
        while self.peek() in ('[', '.'):
            line = self.line()
            if self.accept('['):
                whole = expression(first, 'Index', whole, self.expression(), second=line)
                self.want(']')
            else:
                self.want('.')
                whole = expression(first, 'Member', whole, word(self.next()))
        return whole

    def primary(self):
        token = self.token()
        self.at += 1
        if token.text == '(':
            inner = self.expression()
            self.want(')')
            return expression(token.line, 'Paren', inner)
        if token.what == 'string':
            return expression(token.line, 'Text', sequence(token.text))
        if token.what == 'letter':
            return expression(token.line, 'Letter', escaped_bytes(token.text)[0])
        if token.what == 'number':
            return Rec({'line': token.line, 'second': token.line, 'node': number_node(token.text)})
        if token.what != 'word':
            raise BadSource(f'line {token.line}: {token.text} begins no expression')
        if self.peek() != '(':
            return expression(token.line, 'Variable', word(token.text))
        return expression(token.line, 'Call', word(token.text), sequence(self.arguments()))

    def arguments(self):
        self.want('(')
        if self.accept(')'):
            return []
        found = [self.expression()]
        while self.accept(','):
            found.append(self.expression())
        self.want(')')
        return found

    # ---- statements

    def block(self):
        self.want('{')
        found = []
        while not self.accept('}'):
            found.append(self.block_item())
        return sequence(found)

    def block_item(self):
        token = self.token()
        if token.what == 'pragma':
            self.at += 1
            return statement(token.line, 'Cle', pragma(token.text))
        if token.text == 'static' or self.begins_type():
            declared = statement(token.line, 'Declare', self.declaration())
            self.want(';')
            return declared
        return self.statement()

    def statement(self):
        line, text = self.line(), self.peek()
        if text == '{':
            return statement(line, 'Block', self.block())
        if self.accept(';'):
            return statement(line, 'Empty')
        if text in ('if', 'while', 'do', 'for', 'return', 'break', 'continue'):
            self.at += 1
            return getattr(self, 'after_' + text)(line)
        simple = self.simple()
        self.want(';')
        return simple

    def test(self):
        self.want('(')
        test = self.expression()
        self.want(')')
        return test

    def after_if(self, line):
        test, yes = self.test(), self.statement()
        return statement(line, 'If', test, yes, option(self.statement() if self.accept('else') else None))

    def after_while(self, line):
        return statement(line, 'While', self.test(), self.statement())

    def after_do(self, line):
        body = self.statement()
        self.want('while')
        test = self.test()
        self.want(';')
        return statement(line, 'DoWhile', body, test)

    def after_for(self, line):
        self.want('(')
        first = None
        if self.begins_type():
            first = statement(self.line(), 'Declare', self.declaration())
        elif self.peek() != ';':
            first = self.simple()
        self.want(';')
        test = self.expression() if self.peek() != ';' else None
        self.want(';')
        behind = self.simple() if self.peek() != ')' else None
        self.want(')')
        return statement(line, 'For', option(first), option(test), option(behind), self.statement())

    def after_return(self, line):
        value = self.expression() if self.peek() != ';' else None
        self.want(';')
        return statement(line, 'Return', option(value))

    def after_break(self, line):
        self.want(';')
        return statement(line, 'Break')

    def after_continue(self, line):
        self.want(';')
        return statement(line, 'Continue')

    def simple(self):
        line = self.line()
        if self.peek() in ('++', '--'):
            up = self.next() == '++'
            return statement(line, 'Bump', up, True, self.unary())
        place = self.unary()
        second, operator = self.line(), self.peek()
        if operator in ('++', '--'):
            self.at += 1
            return statement(line, 'Bump', operator == '++', False, place, second=second)
        if operator == '=':
            self.at += 1
            return statement(line, 'Set', NONE, place, self.expression(), second=second)
        if operator[-1] == '=' and operator[:-1] in BINARY:
            self.at += 1
            return statement(line, 'Set', some(Con('BinOp.' + BINARY[operator[:-1]])), place, self.expression(), second=second)
        return statement(line, 'Call', place)

    # ---- items

    def item(self):
        token = self.token()
        if token.what == 'pragma':
            self.at += 1
            return Con('Item.Cle', (pragma(token.text), token.line))
        if token.text == 'struct' and self.peek(2) == '{':
            return self.struct(token.line)
        start, is_static = self.at, self.accept('static')
        base, second, name = self.base(), self.line(), self.next()
        if self.peek() == '(':
            params, void_word = self.parameters()
            body = NONE if self.accept(';') else some(self.block())
            return Con('Item.Function', (is_static, base, word(name), void_word, sequence(params), body, token.line, second))
        self.at = start
        variables = Con('Item.Variables', (self.declaration(),))
        self.want(';')
        return variables

    def struct(self, line):
        self.want('struct')
        name, members = self.next(), []
        self.want('{')
        while not self.accept('}'):
            members.append(self.declaration())
            self.want(';')
        self.want(';')
        return Con('Item.Struct', (word(name), sequence(members), line))


def items_of(source):
    """The items of a program in order."""
    reader = Reader(source)
    found = []
    while reader.more():
        found.append(reader.item())
    return found
