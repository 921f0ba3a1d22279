"""Expressions of Python as those of JavaScript, by page/src/model/python.js, which has what the two have in different ways."""
import ast
import json

BINARY = {ast.Add: '+', ast.Sub: '-', ast.Mult: '*', ast.Pow: '**', ast.BitAnd: '&', ast.BitOr: '|', ast.LShift: '<<', ast.RShift: '>>'}
ORDER = {ast.Lt: '<', ast.LtE: '<=', ast.Gt: '>', ast.GtE: '>=', ast.Is: '===', ast.IsNot: '!=='}
# Methods that JavaScript has by another name, and those that python.js has as functions.
RENAMED = {'append': 'push', 'startswith': 'startsWith'}
METHODS = {'clear', 'extend', 'get', 'hex', 'insert', 'isdigit', 'items', 'partition', 'pop', 'removeprefix', 'rpartition', 'setdefault', 'strip', 'values'}
AS_OTHERS = {'bool': 'is', 'tuple': 'list'}
# Calls that answer true or false.
TRUTHS = {'all', 'any', 'bool', 'isdigit', 'isinstance', 'startswith'}
BUILT_IN = {'all', 'any', 'bool', 'bytearray', 'int', 'iter', 'len', 'list', 'max', 'min', 'next', 'sorted', 'str', 'sum', 'tuple', 'zip'}


class Unknown(Exception):
    """What no page is made of: it has to be said in another way, or the translation has to learn it."""


class Expressions:
    """The expressions of a module. `enums` has its enumerations by their names, whose members are their words there."""

    def __init__(self, enums):
        self.enums = enums
        self.methods = set()         # those of the class that is translated

    def helper(self, name, *words):
        """A call of a function of python.js."""
        return f"py.{name}({', '.join(words)})"

    def of(self, node):
        made = getattr(self, 'of_' + type(node).__name__.lower(), None)
        if made is None:
            raise Unknown(f'line {node.lineno}: {ast.unparse(node)}')
        return made(node)

    def all(self, nodes):
        return [self.of(each) for each in nodes]

    def test(self, node):
        """An expression of which it counts alone whether it is true: what is empty isn't."""
        if isinstance(node, ast.BoolOp):
            return self.decided(node.op, map(self.test, node.values))
        if isinstance(node, ast.UnaryOp) and isinstance(node.op, ast.Not):
            return '!' + self.test(node.operand)
        return self.of(node) if is_truth(node) else self.helper('is', self.of(node))

    def decided(self, op, words):
        """What the operators of JavaScript decide as those of Python do: all words but the last are true or false."""
        return '(%s)' % (' && ' if isinstance(op, ast.And) else ' || ').join(words)

    def of_constant(self, node):
        return json.dumps(node.value)

    def of_name(self, node):
        return 'this' if node.id == 'self' else node.id

    def of_attribute(self, node):
        if isinstance(node.value, ast.Name) and node.value.id in self.enums:
            return json.dumps(self.enums[node.value.id][node.attr].value)
        if node.attr == 'value':
            return self.of(node.value)
        whole = self.of(node.value)
        return f'{whole}.{node.attr}' + '.bind(this)' * (whole == 'this' and node.attr in self.methods)

    def of_call(self, node):
        words = self.all(node.args) + [self.of(each.value) for each in node.keywords]
        if isinstance(node.func, ast.Attribute):
            return self.method(node.func, words)
        name = self.of(node.func)
        if name == 'isinstance':
            return f'Array.isArray({words[0]})'
        if name == 'dict':
            return f"Object.fromEntries({', '.join(words)})"
        if name in BUILT_IN:
            return self.helper(AS_OTHERS.get(name, name), *words)
        return f"{'new ' * name[0].isupper()}{name}({', '.join(words)})"

    def method(self, function, words):
        whole, name = self.of(function.value), function.attr
        if whole != 'this' and name in METHODS:
            return self.helper(name, whole, *words)
        if whole != 'this' and name == 'join' and len(words) == 1:
            return f"{self.helper('list', *words)}.join({whole})"
        return f"{whole}.{name if whole == 'this' else RENAMED.get(name, name)}({', '.join(words)})"

    def of_binop(self, node):
        left, right = self.of(node.left), self.of(node.right)
        if isinstance(node.op, ast.Mod):
            is_text = isinstance(node.left, ast.Constant) and isinstance(node.left.value, str)
            return self.helper('format', left, right if isinstance(node.right, ast.Tuple) else f'[{right}]') if is_text else self.helper('modulo', left, right)
        if isinstance(node.op, ast.FloorDiv):
            return f'Math.floor({left} / {right})'
        return f'({left} {BINARY[type(node.op)]} {right})'

    def of_unaryop(self, node):
        return f'-{self.of(node.operand)}' if isinstance(node.op, ast.USub) else '!' + self.test(node.operand)

    def of_boolop(self, node):
        """The value that decides it. What follows is asked for where it is wanted."""
        if all(map(is_truth, node.values[:-1])):
            return self.decided(node.op, self.all(node.values))
        name = 'and' if isinstance(node.op, ast.And) else 'or'
        first, *rest = self.all(node.values)
        for each in rest:
            first = self.helper(name, first, f'() => {each}')
        return first

    def of_compare(self, node):
        sides = [node.left, *node.comparators]
        parts = [self.compared(left, op, right) for left, op, right in zip(sides, node.ops, sides[1:])]
        return parts[0] if len(parts) == 1 else '(%s)' % ' && '.join(parts)

    def compared(self, left, op, right):
        one, other = self.of(left), self.of(right)
        if isinstance(op, (ast.In, ast.NotIn)):
            return '!' * isinstance(op, ast.NotIn) + self.helper('has', other, one)
        if isinstance(op, (ast.Is, ast.IsNot)) and other == 'null':
            return f"({one} {'==' if isinstance(op, ast.Is) else '!='} null)"
        if isinstance(op, (ast.Eq, ast.NotEq)):
            if isinstance(left, ast.Constant) or isinstance(right, ast.Constant):
                return f"({one} {'===' if isinstance(op, ast.Eq) else '!=='} {other})"
            return '!' * isinstance(op, ast.NotEq) + self.helper('same', one, other)
        return f'({one} {ORDER[type(op)]} {other})'

    def of_ifexp(self, node):
        return f'({self.test(node.test)} ? {self.of(node.body)} : {self.of(node.orelse)})'

    def of_subscript(self, node):
        whole, place = self.of(node.value), node.slice
        if isinstance(place, ast.Slice):
            return self.helper('slice', whole, *('undefined' if each is None else self.of(each) for each in (place.lower, place.upper)))
        # A number or a word that stands there is a place of a list, or of an object of JSON.
        return f'{whole}[{self.of(place)}]' if isinstance(place, ast.Constant) else self.helper('at', whole, self.of(place))

    def of_tuple(self, node):
        return f"[{', '.join(self.all(node.elts))}]"

    of_list = of_tuple

    def of_starred(self, node):
        return '...' + self.helper('list', self.of(node.value))

    def of_dict(self, node):
        """An object where all of its keys are words, as of JSON."""
        pairs = [(key and self.of(key), self.of(value)) for key, value in zip(node.keys, node.values)]
        if pairs and all(key is None or key.startswith('"') for key, _ in pairs):
            return '({%s})' % ', '.join(f'...{value}' if key is None else f'{key}: {value}' for key, value in pairs)
        return 'new py.Dict([%s])' % ', '.join(f'[{key}, {value}]' for key, value in pairs)

    def of_dictcomp(self, node):
        return f'new py.Dict({self.comprehended(node.generators, f"[{self.of(node.key)}, {self.of(node.value)}]")})'

    def of_listcomp(self, node):
        return self.comprehended(node.generators, self.of(node.elt))

    of_generatorexp = of_listcomp

    def comprehended(self, generators, made):
        """A list of what is made of each, one loop within another."""
        for at, each in reversed(list(enumerate(generators))):
            given, items = f'({self.target(each.target)})', self.helper('list', self.of(each.iter))
            for test in each.ifs:
                items += f'.filter({given} => {self.test(test)})'
            is_last = at == len(generators) - 1
            is_itself = is_last and made == given[1:-1] and (at or each.ifs)
            made = items if is_itself else f"{items}.{'map' if is_last else 'flatMap'}({given} => {made})"
        return made

    def target(self, node):
        """What is assigned to: of several each, but those that nobody reads."""
        if not isinstance(node, (ast.Tuple, ast.List)):
            return self.of(node)
        kept = [each for each in node.elts if not isinstance(each, ast.Starred)]
        return '[%s]' % ', '.join('' if isinstance(each, ast.Name) and each.id == '_' else self.target(each) for each in kept)

    def of_lambda(self, node):
        return f"(({', '.join(each.arg for each in node.args.args)}) => {self.of(node.body)})"

    def of_joinedstr(self, node):
        parts = [each.value.replace('`', '\\`') if isinstance(each, ast.Constant) else '${%s}' % self.of(each.value) for each in node.values]
        return f"`{''.join(parts)}`"

    def of_yield(self, node):
        return f"yield{'*' * isinstance(node, ast.YieldFrom)} {self.of(node.value)}"

    of_yieldfrom = of_yield


def is_truth(node):
    """Whether an expression is true or false, and nothing else."""
    if isinstance(node, ast.BoolOp):
        return all(map(is_truth, node.values))
    if isinstance(node, ast.Call):
        return (node.func.attr if isinstance(node.func, ast.Attribute) else node.func.id) in TRUTHS
    return isinstance(node, ast.Compare) or isinstance(node, ast.UnaryOp) and isinstance(node.op, ast.Not)
