"""The modules of the tools that the page has too, in JavaScript: what is summed up of packets is said once, in Python.

What they may say is what this and expressions.py know: no exceptions, no arguments by their names but `key`, no classes within others.
"""
import ast
import enum
import importlib
import json

from .expressions import Expressions
from .header import TOP
from .page import page_file

INDENT = '    '
# By the folder below tools, the modules; what they import of others stands in page/src/model.
MODULES = {'nbt_pcap': ('direction', 'reasons', 'session', 'streams', 'ticks'),
           'nbt_look': ('rooms', 'words', 'said', 'names', 'queries', 'stations', 'sessions', 'kinds', 'places', 'pieces', 'datagrams', 'seen',
                        'shown')}
PLACE = 'page/src/made'
KNOWN = {'vocabulary', *(name for names in MODULES.values() for name in names)}


class Script:
    """A module on its way."""

    def __init__(self, package, name):
        self.module = importlib.import_module(f'{package}.{name}')
        self.expressions = Expressions({name: value for name, value in vars(self.module).items() if isinstance(value, enum.EnumMeta)})
        self.tree = ast.parse((TOP / 'tools' / package / f'{name}.py').read_text(encoding='utf-8'))
        self.lines = []

    def text(self):
        for each in self.tree.body:
            self.top(each)
        front = [f'/** {ast.get_docstring(self.tree)} */', '// @ts-nocheck', "import * as py from '../model/python.js';"]
        return '\n'.join([*front, *self.lines]) + '\n'

    def put(self, depth, text):
        self.lines.append(INDENT * depth + text)

    def top(self, node):
        """What stands in no other."""
        if isinstance(node, ast.ImportFrom):
            self.imported(node)
        elif isinstance(node, ast.Import):
            self.put(0, ' '.join(f'const {each.name} = py.{each.name};' for each in node.names))
        elif isinstance(node, ast.ClassDef):
            self.class_of(node)
        elif isinstance(node, ast.FunctionDef):
            self.function(node, 0, 'export function')
        elif isinstance(node, ast.Assign):
            self.put(0, f'export const {self.expressions.target(node.targets[0])} = {self.expressions.of(node.value)};')

    def imported(self, node):
        """Names of another module. An enumeration is none there: its members are words."""
        names, module = [each.name for each in node.names if each.name not in self.expressions.enums], node.module.rpartition('.')[2]
        constants = [] if module in KNOWN else [each for each in names if isinstance(getattr(self.module, each), (int, str, tuple, frozenset))]
        for each in constants:
            value = getattr(self.module, each)
            self.put(0, f'const {each} = {json.dumps(sorted(value) if isinstance(value, frozenset) else value)};')
        names = [each for each in names if each not in constants]
        if names and module != 'dataclasses':
            self.put(0, f"import {{ {', '.join(names)} }} from '{'.' if module in KNOWN else '../model'}/{module}.js';")

    def class_of(self, node):
        functions = [each for each in node.body if isinstance(each, ast.FunctionDef)]
        self.expressions.methods = {each.name for each in functions if not each.decorator_list}
        self.put(0, f'export class {node.name} {{')
        fields = [each for each in node.body if isinstance(each, ast.AnnAssign)]
        if fields:
            self.put(1, f"constructor({', '.join(self.given(each.target.id, each.value) for each in fields)}) {{")
            for each in fields:
                self.put(2, f'this.{each.target.id} = {each.target.id};')
            self.put(1, '}')
        for each in node.body:
            if isinstance(each, ast.Assign) and isinstance(each.targets[0], ast.Tuple):
                self.put(1, ' '.join(f'{name.id} = {self.expressions.of(each.value)}[{at}];' for at, name in enumerate(each.targets[0].elts)))
        for each in functions:
            self.function(each, 1, 'get' if each.decorator_list else '')
        self.expressions.methods = set()
        self.put(0, '}')

    def given(self, name, default):
        """A parameter, with the value of one that isn't given: of a factory what that makes."""
        if isinstance(default, ast.Call) and default.func.id == 'field':
            default = (ast.List if default.keywords[0].value.id == 'list' else lambda pairs: ast.Dict(pairs, []))([])
        return name if default is None else f'{name} = {self.expressions.of(default)}'

    def function(self, node, depth, words):
        given = [each.arg for each in node.args.args if each.arg != 'self']
        defaults = [None] * (len(given) - len(node.args.defaults)) + node.args.defaults
        signature = ', '.join(map(self.given, given, defaults))
        star = '*' * any(isinstance(each, (ast.Yield, ast.YieldFrom)) for each in ast.walk(node))
        name = 'constructor' if node.name == '__init__' else node.name
        self.put(depth, f'{words + " " * bool(words)}{star}{name}({signature}) {{')
        own = names_of(node) - set(given)
        if own:
            self.put(depth + 1, f"let {', '.join(sorted(own))};")
        self.body(node.body, depth + 1)
        self.put(depth, '}')

    def body(self, nodes, depth):
        for each in nodes:
            getattr(self, 'put_' + type(each).__name__.lower())(each, depth)

    def put_expr(self, node, depth):
        if not isinstance(node.value, ast.Constant):
            self.put(depth, f'{self.expressions.of(node.value)};')

    def put_return(self, node, depth):
        self.put(depth, f'return {self.expressions.of(node.value)};' if node.value else 'return null;')

    def block(self, head, nodes, depth):
        self.put(depth, f'{head} {{')
        self.body(nodes, depth + 1)
        self.put(depth, '}')

    def put_if(self, node, depth):
        self.block(f'if ({self.expressions.test(node.test)})', node.body, depth)
        if node.orelse:
            self.block('else', node.orelse, depth)

    def put_while(self, node, depth):
        self.block(f'while ({self.expressions.test(node.test)})', node.body, depth)

    def put_for(self, node, depth):
        items = self.expressions.helper('list', self.expressions.of(node.iter))
        self.block(f'for ({self.expressions.target(node.target)} of {items})', node.body, depth)

    def put_assign(self, node, depth):
        if self.are_apart(node.targets[0], node.value):
            for target, each in zip(node.targets[0].elts, node.value.elts):
                self.assigned(target, self.expressions.of(each), depth)
            return
        value = self.expressions.of(node.value)
        # Names first: the value is made once, and read by its name then.
        for each in sorted(node.targets, key=lambda target: not isinstance(target, ast.Name)):
            value = self.assigned(each, value, depth)

    def are_apart(self, target, value):
        """Whether several values may be assigned one after the other: none is read of what is assigned before it."""
        if not isinstance(target, ast.Tuple) or not isinstance(value, ast.Tuple):
            return False
        names, values = map(self.expressions.all, (target.elts, value.elts))
        return not any(name in each for at, name in enumerate(names) for each in values[at + 1:])

    def assigned(self, target, value, depth):
        """Puts a value to a target; answers what it may be read by then."""
        if isinstance(target, ast.Subscript) and not isinstance(target.slice, ast.Constant):
            self.put(depth, self.expressions.helper('put', self.expressions.of(target.value), self.expressions.of(target.slice), value) + ';')
        else:
            self.put(depth, f'{self.expressions.target(target)} = {value};')
            return self.expressions.target(target)
        return value

    def put_augassign(self, node, depth):
        target = node.target
        whole = ast.BinOp(ast.Subscript(target.value, target.slice) if isinstance(target, ast.Subscript) else target, node.op, node.value)
        self.assigned(target, self.expressions.of(whole), depth)

    def put_delete(self, node, depth):
        for each in node.targets:
            place = each.slice
            where = self.expressions.of(place.upper) if isinstance(place, ast.Slice) else self.expressions.of(place)
            self.put(depth, self.expressions.helper('remove', self.expressions.of(each.value), where, str(isinstance(place, ast.Slice)).lower()) + ';')

    def put_continue(self, node, depth):
        self.put(depth, f'{type(node).__name__.lower()};')

    put_break = put_continue


def names_of(function):
    """The names to which a function assigns, but those of its comprehensions."""
    found, within = set(), {id(name) for each in ast.walk(function) if isinstance(each, ast.comprehension) for name in ast.walk(each.target)}
    for each in ast.walk(function):
        if isinstance(each, ast.Name) and isinstance(each.ctx, ast.Store) and id(each) not in within and each.id != '_':
            found.add(each.id)
    return found


def scripts(header):
    """The files that the page has of the tools, each with its text."""
    yield f'{PLACE}/vocabulary.js', page_file(header)
    for package, names in MODULES.items():
        for name in names:
            yield f'{PLACE}/{name}.js', Script(package, name).text()
