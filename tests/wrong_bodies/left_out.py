"""Leaves bodies of functions out of a copy of a crate: `loop {}` stands in their place, and a hole in that of their proof.

A function is proved over what the functions that it calls promise, and not over their bodies. So a check of a few functions in
such a copy, with --allow-holes, says of these what it says in the crate, and needn't prove what they call.
"""
import re

from sources import functions

PLAIN = re.compile(r'( *)(?:pub(?:\(\w+\))? )?fn ')
DECLARED = re.compile(r'^(?:pub(?:\(\w+\))? )?(?:struct|enum) (\w+)', re.MULTILINE)
# The head of an `impl`: its parameters, its trait, where that has no arguments, and its type with what it is given.
IMPL = re.compile(r'impl(?:<(.*?)>)? (?:(?:\w+::)*(\w+) for )?(\w+)(?:<([^<>]*)>)?(?: where.*)?')
PROOFS = ('Answers.antt', 'Invariants.antt', 'Proof.antt')


def module_of(path, src):
    """The path of the module that a file of src/ is."""
    parts = path.relative_to(src).with_suffix('').parts
    return '::'.join(parts) if parts not in (('lib',), ('main',)) else ''


def owner_of(block, module, modules):
    """The path of the type whose methods stand in an `impl` of this head, with the trait's name; None for a head of another kind.

    `modules` has the module of each type of the crate: its own methods are named by that, and those of a trait by the module
    of the `impl`.
    """
    met = IMPL.fullmatch(block)
    if not met or met[3] not in modules:
        return None
    parameters = {it.partition(':')[0] for it in (met[1] or '').split(', ')} | {"'_", ''}
    if not parameters.issuperset((met[4] or '').split(', ')):
        return None
    return (module, met[3] + met[2]) if met[2] else (modules[met[3]], met[3])


def leave_out(path, src, modules, kept, lines_kept):
    """Leaves out the bodies of a file, but for those that are kept, and answers the paths of their functions."""
    text, module, found, pieces, at = path.read_text(encoding='utf-8'), module_of(path, src), [], [], 0
    for it in functions(path):
        plain = PLAIN.match(text, text.rindex('\n', 0, it.start) + 1)
        owner = owner_of(it.block, module, modules) if it.block else (module,)
        if not plain or not owner or not it.block and plain[1] or not it.body or not text[slice(*it.body)].strip() or it.start < at:
            continue
        start, at_end = it.body
        name = '::'.join(filter(None, (*owner, it.name)))
        if name not in kept and lines_kept.isdisjoint(text[start:at_end].split('\n')[1:-1]):
            pieces += [text[at:start], f'\n{plain[1]}    loop {{}}\n{plain[1]}']
            found.append(name)
            at = at_end
    path.write_text(''.join((*pieces, text[at:])), encoding='utf-8')
    return found


def leave_out_bodies(room, crate, kept, lines_kept):
    """Leaves out the bodies of the functions of a crate's copy, and their proofs, but for those whose paths are kept, or lines."""
    src = room / 'src'
    files = sorted(src.glob('**/*.rt'))
    modules = {name: module_of(path, src) for path in files for name in DECLARED.findall(path.read_text(encoding='utf-8'))}
    for name in [name for path in files for name in leave_out(path, src, modules, kept, lines_kept)]:
        folder = room / 'proofs' / name.replace('::', '/')
        folder.mkdir(parents=True, exist_ok=True)
        for each in PROOFS:
            (folder / each).unlink(missing_ok=True)
        spec = name.rpartition('::')[2] + '_spec'
        (folder / 'Proof.antt').write_text(
            f'use Rattle.{crate}.proofs.{name.replace("::", ".")}.Statement.{{statement}}\n\n'
            f'pub {spec} : {{M : Type 1}} → statement M\n{spec} = ?\n', encoding='utf-8')
