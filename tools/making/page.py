"""The words and limits of the summary, and the numbers of nbt.h, for the page."""
import importlib
import json

LISTED = 'port', 'word', 'name_flag', 'datagram_flag', 'datagram_type'


def page_file(header):
    """The module, of which nothing is left out but what is told of the kinds. Nanoseconds are whole numbers of any size there."""
    # It reads what is made for the tools, which may have been written just now.
    vocabulary = importlib.import_module('nbt_look.vocabulary')
    numbers = {enum.upper(): {each.name: each.number for each in header.enums[enum]} for enum in LISTED}
    texts = {'SERVICES': [it.digits for it in header.enums['port']]}
    words = {name: value for name, value in vars(vocabulary).items() if name.isupper() and name not in ('KINDS_OF', 'IN_NANOSECONDS')}
    lines = [f"export const {name} = {json.dumps(value)}{'n' * (name in vocabulary.IN_NANOSECONDS)};"
             for name, value in {**numbers, **header.limits, **texts, **words}.items()]
    return '\n'.join(['/** The numbers of include/nbt.h that the page reads, and what tools/nbt_look/vocabulary.py has. */', *lines]) + '\n'
