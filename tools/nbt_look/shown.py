"""Counts in words, and how values of tables are shown, where the value itself isn't that."""
from nbt_pcap.reasons import GAP

from .vocabulary import LATE, LATER, OTHER


def counted(count, what):
    """So many of something: 1 packet, 2 packets."""
    return '%d %s' % (count, what if count == 1 else what + 's')


def run_text(run):
    """A run of bytes, in words: 8 bytes from byte 16 on."""
    return '%s from byte %d on' % ('all' if run['bytes'] is None else counted(run['bytes'], 'byte'), run['from'])


def left_out_words(item):
    """Why something is left out, with what is missing: of a gap in TCP how many bytes, of fragments of IP which."""
    if item.reason == GAP and item.missing:
        return '%s, %s' % (GAP, counted(item.missing[0]['bytes'], 'byte'))
    missing = ', '.join([run_text(each) for each in item.missing])
    return item.reason + ': ' + missing if missing else item.reason


def name_text(name, row):
    return cell(name) + (', not all kept' if row['not_all_kept'] else '')


def says_text(word, row):
    """What an address said itself, and who sent it where that is another one."""
    return cell(word) + (', from ' + row['from'] if row['from'] else '')


def told_text(word, row):
    """What others said, and how many refusals there were before that, where it is none."""
    count = row['refusals']
    return cell(word) + (', ' + counted(count, 'refusal') if word and count and not row['is_refused'] else '')


def lifetime_text(seconds, row):
    return '-' if seconds is None else '%d s, %s' % (seconds, row['lifetime_of'])


def answered_text(frame, row):
    """What came of a request, in words."""
    what = row['answer']
    if what is None:
        return '-'
    if what == LATER:
        return f'later, frame {frame}'
    if what == LATE:
        return 'late, frame %d, %s s' % (frame, row['after'])
    return '%sby %s, frame %d' % ('' if what == OTHER else what + ' ', cell(row['answered_by']), frame)


def cell(value, _row=None):
    """A value as a table has it."""
    if value is True or value is False:
        return 'yes' if value else 'no'
    if isinstance(value, (list, tuple)):
        return ', '.join([cell(each) for each in value]) or '-'
    return '-' if value is None or value == '' else str(value)


OF_ROW = {'name': name_text, 'says': says_text, 'is_told': told_text, 'lifetime': lifetime_text}
# By the title of a table, the texts of those of its columns that have others than by `cell`.
TEXTS = {
    'names': OF_ROW, 'several': OF_ROW, 'refusals': {'name': name_text},
    'queries that found nothing': {'name': name_text, 'answered': answered_text},
    'failed datagrams': {'size': lambda size, _row: '?' if size is None else str(size),
                         'missing': lambda runs, _row: ', '.join([run_text(each) for each in runs]) or '-'}}
