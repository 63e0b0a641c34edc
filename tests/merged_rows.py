#!/usr/bin/env python3
"""Worked merges, each a short history whose merge is known: its text, its conflicts, or its refusal, with resolutions and
without, and with the words in both orders. The texts are made here, by the formats of docs/FORMATS.md. Through the built
program; ends with 'N passed, M failed'. With the word 'lines' and a folder it writes the same rows as lines of
`mtn_cases_store`, asked and answered."""
import os
import sys
import tempfile

import revisions
from revisions import HEAD, Store, add_dir, add_file, bracketed, clear, delete, manifest, patch, quoted, rename, revision, roster, set_attr, sha, spell, two, verdict

H, HA, HB, HC, HX = (sha(data) for data in (b'abc', b'a', b'b', b'c', b'x'))


class Row:
    """One history: what is asked, in order, each with its payload, its status and what is written."""

    # How texts get their ids, as mtn_cases_store names it.
    ident = 'sha1'

    def __init__(self, title, files=(b'abc', b'a', b'b', b'c')):
        self.title, self.steps = title, []
        for data in files:
            self.asks(['put_file'], 0, sha(data) + '\n', data)

    def asks(self, words, status, output, given=None):
        self.steps.append((words, given, status, output if isinstance(output, bytes) else output.encode()))

    def accepts(self, tree, *edges, attributes={}):
        text = revision(tree, *edges, attributes=attributes)
        self.asks(['put_revision'], 0, sha(text) + '\n', text)
        return sha(text)

    def merge(self, a, b, status, output, resolved=None):
        self.asks(['merge', a, b] if resolved is None else ['merge', '--resolve', a, b], status, output, resolved)

    def merges(self, a, b, tree, of_a, of_b, resolved=None, attributes={}):
        """The merge has this tree and these changes from each; both orders of the words, and again, are one."""
        text = revision(tree, *two((a, of_a), (b, of_b)), attributes=attributes)
        for first, second in ((a, b), (b, a), (a, b)):
            self.merge(first, second, 0, sha(text) + '\n', resolved)
        self.asks(['get_revision', sha(text)], 0, text)
        return sha(text)

    def clashes(self, a, b, items, resolved=None):
        """The conflicts, in both orders of the words; no revision is kept."""
        left, right = sorted([a, b])
        text = spell([HEAD, [('left', bracketed(left)), ('right', bracketed(right))], *(items(left, right) if callable(items) else items)])
        for first, second in ((a, b), (b, a)):
            self.merge(first, second, 3, text, resolved)
        if resolved is None:
            self.asks(['show_conflicts', a, b], 0, text)

    def held(self, *ids):
        self.asks(['toposort', *sorted(ids)], 0, ''.join(i + '\n' for i in ids))


def node(symbol, name):
    birth, path = name
    return (symbol, bracketed(birth), quoted(path))


def conflict(title, *lines):
    return [('conflict', quoted(title)), *lines]


def orphaned(name, above, comp):
    return conflict('orphaned_node', node('node', name), node('parent', above), ('name', quoted(comp)))


def loop(name, above):
    return conflict('directory_loop', node('node', name), node('parent', above))


def resolutions(*stanzas):
    return spell([HEAD, *stanzas])


def drop(name):
    return [node('drop', name)]


def keep(name):
    return [node('keep', name)]


def place(name, into, comp):
    return [node('slot', name), node('into', into), ('name', quoted(comp))]


def at_root(name):
    return [node('slot', name), ('into', '[]', '""'), ('name', '""')]


def pick(name, content):
    return [node('content', name), ('pick', bracketed(content))]


def set_value(name, key, value):
    return [(*node('attr_set', name), quoted(key)), ('value', quoted(value))]


def clear_value(name, key):
    return [(*node('attr_clear', name), quoted(key))]


def of_file(content):
    return {'': None, 'f': content}


def file_root(row, content=H):
    return row.accepts(of_file(content), ('', [add_dir(''), add_file('f', content)]))


def renamed_and_patched():
    row = Row('A folder is renamed on one side, a file in it patched on each.')
    names = ['f%02d' % n for n in range(1, 41)]
    base = {'': None, 'src': None, **{'src/' + n: H for n in names}}
    r0 = row.accepts(base, ('', [add_dir(''), add_dir('src'), *(add_file('src/' + n, H) for n in names)]))
    left = row.accepts({**base, 'src/f01': HA}, (r0, [patch('src/f01', H, HA)]))
    moved = {'': None, 'lib': None, **{'lib/' + n: H for n in names}}
    right = row.accepts({**moved, 'lib/f02': HB}, (r0, [rename('src', 'lib'), patch('lib/f02', H, HB)]))
    row.merges(left, right, {**moved, 'lib/f01': HA, 'lib/f02': HB}, [rename('src', 'lib'), patch('lib/f02', H, HB)], [patch('lib/f01', H, HA)])
    return row


def same_patch():
    row = Row('The same content from both sides has the marks of both.')
    r0 = file_root(row)
    left = row.accepts(of_file(HA), (r0, [patch('f', H, HA)]))
    right = row.accepts({**of_file(HA), 'g': H}, (r0, [add_file('g', H), patch('f', H, HA)]))
    merged = row.merges(left, right, {**of_file(HA), 'g': H}, [add_file('g', H)], [])
    row.asks(['get_content_changed', merged, 'f'], 0, spell([[('content_mark', bracketed(of))] for of in sorted([left, right])]))
    return row


def turned_back():
    row = Row('A merge that turns a patch back wins over that patch.')
    r0 = file_root(row)
    left = row.accepts(of_file(HA), (r0, [patch('f', H, HA)]))
    right = row.accepts({**of_file(H), 'g': H}, (r0, [add_file('g', H)]))
    made = row.accepts({**of_file(H), 'g': H}, *two((left, [add_file('g', H), patch('f', HA, H)]), (right, [])))
    row.asks(['get_content_changed', made, 'f'], 0, spell([[('content_mark', bracketed(made))]]))
    other = row.accepts({**of_file(HA), 'h': H}, (left, [add_file('h', H)]))
    row.merges(made, other, {**of_file(H), 'g': H, 'h': H}, [add_file('h', H)], [add_file('g', H), patch('f', HA, H)])
    return row


def patched_back():
    row = Row('A content that was patched and patched back has both marks.')
    r0 = file_root(row)
    p = row.accepts(of_file(HA), (r0, [patch('f', H, HA)]))
    q = row.accepts(of_file(H), (p, [patch('f', HA, H)]))
    u = row.accepts({**of_file(H), 'g': H}, (r0, [add_file('g', H)]))
    merged = row.merges(q, u, {**of_file(H), 'g': H}, [add_file('g', H)], [])
    row.asks(['get_content_changed', merged, 'f'], 0, spell([[('content_mark', bracketed(of))] for of in sorted([r0, q])]))
    return row


def cleared_attribute():
    row = Row('A key that one side clears clashes with another value, and stays cleared beside a side that leaves it.')
    has = lambda value: {'f': [('k', value)]}
    r0 = row.accepts(of_file(H), ('', [add_dir(''), add_file('f', H), set_attr('f', 'k', 'v')]), attributes=has('v'))
    left = row.accepts(of_file(H), (r0, [clear('f', 'k')]))
    right = row.accepts(of_file(H), (r0, [set_attr('f', 'k', 'w')]), attributes=has('w'))
    sides = {left: ('cleared', 'k'), right: ('value', 'w')}
    row.clashes(left, right, lambda a, b: [conflict('attribute', node('node', (r0, 'f')), ('key', '"k"'),
                                                    ('left_' + sides[a][0], quoted(sides[a][1])), ('right_' + sides[b][0], quoted(sides[b][1])))])
    row.merges(left, right, of_file(H), [set_attr('f', 'k', 'x')], [set_attr('f', 'k', 'x')], resolutions(set_value((r0, 'f'), 'k', 'x')), has('x'))
    row.merges(left, right, of_file(H), [], [clear('f', 'k')], resolutions(clear_value((r0, 'f'), 'k')))
    beside = row.accepts({**of_file(H), 'g': H}, (r0, [add_file('g', H)]), attributes=has('v'))
    merged = row.merges(left, beside, {**of_file(H), 'g': H}, [add_file('g', H)], [clear('f', 'k')])
    row.asks(['get_roster', merged], 0, roster(
        ('', None, (r0, ''), [r0], [], []), ('f', H, (r0, 'f'), [r0], [r0], [('k', None, [left])]), ('g', H, (beside, 'g'), [beside], [beside], [])))
    return row


def two_loops():
    row = Row('Each of two folders is moved into the other: both stand in the loop.')
    r0 = row.accepts({'': None, 'x': None, 'y': None}, ('', [add_dir(''), add_dir('x'), add_dir('y')]))
    left = row.accepts({'': None, 'y': None, 'y/x': None}, (r0, [rename('x', 'y/x')]))
    right = row.accepts({'': None, 'x': None, 'x/y': None}, (r0, [rename('y', 'x/y')]))
    row.clashes(left, right, [loop((r0, 'x'), (r0, 'y')), loop((r0, 'y'), (r0, 'x'))])
    row.held(r0, left, right)
    row.merges(left, right, {'': None, 'x': None, 'y': None}, [rename('y/x', 'x')], [rename('x/y', 'y')],
               resolutions(place((r0, 'x'), (r0, ''), 'x'), place((r0, 'y'), (r0, ''), 'y')))
    return row


def orphan():
    row = Row('A file is added to a folder that the other side deletes.')
    r0 = row.accepts({'': None, 'd': None}, ('', [add_dir(''), add_dir('d')]))
    left = row.accepts({'': None, 'd': None, 'd/f': H}, (r0, [add_file('d/f', H)]))
    right = row.accepts({'': None}, (r0, [delete('d')]))
    f = (left, 'd/f')
    row.clashes(left, right, [orphaned(f, (r0, 'd'), 'f')])
    row.merges(left, right, of_file(H), [delete('d'), rename('d/f', 'f')], [add_file('f', H)], resolutions(place(f, (r0, ''), 'f')))
    row.merges(left, right, {'': None}, [delete('d'), delete('d/f')], [], resolutions(drop(f)))
    row.merge(left, right, 1, 'refused UnknownNode 2\n', resolutions(place(f, (r0, 'd'), 'f')))
    row.merge(left, right, 1, 'refused NotADirectory 3\n', resolutions(place((r0, ''), (r0, ''), 'r'), place(f, f, 'f'), drop((r0, 'd'))))
    row.merge(left, right, 1, 'refused NotADirectory 3\n', resolutions(drop((r0, '')), at_root(f)))
    row.merge(left, right, 1, 'refused UnknownNode 3\n', resolutions(at_root((r0, '')), at_root((r0, 'd'))))
    return row


def two_roots():
    row = Row('Two roots that have nothing in common.')
    r1 = row.accepts({'': None, 'a': H}, ('', [add_dir(''), add_file('a', H)]))
    r2 = row.accepts({'': None, 'b': H}, ('', [add_dir(''), add_file('b', H)]))
    row.clashes(r1, r2, [conflict('duplicate_name', node('node', name), ('parent', '[]', '""'), ('name', '""')) for name in sorted([(r1, ''), (r2, '')])])
    row.merges(r1, r2, {'': None, 'a': H, 'b': H}, [add_file('b', H)], [delete(''), rename('b', 'b'), add_dir(''), add_file('a', H)],
               resolutions(drop((r2, '')), place((r2, 'b'), (r1, ''), 'b')))
    return row


def no_root():
    row = Row('The new root is deleted on the other side.')
    r0 = row.accepts({'': None, 'd': None}, ('', [add_dir(''), add_dir('d')]))
    left = row.accepts({'': None, 'old': None}, (r0, [rename('', 'old'), rename('d', '')]))
    right = row.accepts({'': None}, (r0, [delete('d')]))
    row.clashes(left, right, [conflict('missing_root'), orphaned((r0, ''), (r0, 'd'), 'old')])
    row.merges(left, right, {'': None}, [delete(''), rename('old', '')], [], resolutions(at_root((r0, ''))))
    return row


def two_contents():
    row = Row('A content that both sides change clashes, and a content that is held settles it.')
    r0 = file_root(row)
    left = row.accepts(of_file(HA), (r0, [patch('f', H, HA)]))
    right = row.accepts(of_file(HB), (r0, [patch('f', H, HB)]))
    has = {left: HA, right: HB}
    f = (r0, 'f')
    row.clashes(left, right, lambda a, b: [conflict('content', node('node', f), ('left_content', bracketed(has[a])), ('right_content', bracketed(has[b])))])
    row.merges(left, right, of_file(HC), [patch('f', HA, HC)], [patch('f', HB, HC)], resolutions(pick(f, HC)))
    for text, line in [(resolutions(pick(f, HX)), 'UnknownFile ' + HX), (resolutions(drop(f)), 'NotAConflict 2'), (resolutions(pick((left, 'f'), HC)), 'UnknownNode 2'),
                       (resolutions(pick(f, HX), drop(f)), 'NotAConflict 3'), (resolutions(set_value(f, 'k', 'v')), 'NotAConflict 2'), (resolutions(keep(f)), 'NotAConflict 2'),
                       (resolutions(pick(f, HC), pick(f, HC)), 'Repeated 3'), (resolutions(HEAD), 'BadOrder 2'), (resolutions(drop(f), [('drop', '[]', '""')]), 'BadStanza 3'),
                       (b'', 'BadOrder 1'), (resolutions(pick(f, HC))[:-1], 'NotText %d' % (len(resolutions(pick(f, HC))) - 1))]:
        row.merge(left, right, 1, 'refused ' + line + '\n', text)
        row.merge(right, left, 1, 'refused ' + line + '\n', text)
    unknown = 'f' * 40
    row.merge(left, unknown, 1, 'refused UnknownRevision ' + unknown + '\n', b'no text')
    row.merge(left, left, 1, 'refused Related %s %s\n' % (left, left), b'no text')
    return row


def cut_off():
    row = Row('A text of resolutions that ends behind any of its bytes.')
    r0 = file_root(row)
    left = row.accepts(of_file(HA), (r0, [patch('f', H, HA)]))
    right = row.accepts(of_file(HB), (r0, [patch('f', H, HB)]))
    f = (r0, 'f')
    whole = [place(f, (r0, ''), 'g'), set_value(f, 'k', 'v'), clear_value(f, 'l'), pick(f, HC)]
    texts = {len(resolutions(*whole[:count])): count for count in range(1, len(whole) + 1)}
    text = resolutions(*whole)
    for size in range(len(text) + 1):
        if size in texts:
            line = 'NotAConflict 2'
        elif size == 0:
            line = 'BadOrder 1'
        elif text[size - 1:size] == b'\n' and text[size - 2:size] != b'\n\n':
            line = 'BadStanza %d' % (2 + sum(end < size for end in texts))
        else:
            line = 'NotText %d' % size
        if size != len(resolutions()):
            row.merge(left, right, 1, 'refused ' + line + '\n', text[:size])
    return row


def too_long():
    row = Row('A text of resolutions of a byte more than 64 MiB.')
    left = row.accepts({'': None, 'a': H}, ('', [add_dir(''), add_file('a', H)]))
    right = row.accepts({'': None, 'b': H}, ('', [add_dir(''), add_file('b', H)]))
    row.merge(left, right, 1, 'refused TextTooLong 67108865\n', b'x' * 67108865)
    row.merge(left, 'f' * 40, 1, 'refused UnknownRevision ' + 'f' * 40 + '\n', b'x' * 67108865)
    return row


def two_names():
    row = Row('A file has another name on each side.')
    r0 = file_root(row)
    left = row.accepts({'': None, 'g': H}, (r0, [rename('f', 'g')]))
    right = row.accepts({'': None, 'h': H}, (r0, [rename('f', 'h')]))
    named = {left: 'g', right: 'h'}
    row.clashes(left, right, lambda a, b: [conflict('multiple_name', node('node', (r0, 'f')), node('left_parent', (r0, '')), ('left_name', quoted(named[a])),
                                                    node('right_parent', (r0, '')), ('right_name', quoted(named[b])))])
    row.merges(left, right, {'': None, 'i': H}, [rename('g', 'i')], [rename('h', 'i')], resolutions(place((r0, 'f'), (r0, ''), 'i')))
    return row


def relatives():
    row = Row('A revision is not merged with one above it, nor with itself, nor with one that is not held.')
    r0 = file_root(row)
    child = row.accepts({**of_file(H), 'g': H}, (r0, [add_file('g', H)]))
    unknown, other = 'e' * 40, '0' * 40
    for command in ('merge', 'show_conflicts'):
        for words, line in [((r0, child), 'Related %s %s' % (r0, child)), ((child, r0), 'Related %s %s' % (r0, child)), ((r0, r0), 'Related %s %s' % (r0, r0)),
                            ((unknown, other), 'UnknownRevision ' + unknown), ((other, unknown), 'UnknownRevision ' + other), ((r0, other), 'UnknownRevision ' + other),
                            ((unknown, unknown), 'UnknownRevision ' + unknown)]:
            row.asks([command, *words], 1, 'refused ' + line + '\n')
    for words in (['merge'], ['merge', r0], ['merge', r0, child, r0], ['merge', '--resolve'], ['merge', '--resolve=yes', r0, child], ['show_conflicts', r0], ['show_conflicts', '--resolve', r0, child]):
        row.asks(words, 2, 'usage\n')
    return row


def nothing_clashes():
    row = Row('Where nothing clashes the conflicts that are shown are none.')
    r0 = file_root(row)
    left = row.accepts({**of_file(H), 'g': H}, (r0, [add_file('g', H)]))
    right = row.accepts({**of_file(H), 'h': H}, (r0, [add_file('h', H)]))
    row.asks(['show_conflicts', right, left], 0, spell([HEAD, [('left', bracketed(min(left, right))), ('right', bracketed(max(left, right)))]]))
    row.merges(left, right, {**of_file(H), 'g': H, 'h': H}, [add_file('h', H)], [add_file('g', H)], resolutions())
    return row


def dropped_and_modified():
    row = Row('A file that one side deletes and the other changes is kept as a new node, or dropped.')
    r0 = file_root(row)
    left = row.accepts(of_file(HA), (r0, [patch('f', H, HA)]))
    right = row.accepts({'': None}, (r0, [delete('f')]))
    f = (r0, 'f')
    row.clashes(left, right, lambda a, b: [conflict('dropped_modified', node('node', f), ('left_content' if a == left else 'right_content', bracketed(HA)))])
    row.merges(left, right, {'': None}, [delete('f')], [], resolutions(drop(f)))
    merged = row.merges(left, right, of_file(HA), [delete('f'), add_file('f', HA)], [add_file('f', HA)], resolutions(keep(f)))
    row.asks(['get_content_changed', merged, 'f'], 0, spell([[('content_mark', bracketed(merged))]]))
    row.merge(left, right, 1, 'refused Repeated 3\n', resolutions(drop(f), keep(f)))
    return row


def kept_below_nothing():
    row = Row('A file that is kept hangs below a folder that is gone, until it gets another.')
    r0 = row.accepts({'': None, 'd': None, 'd/f': H}, ('', [add_dir(''), add_dir('d'), add_file('d/f', H)]))
    left = row.accepts({'': None, 'd': None, 'd/f': HA}, (r0, [patch('d/f', H, HA)]))
    right = row.accepts({'': None}, (r0, [delete('d'), delete('d/f')]))
    f = (r0, 'd/f')
    row.clashes(left, right, [orphaned(f, (r0, 'd'), 'f')], resolutions(keep(f)))
    row.merges(left, right, of_file(HA), [delete('d'), delete('d/f'), add_file('f', HA)], [add_file('f', HA)], resolutions(keep(f), place(f, (r0, ''), 'f')))
    return row


def only_dropped():
    row = Row('A file that one side alone deletes is gone.')
    r0 = file_root(row)
    left = row.accepts({**of_file(H), 'g': H}, (r0, [add_file('g', H)]))
    right = row.accepts({'': None}, (r0, [delete('f')]))
    row.merges(left, right, {'': None, 'g': H}, [delete('f')], [add_file('g', H)])
    return row


def in_an_order(title, order):
    """A history of five revisions, accepted in this order and asked by every command but those that answer in it."""
    row = Row(title)
    both = {**of_file(HA), 'g': H}
    texts = {'root': revision(of_file(H), ('', [add_dir(''), add_file('f', H)]))}
    root = sha(texts['root'])
    texts['a'] = revision(of_file(HA), (root, [patch('f', H, HA)]))
    texts['b'] = revision({**of_file(H), 'g': H}, (root, [add_file('g', H)]))
    texts['c'] = revision(of_file(HB), (root, [patch('f', H, HB)]))
    a, b, c = (sha(texts[name]) for name in 'abc')
    texts['m'] = revision(both, *two((a, [add_file('g', H)]), (b, [patch('f', H, HA)])))
    m, f = sha(texts['m']), (root, 'f')
    listed = lambda ids: ''.join(of + '\n' for of in sorted(ids))
    parents = {root: [], a: [root], b: [root], c: [root], m: [a, b]}
    for name in order:
        row.asks(['put_revision'], 0, sha(texts[name]) + '\n', texts[name])
    for name, text in texts.items():
        row.asks(['get_revision', sha(text)], 0, text)
        row.asks(['parents', sha(text)], 0, listed(parents[sha(text)]))
    for words, ids in ((['leaves'], [c, m]), (['roots'], [root]), (['children', root], [a, b, c]), (['ancestors', m], [root, a, b]), (['descendents', root], [a, b, c, m]),
                       (['common_ancestors', m, c], [root]), (['erase_ancestors', m, root, c, b], [c, m])):
        row.asks(words, 0, listed(ids))
    row.asks(['graph'], 0, ''.join(' '.join([of, *sorted(parents[of])]) + '\n' for of in sorted(parents)))
    row.asks(['get_file', HA], 0, b'a')
    row.asks(['get_manifest_of', m], 0, manifest(both))
    row.asks(['get_roster', m], 0, roster(('', None, (root, ''), [root], [], []), ('f', HA, f, [root], [a], []), ('g', H, (b, 'g'), [b], [b], [])))
    row.asks(['get_content_changed', m, 'f'], 0, spell([[('content_mark', bracketed(a))]]))
    row.asks(['get_corresponding_path', c, 'f', m], 0, spell([[('file', '"f"')]]))
    has = {a: HA, c: HB, m: HA}
    for one in (a, m):
        row.clashes(one, c, lambda l, r: [conflict('content', node('node', f), ('left_content', bracketed(has[l])), ('right_content', bracketed(has[r])))])
    row.merges(a, b, both, [add_file('g', H)], [patch('f', H, HA)])
    row.merges(b, c, {**of_file(HB), 'g': H}, [patch('f', H, HB)], [add_file('g', H)])
    row.asks(['merge', root, m], 1, 'refused Related %s %s\n' % (root, m))
    return row


def in_one_order():
    return in_an_order('A history of five revisions.', ['root', 'a', 'b', 'm', 'c'])


def in_another_order():
    return in_an_order('The same history in another order answers alike.', ['root', 'c', 'b', 'a', 'm'])


ROWS = [renamed_and_patched, same_patch, turned_back, patched_back, cleared_attribute, two_loops, orphan, two_roots, no_root, two_contents, cut_off, two_names, relatives,
        nothing_clashes, dropped_and_modified, kept_below_nothing, only_dropped, in_one_order, in_another_order]


# The room of a sink of mtn_cases_store for which none is named.
ROOM = 10000


def escaped(data):
    """The escapes in which a case has a text."""
    out = ''
    for byte in data:
        if byte == 10:
            out += '\\n'
        elif byte == 92 or byte < 32 or byte > 126:
            out += '\\x%02x' % byte
        else:
            out += chr(byte)
    return out


def lines(rows):
    """The rows as lines that ask and lines that answer."""
    asked, answered = [], []
    for made in rows:
        row = made()
        for side in (asked, answered):
            side.append('# ' + row.title)
        asked.append('store plain ' + row.ident)
        for words, given, status, output in row.steps:
            if len(output) > ROOM:
                asked.append('sink %d' % len(output))
            if given is not None:
                asked.append('give ' + escaped(given) if given else 'give ')
            asked.append(asking(words))
            answered.append(answering(status, output))
        for side in (asked, answered):
            side.append('')
    return asked, answered


def asking(words):
    return ' '.join(['run', *(escaped(word.encode()).replace(' ', '\\x20') for word in words)])


def answering(status, output):
    return '%d %s' % (status, escaped(output).replace('\\x5c', '\\\\'))


def write_lines(folder, asked, answered):
    for name, side in (('asked', asked), ('answered', answered)):
        with open(os.path.join(folder, name), 'w') as out:
            out.write('\n'.join(side))


def run(rows, words, long=()):
    """Asks the rows of the built program, or writes those that are not long as lines."""
    if words[:1] == ['lines']:
        return write_lines(words[1], *lines(rows))
    with tempfile.TemporaryDirectory() as folder:
        for number, made in enumerate([*rows, *long]):
            row, store = made(), Store(folder, 'row%d' % number)
            for words, given, status, output in row.steps:
                before = store.records()
                ended = store.ask(*words, given=given or b'')
                verdict('%s %s: %r' % (row.title, ' '.join(words), ended), ended == (status, output, b''))
                if status:
                    verdict('%s %s keeps nothing' % (row.title, ' '.join(words)), store.records() == before)
    print('%d passed, %d failed' % (revisions.passed, revisions.failed))
    sys.exit(revisions.failed > 0)


if __name__ == '__main__':
    run(ROWS, sys.argv[1:], [too_long])
