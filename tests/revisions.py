#!/usr/bin/env python3
"""Puts revisions into a store through the built program, and asks for them: worked histories, each refusal, and what
sqlite3 finds in the records. The texts and the manifests are made here, by the formats of docs/FORMATS.md.
Ends with 'N passed, M failed'."""
import contextlib
import hashlib
import os
import shutil
import sqlite3
import subprocess
import sys
import tempfile

# The program, or the one that stands in MTN.
MTN = [os.environ.get('MTN') or os.path.join(os.path.dirname(os.path.abspath(__file__)), '..', 'mtn')]
passed, failed = 0, 0


def sha(data):
    return hashlib.sha1(data).hexdigest()


def left(store, to):
    """What a killed program left, its file and its log, under another name for sqlite3, whose look folds the log into the file."""
    for end in ('', '-wal'):
        if os.path.exists(store + end):
            shutil.copy(store + end, to + end)
    return to


def verdict(name, holds):
    global passed, failed
    if holds:
        passed += 1
    else:
        failed += 1
        print('FAILED: ' + name, file=sys.stderr)


def quoted(text):
    return '"' + text.replace('\\', '\\\\').replace('"', '\\"') + '"'


def bracketed(identifier):
    return '[' + identifier + ']'


def spell(stanzas):
    """The printed form of stanzas, each a list of lines (symbol, value, ..)."""
    texts = []
    for stanza in stanzas:
        column = max(len(line[0]) for line in stanza)
        texts.append(''.join(line[0].rjust(column) + ''.join(' ' + value for value in line[1:]) + '\n' for line in stanza))
    return '\n'.join(texts).encode()


HEAD = [('format_version', '"1"')]


def manifest(tree, attributes={}):
    """`tree` maps paths to None for a directory and to a content otherwise, `attributes` to lists of keys and values."""
    stanzas = [HEAD]
    for path in sorted(tree, key=lambda p: [c.encode() for c in p.split('/')] if p else []):
        content = tree[path]
        stanza = [('dir', quoted(path))] if content is None else [('file', quoted(path)), ('content', bracketed(content))]
        stanzas.append(stanza + [('attr', quoted(key), quoted(value)) for key, value in attributes.get(path, [])])
    return spell(stanzas)


def marks(*ids):
    return tuple(bracketed(of) for of in sorted(set(ids)))


def roster(*nodes):
    """The text of a roster, by nodes in the order of their paths: (path, content or None, (birth, path at birth), marks of
    the path, marks of the content, [(key, value or None, marks), ..])."""
    stanzas = [HEAD]
    for path, content, birth, path_marks, content_marks, attributes in nodes:
        stanza = [('dir', quoted(path))] if content is None else [('file', quoted(path)), ('content', bracketed(content))]
        stanza += [('birth', bracketed(birth[0]), quoted(birth[1])), ('path_mark', *marks(*path_marks))]
        if content is not None:
            stanza.append(('content_mark', *marks(*content_marks)))
        for key, value, key_marks in attributes:
            stanza.append(('dormant_attr', quoted(key)) if value is None else ('attr', quoted(key), quoted(value)))
            stanza.append(('attr_mark', quoted(key), *marks(*key_marks)))
        stanzas.append(stanza)
    return spell(stanzas).decode()


def delete(path):
    return [('delete', quoted(path))]


def rename(path, to):
    return [('rename', quoted(path)), ('to', quoted(to))]


def add_dir(path):
    return [('add_dir', quoted(path))]


def add_file(path, content):
    return [('add_file', quoted(path)), ('content', bracketed(content))]


def patch(path, old, new):
    return [('patch', quoted(path)), ('from', bracketed(old)), ('to', bracketed(new))]


def set_attr(path, key, value):
    return [('set', quoted(path)), ('attr', quoted(key)), ('value', quoted(value))]


def clear(path, key):
    return [('clear', quoted(path)), ('attr', quoted(key))]


def revision(tree, *edges, attributes={}):
    """The text of a revision; an edge is its parent's id, empty for none, and its changes."""
    stanzas = [HEAD, [('new_manifest', bracketed(sha(manifest(tree, attributes))))]]
    for parent, changes in edges:
        stanzas.append([('old_revision', bracketed(parent))])
        stanzas.extend(changes)
    return spell(stanzas)


def two(first, second):
    """Two edges in the order of their parents' ids."""
    return sorted([first, second], key=lambda edge: edge[0])


class Store:
    def __init__(self, folder, name):
        self.path = os.path.join(folder, name + '.mtn')

    def ask(self, *words, given=b''):
        ended = subprocess.run(MTN + [self.path, *words], input=given, stdout=subprocess.PIPE, stderr=subprocess.PIPE)
        return ended.returncode, ended.stdout, ended.stderr

    def file(self, data):
        self.ask('put_file', given=data)
        return sha(data)

    def accepted(self, name, text):
        status, output, errors = self.ask('put_revision', given=text)
        verdict('%s is accepted: status %d, %r' % (name, status, output[:200]), (status, output, errors) == (0, sha(text).encode() + b'\n', b''))
        return sha(text)

    def refused(self, name, text, line):
        before = self.records()
        status, output, errors = self.ask('put_revision', given=text)
        verdict('%s: status %d, %r' % (name, status, output[:200]), (status, output, errors) == (1, b'refused ' + line.encode() + b'\n', b''))
        verdict('%s keeps nothing' % name, self.records() == before)

    def says(self, name, words, lines):
        status, output, errors = self.ask(*words)
        want = ''.join(line + '\n' for line in lines).encode()
        verdict('%s: status %d, %r' % (name, status, output[:300]), (status, output, errors) == (0, want, b''))

    def shows(self, name, words, stanzas):
        status, output, errors = self.ask(*words)
        verdict('%s: status %d, %r' % (name, status, output[:300]), (status, output, errors) == (0, spell(stanzas), b''))

    def answers(self, name, words, status, line):
        ended = self.ask(*words)
        verdict('%s: %r' % (name, ended), ended == (status, line.encode(), b''))

    def records(self):
        if not os.path.exists(self.path):
            return []
        with contextlib.closing(sqlite3.connect(self.path)) as records:
            return sorted(records.execute('SELECT kind, name, body FROM kept').fetchall())

    def body(self, table, position):
        with contextlib.closing(sqlite3.connect(self.path)) as records:
            return records.execute('SELECT body FROM kept WHERE kind = ? AND name = ?', (table, position.to_bytes(8, 'big'))).fetchone()[0]


def graph_of(edges):
    """The lines of `graph`, of each id with its parents."""
    return [' '.join([of] + sorted(edges[of])) for of in sorted(edges)]


def lone_root(folder):
    store = Store(folder, 'root')
    text = revision({'': None}, ('', [add_dir('')]))
    verdict('the manifest of a lone root has 27 bytes, its text 105', (len(manifest({'': None})), len(text)) == (27, 105))
    other = text.replace(sha(manifest({'': None})).encode(), b'0' * 40)
    store.refused('another manifest', other, 'ManifestDiffers ' + sha(manifest({'': None})))
    root = store.accepted('a lone root', text)
    store.accepted('a lone root once more', text)
    status, output, _ = store.ask('get_revision', root)
    verdict('its text is found', (status, output) == (0, text))
    store.says('it is the only leaf', ['leaves'], [root])
    store.says('and the only root', ['roots'], [root])
    store.says('the graph has one line', ['graph'], [root])
    content = sha(b'abc')
    child = revision({'': None, 'f': content}, (root, [add_file('f', content)]))
    store.refused('a content that is not held', child, 'UnknownFile ' + content)
    store.file(b'abc')
    one = store.accepted('a file', child)
    store.answers('the manifest of a revision', ['get_manifest_of', one], 0, manifest({'': None, 'f': content}).decode())
    store.shows('what changed a content', ['get_content_changed', one, 'f'], [[('content_mark', bracketed(one))]])
    store.answers('a directory has no content', ['get_content_changed', one, ''], 1, 'refused NotAFile ""\n')
    store.answers('the roster of the root', ['get_roster', root], 0, roster(('', None, (root, ''), [root], [], [])))
    store.answers('the roster of its child', ['get_roster', one], 0, roster(('', None, (root, ''), [root], [], []), ('f', content, (one, 'f'), [one], [one], [])))
    store.answers('the roster of a revision that is not held', ['get_roster', '5' * 40], 1, 'refused UnknownRevision ' + '5' * 40 + '\n')
    store.answers('no node is there', ['get_content_changed', one, 'g'], 1, 'refused NoSuchPath "g"\n')
    store.shows('a node in its own revision', ['get_corresponding_path', one, 'f', one], [[('file', '"f"')]])
    store.answers('a node that is not yet there', ['get_corresponding_path', one, 'f', root], 0, '')
    store.answers('the second revision is not held', ['get_corresponding_path', one, 'f', '5' * 40], 1, 'refused UnknownRevision ' + '5' * 40 + '\n')
    store.says('ancestors', ['ancestors', one], [root])
    store.says('the graph', ['graph'], graph_of({root: [], one: [root]}))


def faulty_texts(folder):
    store = Store(folder, 'faulty')
    text = revision({'': None}, ('', [add_dir('')]))
    store.refused('an empty text', b'', 'BadOrder 1')
    store.refused('a text without its last byte', b'format_version "1"', 'NotText 18')
    heads = spell([HEAD, [('new_manifest', bracketed('1' * 40))], [('old_revision', '[]')]])
    store.refused('a second parent behind none', heads + b'\nold_revision []\n', 'BadEdge 4')
    store.refused('a component of 256 bytes', revision({'': None}, ('', [add_dir(''), add_dir('x' * 256)])), 'BadStanza 5')
    cut_at = {}
    for length in range(len(text)):
        status, output, _ = store.ask('put_revision', given=text[:length])
        cut_at[length] = (status, output.split()[:2])
    verdict('a text cut at each byte is refused', all(status == 1 and words[0] == b'refused' and words[1] in (b'NotText', b'BadOrder', b'BadChange') for status, words in cut_at.values()))
    verdict('and no store has a record of it', store.records() == [])
    lost = '2' * 40
    store.refused('an unknown parent', revision({'': None}, (lost, [])), 'UnknownParent ' + lost)
    store.refused('the first of two unknown parents', revision({'': None}, (lost, []), ('3' * 40, [])), 'UnknownParent ' + lost)


def changes(folder):
    store = Store(folder, 'changes')
    h = store.file(b'abc')
    tree = {'': None, 'x': None, 'x/f': h}
    base = store.accepted('a directory with a file', revision(tree, ('', [add_dir(''), add_dir('x'), add_file('x/f', h)])))
    store.refused('a directory into itself', revision(tree, (base, [rename('x', 'x/y')])), 'BadChange 1 1 NoParent')
    store.refused('a directory that is not empty', revision(tree, (base, [delete('x')])), 'BadChange 1 1 NotEmpty')
    store.refused('the tree is looked at before contents', revision(tree, (base, [add_file('x/f', '4' * 40)])), 'BadChange 1 1 Taken')
    ordered = {'': None, 'a': None, 'a/b': h, 'a-b': h}
    store.accepted('paths by their components', revision(ordered, ('', [add_dir(''), add_dir('a'), add_file('a/b', h), add_file('a-b', h)])))
    turned = {'': None, 'd': None, 'd/f': h, 'g': h}
    top = store.accepted('a tree to be turned', revision(turned, ('', [add_dir(''), add_dir('d'), add_file('d/f', h), add_file('g', h)])))
    turn = store.accepted('the root gives its place to a directory', revision({'': None, 'f': h, 'old': None, 'old/g': h}, (top, [rename('', 'old'), rename('d', '')])))
    store.shows('a file that moved with its directory', ['get_corresponding_path', top, 'd/f', turn], [[('file', '"f"')]])
    store.shows('the root that was', ['get_corresponding_path', top, '', turn], [[('dir', '"old"')]])
    deep = '/'.join(['p' * 255] * 15)
    parts = [deep[:255 + 256 * i] for i in range(15)] + [deep + '/' + 'q' * 254]
    longest = {'': None, **{part: None for part in parts}, parts[-1] + '/f': h}
    dirs = [add_dir('')] + [add_dir(part) for part in parts]
    store.accepted('a path of 4,096 bytes', revision(longest, ('', dirs + [add_file(parts[-1] + '/f', h)])))
    too_long = {**{path: content for path, content in longest.items() if not path.endswith('/f')}, parts[-1] + '/ff': h}
    store.refused('a path of 4,097 bytes', revision(too_long, ('', dirs + [add_file(parts[-1] + '/ff', h)])), 'PathTooLong ' + quoted(parts[-1] + '/ff'))
    many = {'': None, **{'n%06d' % i: None for i in range(100000)}}
    store.refused('a tree of 100,001 nodes', revision(many, ('', [add_dir(path) for path in sorted(many)])), 'TooManyNodes 100001')


def merges(folder):
    store = Store(folder, 'merges')
    h, ha = store.file(b'abc'), store.file(b'a')
    f = lambda content: {'': None, 'f': content}
    r0 = store.accepted('root', revision(f(h), ('', [add_dir(''), add_file('f', h)])))
    p = store.accepted('P patches', revision(f(ha), (r0, [patch('f', h, ha)])))
    q = store.accepted('Q patches back', revision(f(h), (p, [patch('f', ha, h)])))
    u = store.accepted('U adds', revision({**f(h), 'g': h}, (r0, [add_file('g', h)])))
    m = store.accepted('a merge of Q and U', revision({**f(h), 'g': h}, *two((q, [add_file('g', h)]), (u, []))))
    store.shows('a content from both sides', ['get_content_changed', m, 'f'], [[('content_mark', bracketed(of))] for of in sorted([r0, q])])
    store.answers('its roster has the marks of both', ['get_roster', m], 0,
                  roster(('', None, (r0, ''), [r0], [], []), ('f', h, (r0, 'f'), [r0], [r0, q], []), ('g', h, (u, 'g'), [u], [u], [])))
    edges = {r0: [], p: [r0], q: [p], u: [r0], m: [q, u]}
    store.says('the graph of a merge', ['graph'], graph_of(edges))
    store.says('parents of a merge', ['parents', m], sorted([q, u]))
    store.says('children', ['children', r0], sorted([p, u]))
    store.says('ancestors of a merge', ['ancestors', m], sorted([r0, p, q, u]))
    store.says('ancestors of several', ['ancestors', p, u], [r0])
    store.says('descendents', ['descendents', p], sorted([q, m]))
    store.says('common ancestors', ['common_ancestors', q, u], [r0])
    store.says('erase_ancestors', ['erase_ancestors', r0, p, u], sorted([p, u]))
    store.says('toposort', ['toposort', m, u, r0], [r0, u, m])
    store.says('ancestry_difference', ['ancestry_difference', m, u], [p, q, m])
    store.says('leaves', ['leaves'], [m])
    left = store.accepted('L patches', revision(f(ha), (r0, [patch('f', h, ha), ])).replace(b'\n', b'\n'))
    verdict('the same text is the same revision', left == p)
    gone = store.accepted('a child deletes f', revision({'': None}, (r0, [delete('f')])))
    kept = store.accepted('a child keeps f', revision({**f(h), 'k': h}, (r0, [add_file('k', h)])))
    tree = {**f(h), 'k': h}
    store.refused('what is deleted is added again', revision(tree, *two((gone, [add_file('f', h), add_file('k', h)]), (kept, []))), 'Revived "f"')
    store.refused('two edges of different trees', revision(tree, *two((u, [delete('g'), add_file('k', h)]), (kept, [patch('f', h, ha)]))), 'Disagree "f"')
    l = store.accepted('another child patches', revision({**f(ha), 'l': h}, (r0, [patch('f', h, ha), add_file('l', h)][::-1])))
    back = store.accepted('a merge that turns a patch back', revision({**f(h), 'g': h, 'l': h}, *two((l, [add_file('g', h), patch('f', ha, h)]), (u, [add_file('l', h)]))))
    store.shows('a content that the merge alone made', ['get_content_changed', back, 'f'], [[('content_mark', bracketed(back))]])


def attributes(folder):
    store = Store(folder, 'attributes')
    tree, key = {'': None}, lambda value: {'': [('k', value)]}
    base = store.accepted('a root with an attribute', revision(tree, ('', [add_dir(''), set_attr('', 'k', 'v')]), attributes=key('v')))
    live = [('k', 'v', [base])]
    store.answers('an attribute has its mark', ['get_roster', base], 0, roster(('', None, (base, ''), [base], [], live)))
    h = store.file(b'abc')
    gone = store.accepted('it is cleared', revision(tree, (base, [clear('', 'k')])))
    cleared = store.accepted('and cleared elsewhere', revision({**tree, 'x': h}, (base, [add_file('x', h), clear('', 'k')])))
    store.answers('a cleared attribute keeps its marks', ['get_roster', gone], 0, roster(('', None, (base, ''), [base], [], [('k', None, [gone])])))
    both = store.accepted('a merge of both', revision({**tree, 'x': h}, *two((gone, [add_file('x', h)]), (cleared, []))))
    store.answers('a merge has the marks of both', ['get_roster', both], 0,
                  roster(('', None, (base, ''), [base], [], [('k', None, [gone, cleared])]), ('x', h, (cleared, 'x'), [cleared], [cleared], [])))
    moved = store.accepted('a node gets another name', revision({**tree, 'y': h}, (both, [rename('x', 'y')])))
    store.answers('its birth stays, its path is marked', ['get_roster', moved], 0,
                  roster(('', None, (base, ''), [base], [], [('k', None, [gone, cleared])]), ('y', h, (cleared, 'x'), [moved], [cleared], [])))
    anew = store.accepted('it is set anew', revision({**tree, 'y': h}, (moved, [set_attr('', 'k', 'w')]), attributes=key('w')))
    store.answers('a live attribute again', ['get_roster', anew], 0,
                  roster(('', None, (base, ''), [base], [], [('k', 'w', [anew])]), ('y', h, (cleared, 'x'), [moved], [cleared], [])))


def chains(folder):
    store = Store(folder, 'chains')
    contents = [store.file(b'text %d' % i) for i in range(18)]
    tree = {'': None, 'f': contents[0]}
    first = last = store.accepted('the first of a line', revision(tree, ('', [add_dir(''), add_file('f', contents[0])])))
    for i in range(1, 18):
        tree = {'': None, 'f': contents[i]}
        last = store.accepted('number %d of a line' % i, revision(tree, (last, [patch('f', contents[i - 1], contents[i])])))
        if i in (15, 16, 17):
            store.answers('the roster of number %d' % i, ['get_roster', last], 0, roster(('', None, (first, ''), [first], [], []), ('f', contents[i], (first, 'f'), [first], [last], [])))
    kinds = [store.body(5, at)[0] for at in range(18)]
    verdict('sixteen records are a chain, and the next is whole', kinds == [0] + [1] * 15 + [0, 1])
    verdict('the last of a chain stands fifteen above the whole', store.body(5, 15)[9] == 15)
    verdict('the next number is 3 in each record of the log', all(store.body(4, at)[20:28] == (3).to_bytes(8, 'big') for at in range(18)))
    count = [body for kind, name, body in store.records() if (kind, name) == (1, b'count')]
    verdict('the count is 18', count == [(18).to_bytes(8, 'big')])


def main():
    with tempfile.TemporaryDirectory() as folder:
        for test in (lone_root, faulty_texts, changes, merges, attributes, chains):
            test(folder)
    print('%d passed, %d failed' % (passed, failed))
    return 1 if failed else 0


if __name__ == '__main__':
    sys.exit(main())
