#!/usr/bin/env python3
"""Works out the canonical changeset of each case on standard input, written as crates/mtn_cases_merges reads it for `between`,
and prints what that program must print. Each node of either tree is asked what changes of it, and the changes are sorted at the
end; no tree is walked along another. `changesets.py SEED COUNT` prints so many random cases instead."""
import random
import sys

from revisions import add_dir, add_file, clear, delete, patch, rename, set_attr, spell

BIRTHS = '12345'
COMPS = ['a', 'b', 'c', 'a-']


class Node:
    """Parent's name (None at the root), component, content (None of a directory) and attributes, where a cleared one is None."""

    def __init__(self, parent, comp, content, attributes):
        self.parent, self.comp, self.content, self.attributes = parent, comp, content, attributes


def read(lines, which):
    tree = {}
    for line in lines:
        words = line.split(' ')
        if words[0] == which:
            attributes = dict(word.split('=', 1) if '=' in word else (word, None) for word in words[5:])
            parent, comp = (None, None) if words[2] == '-' else (words[2], words[3])
            tree[words[1]] = Node(parent, comp, None if words[4] == 'dir' else '0' + words[4], attributes)
    return tree


def path(tree, name):
    comps = []
    while tree[name].parent is not None:
        comps.append(tree[name].comp)
        name = tree[name].parent
    return tuple(reversed(comps))


def live(tree, name):
    return {key: value for key, value in tree[name].attributes.items() if value is not None} if name in tree else {}


def changeset(old, new):
    """The stanzas of the changes, sorted by kind, path and key."""
    made = []
    for name in set(old) | set(new):
        before = path(old, name) if name in old else None
        after = path(new, name) if name in new else None
        if after is None:
            made.append((1, before, '', delete('/'.join(before))))
            continue
        to = '/'.join(after)
        was, node = old.get(name), new[name]
        if was is None and node.content is None:
            made.append((3, after, '', add_dir(to)))
        elif was is None:
            made.append((4, after, '', add_file(to, node.content * 20)))
        else:
            if (was.parent, was.comp) != (node.parent, node.comp):
                made.append((2, before, '', rename('/'.join(before), to)))
            if was.content != node.content:
                made.append((5, after, '', patch(to, was.content * 20, node.content * 20)))
        had, has = live(old, name), live(new, name)
        made += [(6, after, key, clear(to, key)) for key in had if key not in has]
        made += [(7, after, key, set_attr(to, key, value)) for key, value in has.items() if had.get(key) != value]
    key = lambda change: (change[0], [comp.encode() for comp in change[1]], change[2].encode())
    return [change[3] for change in sorted(made, key=key)]


def attributes(chance):
    states = {key: chance.choice([(), (key,), (key, 'v'), (key, 'w'), (key, '')]) for key in 'kl'}
    return {state[0]: state[1] if len(state) == 2 else None for state in states.values() if state}


def random_tree(chance, directories):
    """A tree of some nodes of the pool, which says of each whether it is a directory."""
    names = chance.sample(sorted(directories), chance.randint((len(directories) + 1) // 2, len(directories)))
    roots = [name for name in names if directories[name]] or [next(name for name in sorted(directories) if directories[name])]
    tree = {roots[0]: Node(None, None, None, attributes(chance))}
    for name in names:
        free = [(parent, comp) for parent in sorted(tree) if tree[parent].content is None for comp in COMPS
                if all((node.parent, node.comp) != (parent, comp) for node in tree.values())]
        if name not in tree and free:
            parent, comp = chance.choice(free)
            tree[name] = Node(parent, comp, None if directories[name] else '0' + chance.choice('67'), attributes(chance))
    return tree


def changed(chance, tree, directories):
    """The tree after a few moves, deletes, new contents and attributes."""
    new = {name: Node(node.parent, node.comp, node.content, dict(node.attributes)) for name, node in tree.items()}
    for _ in range(chance.randint(1, 4)):
        name = chance.choice(sorted(new))
        above = {name}
        while any(node.parent in above and other not in above for other, node in new.items()):
            above |= {other for other, node in new.items() if node.parent in above}
        what = chance.choice(['move', 'move', 'delete', 'content', 'attributes'])
        free = [(parent, comp) for parent in sorted(new) if new[parent].content is None and parent not in above for comp in COMPS
                if all((node.parent, node.comp) != (parent, comp) for node in new.values())]
        if what == 'move' and free:
            new[name].parent, new[name].comp = chance.choice(free)
        elif what == 'delete' and above == {name} and new[name].parent is not None:
            del new[name]
        elif what == 'content' and not directories[name]:
            new[name].content = '0' + chance.choice('67')
        elif what == 'attributes':
            new[name].attributes = attributes(chance)
    return new


def spelled(tree, which):
    for name, node in tree.items():
        words = [which, name, *(['-', '-'] if node.parent is None else [node.parent, node.comp])]
        words.append('dir' if node.content is None else node.content[1:])
        print(' '.join(words + [key if value is None else key + '=' + value for key, value in node.attributes.items()]))


def random_cases(seed, count):
    for number in range(count):
        chance = random.Random(seed * 1000 + number)
        names = chance.sample([birth + ':' + path for birth in BIRTHS for path in ('', 'a', 'a/b')], chance.randint(2, 9))
        directories = {name: chance.random() < 0.6 for name in names}
        directories[names[0]] = True
        old = random_tree(chance, directories)
        new = changed(chance, old, directories) if number % 2 else random_tree(chance, directories)
        print('# random %d' % number)
        spelled(old, 'old')
        spelled(new, 'new')
        print('between')


def main():
    if len(sys.argv) == 3:
        random_cases(int(sys.argv[1]), int(sys.argv[2]))
        return
    for case in sys.stdin.read().split('#')[1:]:
        lines = case.split('\n')
        sys.stdout.write('#' + lines[0] + '\n' + spell(changeset(read(lines, 'old'), read(lines, 'new'))).decode())


if __name__ == '__main__':
    main()
