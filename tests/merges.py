#!/usr/bin/env python3
"""Works out what a merge of two revisions decides, its conflicts, their text and its tree, for each case on standard input,
written as crates/mtn_cases_merges reads it, and prints what that program must print. No mark set is made: whether a side wins
is asked of the events in the whole graph, and each list of conflicts of all decisions. `merges.py SEED COUNT` prints so many
random cases instead."""
import itertools
import random
import sys

from changesets import Node, attributes, read, spelled
from revisions import HEAD, bracketed, quoted, spell

ROOT = (None, None)
COMPS = ['a', 'b', 'c', '_MTN']


def parts(name):
    """The birth of a node and its path there. A case writes both as one word, in which a revision is a digit."""
    return name if isinstance(name, tuple) else tuple(name.split(':', 1))


def order(name):
    birth, path = parts(name)
    return birth, [comp.encode() for comp in path.split('/')] if path else []


def id_value(word):
    """An id as it is printed; a digit stands for the id of twenty such bytes."""
    return bracketed(('0' + word) * 20 if len(word) == 1 else word)


class History:
    """Parents and trees by the digits of their revisions."""

    def __init__(self, lines):
        self.parents, self.trees = {}, {}
        for line in lines:
            words = line.split(' ')
            if words[0] == 'rev':
                self.parents[words[1]] = words[2:]
                self.trees[words[1]] = read(lines, words[1])

    def ancestors(self, rev):
        return {rev}.union(*(self.ancestors(parent) for parent in self.parents[rev]))

    def value(self, rev, scalar):
        """A tuple of one value; none where the revision lacks the scalar."""
        node = self.trees[rev].get(scalar[0])
        if node is None:
            return None
        if scalar[1] == 'slot':
            return ((node.parent, node.comp),)
        if scalar[1] == 'content':
            return None if node.content is None else (node.content[1:],)
        return (node.attributes[scalar[2]],) if scalar[2] in node.attributes else None

    def is_event(self, rev, scalar):
        here = self.value(rev, scalar)
        if here is None:
            return False
        above = {parent: self.value(parent, scalar) for parent in self.parents[rev]}
        had = {parent: value for parent, value in above.items() if value is not None}
        if all(value != here for value in had.values()):
            return True
        return len(had) == 2 and any(
            had[p] != here and had[q] == here and any(self.is_event(m, scalar) for m in self.ancestors(p) - self.ancestors(q))
            for p, q in itertools.permutations(had))

    def wins(self, one, other, scalar):
        return all(m in self.ancestors(one) for m in self.ancestors(other) if self.is_event(m, scalar))

    def lives(self, name, left, right):
        in_left, in_right = name in self.trees[left], name in self.trees[right]
        if in_left and in_right:
            return True
        return (in_left and name[0] not in self.ancestors(right)) or (in_right and name[0] not in self.ancestors(left))

    def verdict(self, scalar, left, right):
        """One value, or two that clash."""
        one, other = self.value(left, scalar), self.value(right, scalar)
        if one == other or other is None:
            return one
        if one is None or self.wins(right, left, scalar) and not self.wins(left, right, scalar):
            return other
        return one if self.wins(left, right, scalar) else one + other


class Decision:
    """Tuples of one value, or of two that clash; no content of a directory."""

    def __init__(self, slot, content, keys, reborn=False):
        self.slot, self.content, self.attributes, self.reborn = slot, content, keys, reborn


def decided(history, left, right):
    """The decisions of the live nodes, and the pending files with the side that has each."""
    nodes, pending = {}, {}
    for name in sorted({*history.trees[left], *history.trees[right]}, key=order):
        verdict = lambda *scalar: history.verdict((name, *scalar), left, right)
        if history.lives(name, left, right):
            sides = [history.trees[rev][name].attributes for rev in (left, right) if name in history.trees[rev]]
            keys = {key: verdict('attr', key) for key in sorted({key for side in sides for key in side})}
            nodes[name] = Decision(verdict('slot'), verdict('content'), keys)
            continue
        has, lacks = (left, right) if name in history.trees[left] else (right, left)
        node = history.trees[has][name]
        if node.content is not None and not history.wins(lacks, has, (name, 'content')):
            pending[name] = ('left' if has == left else 'right', node)
    return nodes, pending


def made_by_hand(lines):
    """The decisions of the lines; none where they are in no order."""
    nodes = {}
    for line in lines:
        word = line.split(' ')[0]
        for name, node in read([line], word).items() if word in ('node', 'reborn') else ():
            keys = {key: (value,) for key, value in node.attributes.items()}
            nodes[name] = Decision(((node.parent, node.comp),), None if node.content is None else (node.content[1:],), keys, word == 'reborn')
    return nodes if list(nodes) == sorted(nodes, key=order) else None


def parent(decision):
    """The decided parent; none where the slot is the root's or clashes."""
    return decision.slot[0][0] if len(decision.slot) == 1 else None


def returns(nodes, name):
    above = name
    for _ in nodes:
        above = parent(nodes[above]) if above in nodes else None
        if above == name:
            return True
    return False


def conflicts(nodes, pending):
    """Pairs of a list's name and an item: the node, its key, and what left and right have."""
    slots = {name: decision.slot[0] for name, decision in nodes.items() if len(decision.slot) == 1}
    roots = {name for name, slot in slots.items() if slot == ROOT}
    at = lambda slot: ('at', slot)
    made = [] if roots else [('missing_root', None)]
    listed = lambda title, names: made.extend((title, (name, None, at(slots[name]), None)) for name in names)
    listed('invalid_name', (name for name in slots if slots[name][1] == '_MTN' and slots[name][0] in roots))
    listed('directory_loop', (name for name in slots if returns(nodes, name)))
    listed('orphaned_node', (name for name in slots if slots[name] != ROOT and slots[name][0] not in nodes))
    made += [('multiple_name', (name, None, *map(at, decision.slot))) for name, decision in nodes.items() if len(decision.slot) == 2]
    listed('duplicate_name', (name for name in slots if list(slots.values()).count(slots[name]) > 1))
    made += [('attribute', (name, key, *(('attr', value) for value in values)))
             for name, decision in nodes.items() for key, values in decision.attributes.items() if len(values) == 2]
    made += [('content', (name, None, *(('content', content) for content in decision.content)))
             for name, decision in nodes.items() if decision.content is not None and len(decision.content) == 2]
    for name, (side, node) in pending.items():
        content = ('content', node.content[1:])
        made.append(('dropped_modified', (name, None, *((content, None) if side == 'left' else (None, content)))))
    return made


class Resolution:
    """What is resolved of a node: 'drop', 'keep', 'slot', 'content', 'attr_set' or 'attr_clear'; the key of an attribute; and the
    slot, the content or the value that it gets."""

    def __init__(self, kind, name, key=None, given=None):
        self.kind, self.name, self.key, self.given = kind, name, key, given

    def stanza(self):
        node = node_values(self.name)
        if self.kind == 'slot':
            above, comp = self.given
            return [('slot', *node), ('into', *(('[]', '""') if above is None else node_values(above))), ('name', quoted(comp or ''))]
        if self.kind == 'content':
            return [('content', *node), ('pick', id_value(self.given))]
        if self.kind == 'attr_set':
            return [('attr_set', *node, quoted(self.key)), ('value', quoted(self.given))]
        return [(self.kind, *node, *([quoted(self.key)] if self.kind == 'attr_clear' else []))]

    def fault(self, nodes, pending, found):
        """Why it does not fit these decisions and their conflicts; none where it does."""
        node, given = nodes.get(self.name), self.given
        if node is None and self.name not in pending or self.kind == 'slot' and given != ROOT and given[0] not in nodes:
            return 'UnknownNode'
        if self.kind == 'slot':
            flat = self.name if given == ROOT else given[0]
            if flat not in nodes or nodes[flat].content is not None:
                return 'NotADirectory'
        if self.kind in ('drop', 'slot'):
            fits = any(title not in ('attribute', 'content') for title, _ in found)
        elif self.kind == 'keep':
            fits = self.name in pending
        elif self.kind == 'content':
            fits = node is not None and node.content is not None and len(node.content) == 2
        else:
            fits = node is not None and len(node.attributes.get(self.key, ())) == 2
        return None if fits else 'NotAConflict'


def overridden(nodes, pending, resolutions):
    """The decisions after resolutions, each of which fits the decisions before any."""
    kinds = {(resolution.kind, resolution.name) for resolution in resolutions}
    new = {name: decision for name, decision in nodes.items() if ('drop', name) not in kinds}
    for name, (_, node) in pending.items():
        if ('keep', name) in kinds:
            keys = {key: (value,) for key, value in node.attributes.items() if value is not None}
            new[name] = Decision(((node.parent, node.comp),), (node.content[1:],), keys, True)
    new = {name: Decision(new[name].slot, new[name].content, dict(new[name].attributes), new[name].reborn) for name in sorted(new, key=order)}
    for resolution in resolutions:
        node = new.get(resolution.name)
        if node is None:
            continue
        if resolution.kind == 'slot':
            node.slot = (resolution.given,)
        elif resolution.kind == 'content':
            node.content = (resolution.given,)
        elif resolution.kind in ('attr_set', 'attr_clear'):
            node.attributes[resolution.key] = (resolution.given,)
    left = {name: what for name, what in pending.items() if ('drop', name) not in kinds and ('keep', name) not in kinds}
    return new, left


def slot_words(slot):
    return '- -' if slot == ROOT else ' '.join(slot)


def attr_word(key, value):
    return key if value is None else key + '=' + value


def told(nodes, pending):
    for name, decision in nodes.items():
        words = ['reborn' if decision.reborn else 'node', name, '|'.join(map(slot_words, decision.slot))]
        words.append('dir' if decision.content is None else '|'.join(decision.content))
        yield ' '.join(words + ['|'.join(attr_word(key, value) for value in values) for key, values in decision.attributes.items()])
    for name, (side, node) in pending.items():
        words = [side, name, slot_words((node.parent, node.comp)), node.content[1:]]
        yield ' '.join(words + [attr_word(key, node.attributes[key]) for key in sorted(node.attributes)])


def item_line(title, item):
    if item is None:
        return title
    name, key, *sides = item
    words = [title, name]
    for word, side in zip(('left', 'right'), sides):
        if side is not None:
            words += [word, slot_words(side[1]) if side[0] == 'at' else attr_word(key, side[1]) if side[0] == 'attr' else side[1]]
    return ' '.join(words)


def node_values(name):
    birth, path = parts(name)
    return id_value(birth), quoted(path)


def item_stanza(title, item):
    stanza = [('conflict', quoted(title))]
    if item is None:
        return stanza
    name, key, *sides = item
    stanza.append(('node', *node_values(name)))
    if key is not None:
        stanza.append(('key', quoted(key)))
    alone = sides[1] is None and title != 'dropped_modified'
    for prefix, side in zip(('' if alone else 'left_', 'right_'), sides):
        if side is None:
            continue
        if side[0] == 'at':
            above, comp = side[1]
            stanza.append((prefix + 'parent', *(('[]', '""') if above is None else node_values(above))))
            if title not in ('invalid_name', 'directory_loop'):
                stanza.append((prefix + 'name', quoted(comp or '')))
        elif side[0] == 'content':
            stanza.append((prefix + 'content', id_value(side[1])))
        else:
            stanza.append((prefix + 'cleared', quoted(key)) if side[1] is None else (prefix + 'value', quoted(side[1])))
    return stanza


def text(left, right, found):
    """The text of conflicts."""
    return spell([HEAD, [('left', id_value(left)), ('right', id_value(right))]] + [item_stanza(*conflict) for conflict in found])


def result(nodes, found, new):
    """The lines of the merged tree; none where there is none."""
    flat = lambda name: name in nodes and nodes[name].content is not None
    if found or any(name[0] == new or flat(parent(decision)) or decision.slot[0] == ROOT and flat(name) for name, decision in nodes.items()):
        return None

    def path(name):
        above, comp = nodes[name].slot[0]
        return '' if above is None else '/'.join(filter(None, [path(above), comp]))

    def new_name(name):
        return new + ':' + path(name) if nodes[name].reborn else name
    lines = {}
    for name, decision in nodes.items():
        above, comp = decision.slot[0]
        words = [new_name(name), slot_words(ROOT if above is None else (new_name(above), comp))]
        words.append('dir' if decision.content is None else decision.content[0])
        lines[new_name(name)] = ' '.join(words + [attr_word(key, values[0]) for key, values in decision.attributes.items()])
    return [lines[name] for name in sorted(lines, key=order)]


SETS = [set(), {0}, {1}, {0, 1}]


def choice(equal, left, right, only_left, only_right):
    return 'B' if equal else 'L' if not right & only_right else 'R' if not left & only_left else 'C'


def choices():
    for equal, left, right in itertools.product((False, True), SETS, SETS):
        yield ''.join(choice(equal, left, right, one, other) for one in SETS for other in SETS)


def living():
    for birth, in_left, in_right in itertools.product(range(3), (False, True), (False, True)):
        yield ''.join('1' if in_left and (in_right or birth in one) or in_right and (in_left or birth in other) else '0'
                      for one in SETS for other in SETS)


def answer(lines, line):
    words = line.split(' ')
    if line in ('choices', 'lives'):
        return choices() if line == 'choices' else living()
    if words[0] not in ('decide', 'conflicts', 'none', 'write', 'result'):
        return []
    if any(other.startswith('node ') for other in lines):
        nodes, pending = made_by_hand(lines), {}
    else:
        nodes, pending = decided(History(lines), words[1], words[2])
    if nodes is None:
        return ['no answer']
    found = conflicts(nodes, pending)
    if words[0] == 'decide':
        return told(nodes, pending)
    if words[0] == 'conflicts':
        return [item_line(*conflict) for conflict in found]
    if words[0] == 'none':
        return ['some' if found else 'none']
    if words[0] == 'write':
        return text(words[1], words[2], found).decode().rstrip('\n').split('\n') if words[1] < words[2] else ['no answer']
    return result(nodes, found, words[3]) or ['no answer']


def is_sane(tree):
    roots = [name for name, node in tree.items() if node.parent is None]
    slots = [(node.parent, node.comp) for node in tree.values()]
    if len(roots) != 1 or tree[roots[0]].content is not None or len(set(slots)) != len(slots) or (roots[0], '_MTN') in slots:
        return False
    if any(node.parent is not None and (node.parent not in tree or tree[node.parent].content is not None) for node in tree.values()):
        return False
    nodes = {name: Decision(((node.parent, node.comp),), None, {}) for name, node in tree.items()}
    return not any(returns(nodes, name) for name in nodes)


def copied(tree):
    return {name: Node(node.parent, node.comp, node.content, dict(node.attributes)) for name, node in tree.items()}


def path_of(tree, name):
    above = tree[name].parent
    return '' if above is None else '/'.join(filter(None, [path_of(tree, above), tree[name].comp]))


def edited(chance, tree, rev):
    """A sane tree after a few changes by a revision; None where one of them leaves no sane tree."""
    new = copied(tree)
    for _ in range(chance.randint(2, 5)):
        name = chance.choice(sorted(new))
        node = new[name]
        above = chance.choice([other for other in sorted(new) if new[other].content is None])
        what = chance.choice(['move', 'move', 'pivot', 'delete', 'delete', 'content', 'content', 'attributes', 'add', 'add'])
        if what == 'move':
            node.parent, node.comp = above, chance.choice(COMPS)
        elif what == 'pivot' and node.content is None:
            root = next(other for other in new if new[other].parent is None)
            (new[root].parent, new[root].comp), (node.parent, node.comp) = (name, chance.choice(COMPS)), ROOT
        elif what == 'delete' and all(other.parent != name for other in new.values()):
            del new[name]
        elif what == 'content' and node.content is not None:
            node.content = '0' + chance.choice('678')
        elif what == 'attributes':
            node.attributes = {**dict.fromkeys(node.attributes), **attributes(chance)}
        elif what == 'add':
            new['?'] = Node(above, chance.choice(COMPS), chance.choice([None, '06', '07']), {})
            if not is_sane(new):
                return None
            added = rev + ':' + path_of(new, '?')
            if added in new:
                return None
            new[added] = new.pop('?')
        if not is_sane(new):
            return None
    return new


def joined(chance, history, left, right):
    """A tree that takes each scalar of what lives from some side."""
    new = {}
    for name in {*history.trees[left], *history.trees[right]}:
        sides = [history.trees[rev][name] for rev in (left, right) if name in history.trees[rev]]
        if history.lives(name, left, right) and chance.random() < 0.9:
            slot, content = chance.choice(sides), chance.choice(sides)
            keys = {key: chance.choice([side.attributes[key] for side in sides if key in side.attributes])
                    for key in {key for side in sides for key in side.attributes}}
            new[name] = Node(slot.parent, slot.comp, content.content, {key: keys[key] for key in sorted(keys)})
    return new if is_sane(new) else None


def attempt(chance, history, rev):
    """One more revision; False where what is tried is no sane tree."""
    revs = sorted(history.trees)
    left, right = chance.choice(revs), chance.choice(revs)
    apart = left not in history.ancestors(right) and right not in history.ancestors(left)
    if apart and chance.random() < 0.6:
        tree, parents = joined(chance, history, left, right), [left, right]
    else:
        tree, parents = edited(chance, history.trees[left], rev), [left]
    if tree is None:
        return False
    history.trees[rev], history.parents[rev] = tree, parents
    return True


def random_history(chance):
    history = History([])
    history.parents['1'] = []
    history.trees['1'] = {'1:': Node(None, None, None, {}), '1:a': Node('1:', 'a', None, {}), '1:a/b': Node('1:a', 'b', '06', {}),
                          '1:b': Node('1:', 'b', '06', {'k': 'v'}), '1:c': Node('1:', 'c', None, {})}
    for rev in '234567'[:chance.randint(3, 6)]:
        for _ in range(60):
            if attempt(chance, history, rev):
                break
        else:
            return history
    return history


def random_cases(seed, count):
    number = 0
    for tried in itertools.count():
        chance = random.Random(seed * 100000 + tried)
        history = random_history(chance)
        pairs = [(a, b) for a in history.trees for b in history.trees
                 if a < b and a not in history.ancestors(b) and b not in history.ancestors(a)]
        if not pairs:
            continue
        left, right = chance.choice(pairs)
        if number % 4 and not conflicts(*decided(history, left, right)):
            continue
        print('# random %d' % number)
        for rev in sorted(history.trees):
            print(' '.join(['rev', rev, *history.parents[rev]]))
            spelled(history.trees[rev], rev)
        print('decide %s %s\nconflicts %s %s' % (left, right, left, right))
        print('write %s %s' % (left, right) if number % 4 else 'result %s %s 9' % (left, right))
        number += 1
        if number == count:
            return


def main():
    if len(sys.argv) == 3:
        random_cases(int(sys.argv[1]), int(sys.argv[2]))
        return
    for case in sys.stdin.read().split('#')[1:]:
        lines = case.split('\n')
        print('#' + lines[0])
        for line in lines[1:]:
            for told_line in answer(lines, line):
                print(told_line)


if __name__ == '__main__':
    main()
