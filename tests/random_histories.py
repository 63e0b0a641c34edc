#!/usr/bin/env python3
"""Makes random histories, merges among them, and compares each roster that the built program prints with one that is worked
out here over the whole graph: which revisions set a value, and which of these a later one has not overruled. Nothing here
looks at the marks of a parent, as the program does. Revisions are merged by the program too, in both orders of its words and
with random resolutions: its conflicts, its refusals and its texts are those of the model in merges.py. Each history is then
accepted in two more orders, with random certificates in a random order: every command but those that answer in the order of the
log answers alike over all three, before and behind one more revision; heads and branches are those of the whole graph. Then its
packets are those of the model of packet_rows.py, and a second store that reads them leaf by leaf answers alike. Last, `check` finds
every one of its stores whole. Takes a first seed
and how many histories (1 and 3 where not given); ends with 'N passed, M failed'."""
import base64
import contextlib
import os
import random
import sqlite3
import sys
import tempfile

import changesets
import merges
import packet_rows
import revisions
import sessions
from merges import ROOT, Resolution
from revisions import HEAD, Store, add_dir, add_file, clear, delete, manifest, patch, rename, revision, roster, set_attr, sha, spell, two, verdict

CONTENTS = [b'abc', b'a', b'b', b'c', b'']
KEYS = ['k', 'l']
BRANCHES = ['main', 'side', 'a branch', 'none']


class Node:
    """A node of one tree: its name (birth revision and path there), parent's name, own name, content, and attributes, where a
    cleared one is None. A node that the revision at hand adds has the birth ''."""

    def __init__(self, name, parent, comp, content, attributes):
        self.name, self.parent, self.comp, self.content, self.attributes = name, parent, comp, content, attributes

    def copy(self):
        return Node(self.name, self.parent, self.comp, self.content, dict(self.attributes))


def path_of(tree, name):
    node = tree[name]
    if node.parent is None:
        return ''
    above = path_of(tree, node.parent)
    return above + '/' + node.comp if above else node.comp


def paths(tree):
    return {path_of(tree, name): name for name in tree}


def copied(tree):
    return {name: node.copy() for name, node in tree.items()}


def below(tree, name):
    """The node with all that stands below it."""
    found = {name}
    grown = True
    while grown:
        more = {node.name for node in tree.values() if node.parent in found} - found
        found |= more
        grown = bool(more)
    return found


def live(node):
    return {key: value for key, value in node.attributes.items() if value is not None}


class Graph(merges.History):
    """A history as the model of merges takes it, with what it asks again and again worked out once."""

    def __init__(self, history):
        super().__init__([])
        self.parents, self.above, self.known = history.parents, history.above, {}
        for at, tree in history.trees.items():
            self.trees[at] = {name: changesets.Node(node.parent, None if node.parent is None else node.comp, None if node.content is None else '0' + node.content, node.attributes)
                              for name, node in tree.items()}

    def ancestors(self, rev):
        return self.above[rev]

    def is_event(self, rev, scalar):
        if (rev, scalar) not in self.known:
            self.known[rev, scalar] = super().is_event(rev, scalar)
        return self.known[rev, scalar]


class History:
    def __init__(self, store, chance):
        self.store, self.chance = store, chance
        self.ids, self.parents, self.trees, self.above, self.texts = [], {}, {}, {}, {}
        for data in CONTENTS:
            store.file(data)

    # What changes.

    def some_content(self):
        return sha(self.chance.choice(CONTENTS))

    def add(self, tree):
        """Adds a node below some directory."""
        parent = self.chance.choice([node for node in tree.values() if node.content is None])
        comp = self.chance.choice('abcdefgh')
        at = path_of(tree, parent.name)
        path = at + '/' + comp if at else comp
        if path in paths(tree):
            return
        content = self.some_content() if self.chance.random() < 0.7 else None
        attributes = {'k': 'new'} if self.chance.random() < 0.2 else {}
        tree[('', path)] = Node(('', path), parent.name, comp, content, attributes)

    def remove(self, tree):
        old = [name for name, node in tree.items() if node.parent is not None and name[0] != '']
        if old:
            gone = below(tree, self.chance.choice(old))
            if all(name[0] != '' for name in gone):
                for name in gone:
                    del tree[name]

    def move(self, tree):
        old = [node for node in tree.values() if node.parent is not None and node.name[0] != '']
        if not old:
            return
        node = self.chance.choice(old)
        under = below(tree, node.name)
        targets = [other for other in tree.values() if other.content is None and other.name not in under and other.name[0] != '']
        target = self.chance.choice(targets)
        comp = self.chance.choice('abcdefgh')
        at = path_of(tree, target.name)
        if (at + '/' + comp if at else comp) not in paths(tree) and not any(name[0] == '' for name in under):
            node.parent, node.comp = target.name, comp

    def edit(self, tree):
        old = [node for node in tree.values() if node.name[0] != '']
        node = self.chance.choice(old)
        if node.content is not None and self.chance.random() < 0.6:
            node.content = self.some_content()
        else:
            key = self.chance.choice(KEYS)
            if node.attributes.get(key) is not None and self.chance.random() < 0.4:
                node.attributes[key] = None
            else:
                node.attributes[key] = self.chance.choice(['v', 'w'])

    def vary(self, tree):
        # (what is added comes last, so that every other change is of a node that was there)
        for _ in range(self.chance.choice([0, 1, 1, 2, 3])):
            self.chance.choice([self.remove, self.move, self.edit, self.edit, self.edit])(tree)
        for _ in range(self.chance.choice([0, 0, 1, 2])):
            self.add(tree)

    # How it is written.

    def changes(self, old, new):
        """What leads from one tree to another, as the writer orders it."""
        where = {name: path for path, name in paths(new).items()}
        was = {name: path for path, name in paths(old).items()} if old else {}
        order = lambda path: [part.encode() for part in path.split('/')] if path else []
        gone = sorted((was[name] for name in was if name not in new), key=order)
        moved = sorted(((was[name], where[name]) for name in was if name in new and (old[name].parent, old[name].comp) != (new[name].parent, new[name].comp)), key=lambda pair: order(pair[0]))
        added = sorted((where[name] for name in new if name not in was), key=order)
        found = paths(new)
        stanzas = [delete(path) for path in gone] + [rename(path, to) for path, to in moved]
        stanzas += [add_dir(path) for path in added if new[found[path]].content is None]
        stanzas += [add_file(path, new[found[path]].content) for path in added if new[found[path]].content is not None]
        kept = sorted((where[name] for name in new if name in was), key=order)
        stanzas += [patch(path, old[found[path]].content, new[found[path]].content) for path in kept if old[found[path]].content != new[found[path]].content]
        all_paths = sorted(found, key=order)
        before = lambda path: live(old[found[path]]) if found[path] in was else {}
        stanzas += [clear(path, key) for path in all_paths for key in sorted(before(path)) if key not in live(new[found[path]])]
        stanzas += [set_attr(path, key, value) for path in all_paths for key, value in sorted(live(new[found[path]]).items()) if before(path).get(key) != value]
        return stanzas

    def spelled(self, tree, parents):
        """The text of a revision, with the shape and the attributes of its tree."""
        shape = {path: tree[name].content for path, name in paths(tree).items()}
        attributes = {path: sorted(live(tree[name]).items()) for path, name in paths(tree).items()}
        edges = [(parent, self.changes(self.trees[parent], tree)) for parent in parents] or [('', self.changes({}, tree))]
        return revision(shape, *(edges if len(edges) == 1 else two(*edges)), attributes=attributes), shape, attributes

    def commit(self, tree, parents):
        for name, node in tree.items():
            # (what is set and cleared in one revision was never there)
            known = {key for parent in parents if name in self.trees[parent] for key in self.trees[parent][name].attributes}
            node.attributes = {key: value for key, value in node.attributes.items() if value is not None or key in known}
        text, shape, attributes = self.spelled(tree, parents)
        made = sha(text)
        if made in self.trees:
            return
        self.store.accepted('revision %d' % len(self.ids), text)
        named = lambda name: (made, name[1]) if name and name[0] == '' else name
        self.ids.append(made)
        self.texts[made] = text
        self.parents[made] = sorted(parents)
        self.trees[made] = {named(name): Node(named(name), named(node.parent), node.comp, node.content, node.attributes) for name, node in tree.items()}
        self.above[made] = {made}.union(*(self.above[parent] for parent in parents)) if parents else {made}
        self.compare(made, shape, attributes)

    # The kinds of revisions.

    def root(self):
        tree = {('', ''): Node(('', ''), None, '', None, {})}
        for _ in range(self.chance.choice([2, 4, 6])):
            self.add(tree)
        self.commit(tree, [])

    def child(self):
        parent = self.chance.choice(self.ids[-6:])
        tree = copied(self.trees[parent])
        self.vary(tree)
        self.commit(tree, [parent])

    def merge(self):
        left, right = self.chance.choice(self.ids[-8:]), self.chance.choice(self.ids[-8:])
        if left == right:
            return
        a, b = self.trees[left], self.trees[right]
        # A node that one side deleted stays away.
        stays = lambda name, own, other, side: name in own and (name in other or name[0] not in self.above[side])
        tree = {name: node.copy() for name, node in a.items() if stays(name, a, b, right)}
        for name in sorted(b, key=lambda name: path_of(b, name)):
            if name in tree and self.chance.random() < 0.5:
                self.take_slot(tree, b[name])
            elif name not in tree and stays(name, b, a, left):
                tree[name] = b[name].copy()
        tree = self.sane(tree)
        if tree is None:
            return
        for name, node in tree.items():
            if name in a and name in b:
                self.mix(node, a[name], b[name])
        if self.chance.random() < 0.3:
            self.vary(tree)
        if self.sane(tree) is None or any(name[0] != '' and name not in a and name not in b for name in tree):
            return
        self.commit(tree, [left, right])

    # Merges by the program.

    def try_merge(self):
        """Merges two revisions by the program; where conflicts are left, with random resolutions too."""
        left, right = sorted(self.chance.sample(self.ids[-10:], 2)) if len(self.ids) > 1 else self.ids * 2
        for older, newer in ((left, right), (right, left)):
            if older in self.above[newer]:
                self.merged(left, right, 1, ('refused Related %s %s\n' % (older, newer)).encode())
                return
        nodes, pending = merges.decided(Graph(self), left, right)
        found = merges.conflicts(nodes, pending)
        shown = merges.text(left, right, found)
        for words in ((left, right), (right, left)):
            self.store.answers('conflicts of %s and %s' % words, ['show_conflicts', *words], 0, shown.decode())
        self.settled(left, right, nodes, pending, found, None)
        for _ in range(4 if found else 1):
            resolutions = self.resolutions(nodes, pending, found)
            faults = [(number, resolution.fault(nodes, pending, found)) for number, resolution in enumerate(resolutions, 2)]
            faults = ['%s %d' % (fault, number) for number, fault in faults if fault is not None]
            faults += ['UnknownFile ' + resolution.given for resolution in resolutions if resolution.kind == 'content' and resolution.given == sha(b'none')]
            text = spell([HEAD] + [resolution.stanza() for resolution in resolutions])
            if faults:
                self.merged(left, right, 1, ('refused %s\n' % faults[0]).encode(), text)
            else:
                new, still = merges.overridden(nodes, pending, resolutions)
                self.settled(left, right, new, still, merges.conflicts(new, still), text)

    def merged(self, left, right, status, output, resolved=None):
        """Both orders of the words have this status and this output; without success the store is as it was."""
        before = self.store.records() if status else None
        for words in ((left, right), (right, left)):
            ended = self.store.ask('merge', *([] if resolved is None else ['--resolve']), *words, given=resolved or b'')
            verdict('merge of %s and %s with %r: %r, not %r' % (*words, resolved, ended, (status, output)), ended == (status, output, b''))
        verdict('and nothing is kept', before is None or self.store.records() == before)

    def settled(self, left, right, nodes, pending, found, resolved):
        """Decisions come to these conflicts, or to a revision that is put."""
        if found:
            self.merged(left, right, 3, merges.text(left, right, found), resolved)
            return
        tree = self.tree_of(nodes)
        text, _, _ = self.spelled(tree, [left, right])
        self.merged(left, right, 0, sha(text).encode() + b'\n', resolved)
        self.store.answers('the text of a merge', ['get_revision', sha(text)], 0, text.decode())
        self.commit(tree, [left, right])

    def tree_of(self, nodes):
        """The tree of decisions without conflicts; what is reborn has its name from where it stands now."""
        def path(name):
            above, comp = nodes[name].slot[0]
            return '' if above is None else '/'.join(filter(None, [path(above), comp]))
        names = {name: ('', path(name)) if decision.reborn else name for name, decision in nodes.items()}
        tree = {}
        for name, decision in nodes.items():
            above, comp = decision.slot[0]
            attributes = {key: values[0] for key, values in decision.attributes.items()}
            tree[names[name]] = Node(names[name], None if above is None else names[above], comp or '', None if decision.content is None else decision.content[0], attributes)
        return tree

    def resolutions(self, nodes, pending, found):
        """One or two for each of most conflicts, and at times one that speaks of something else; no two speak of the same."""
        made = []
        directories = [name for name, decision in nodes.items() if decision.content is None]
        for title, item in found:
            if self.chance.random() < 0.9:
                made += self.resolution(title, item, directories)
        if self.chance.random() < 0.15:
            name = self.chance.choice([*nodes, *pending, (sha(b'none'), 'n')])
            made.append(self.chance.choice([Resolution('drop', name), Resolution('keep', name), Resolution('content', name, given=sha(b'a')), Resolution('attr_clear', name, 'k'),
                                            Resolution('slot', name, given=(self.chance.choice([*nodes, name]), 'z')), Resolution('slot', name, given=ROOT)]))
        self.chance.shuffle(made)
        apart = {('life' if resolution.kind in ('drop', 'keep') else resolution.kind[:4], resolution.name, resolution.key): resolution for resolution in made}
        return list(apart.values())

    def resolution(self, title, item, directories):
        if item is None:
            return [Resolution('slot', self.chance.choice(directories), given=ROOT)] if directories else []
        name, key, *_ = item
        place = Resolution('slot', name, given=(self.chance.choice(directories), self.chance.choice('abcdefghijklmnop'))) if directories else Resolution('drop', name)
        if title == 'attribute':
            return [Resolution('attr_clear', name, key) if self.chance.random() < 0.3 else Resolution('attr_set', name, key, self.chance.choice(['v', 'x']))]
        if title == 'content':
            return [Resolution('content', name, given=sha(b'none') if self.chance.random() < 0.1 else self.some_content())]
        if title == 'dropped_modified':
            return self.chance.choice([[Resolution('drop', name)], [Resolution('keep', name)], [Resolution('keep', name), place]])
        return [Resolution('drop', name) if self.chance.random() < 0.3 else place]

    def take_slot(self, tree, node):
        held = tree[node.name]
        held.parent, held.comp = node.parent, node.comp

    def mix(self, node, left, right):
        if node.content is not None:
            node.content = self.chance.choice([left.content, right.content, left.content, self.some_content()])
        for key in {**left.attributes, **right.attributes}:
            node.attributes[key] = self.chance.choice([left.attributes.get(key), right.attributes.get(key)])

    def sane(self, tree):
        """The tree without nodes whose parents are gone, of two nodes in one place only the first; None if it is none."""
        roots = [name for name, node in tree.items() if node.parent is None]
        if len(roots) != 1:
            return None
        kept = {roots[0]: tree[roots[0]]}
        taken = set()
        grown = True
        while grown:
            grown = False
            for name, node in tree.items():
                if name not in kept and node.parent in kept and kept[node.parent].content is None and (node.parent, node.comp) not in taken:
                    kept[name] = node
                    taken.add((node.parent, node.comp))
                    grown = True
        return kept

    # The whole graph.

    def value(self, at, scalar):
        """The value of a scalar in a revision, in a tuple, or None where it is not there."""
        kind, name, key = scalar
        node = self.trees[at].get(name)
        if node is None:
            return None
        if kind == 'slot':
            return ((node.parent, node.comp),)
        if kind == 'content':
            return (node.content,)
        return (node.attributes[key],) if key in node.attributes else None

    def marked(self, at, scalar, known):
        """Whether the revision set the value: no parent has the scalar, or its value is none of theirs, or it is that of one
        parent where the other has another value and knows of an event that this one does not."""
        if at not in known:
            own = self.value(at, scalar)
            values = {parent: self.value(parent, scalar) for parent in self.parents[at]}
            have = [parent for parent in values if values[parent] is not None]
            if own is None:
                known[at] = False
            elif not have or all(values[parent] != own for parent in have):
                known[at] = True
            else:
                known[at] = any(values[q] == own and values[p] != own and any(self.marked(m, scalar, known) for m in self.above[p] - self.above[q])
                                for p in have for q in have)
        return known[at]

    def marks(self, at, scalar, known):
        own = self.value(at, scalar)
        found, seen, todo = set(), set(), [at]
        while todo:
            here = todo.pop()
            if here in seen or self.value(here, scalar) != own:
                continue
            seen.add(here)
            if self.marked(here, scalar, known):
                found.add(here)
            else:
                todo.extend(self.parents[here])
        return sorted(found)

    def compare(self, at, shape, attributes):
        tree = self.trees[at]
        nodes = []
        for path, name in sorted(paths(tree).items(), key=lambda pair: [part.encode() for part in pair[0].split('/')] if pair[0] else []):
            node = tree[name]
            of = lambda kind, key=None: self.marks(at, (kind, name, key), {})
            keys = [(key, value, of('attr', key)) for key, value in sorted(node.attributes.items())]
            nodes.append((path, node.content, name, of('slot'), of('content') if node.content is not None else [], keys))
        self.store.answers('the roster of revision %d' % len(self.ids), ['get_roster', at], 0, roster(*nodes))
        self.store.answers('the manifest of revision %d' % len(self.ids), ['get_manifest_of', at], 0, manifest(shape, attributes).decode())


    # Other orders.

    def another_order(self, chance):
        """The revisions in an order of acceptance, parents first."""
        left, order = list(self.ids), []
        while left:
            order.append(chance.choice([at for at in left if not set(self.parents[at]) & set(left)]))
            left.remove(order[-1])
        return order

    def certify(self, chance):
        """Random certificates, as requests, and the members of each branch that they name."""
        asked, members = [], {}
        for key in 'ab':
            asked.append(('key', sha(key.encode()), key + '@example'))
        for at in self.ids:
            for _ in range(chance.choice([0, 1, 1, 3])):
                name, value = chance.choice([('branch', chance.choice(BRANCHES[:3])), ('branch', chance.choice(BRANCHES[:3])), ('author', 'somebody')])
                signed = chance.choice([[], ['--sig=YWJj']])
                asked.append(('cert', '--key=' + sha(chance.choice('abc').encode()), *signed, at, name, value))
                if name == 'branch':
                    members.setdefault(value, set()).add(at)
        return asked, members

    def heads(self, members):
        """The members that no other member descends from."""
        return sorted(at for at in members if not any(at != other and at in self.above[other] for other in members))

    def questions(self, chance):
        """Every command that does not answer in the order of the log, about each revision, and about one that is not there."""
        asked = [[word] for word in ('leaves', 'roots', 'graph', 'branches')] + [['heads', branch] for branch in BRANCHES]
        asked += [['get_file', sha(data)] for data in CONTENTS + [b'none']]
        asked += [[word, *self.ids] for word in ('ancestors', 'descendents', 'common_ancestors', 'erase_ancestors')]
        for at in self.ids + [sha(b'none')]:
            other = chance.choice(self.ids)
            asked += [[word, at] for word in ('get_revision', 'get_manifest_of', 'get_roster', 'parents', 'children', 'ancestors', 'descendents', 'certs')]
            asked += [[word, at, other] for word in ('common_ancestors', 'erase_ancestors', 'ancestors', 'descendents', 'show_conflicts')]
            for path in sorted(paths(self.trees[at])) if at in self.trees else ['']:
                asked += [['get_content_changed', at, path], ['get_corresponding_path', at, path, other]]
        return asked

    def accepted(self, order):
        """A session that puts the revisions in this order."""
        return b''.join(sessions.request('put_file', data) for data in CONTENTS) + b''.join(sessions.request('put_revision', self.texts[at]) for at in order)

    def compare_orders(self, folder, number):
        chance = random.Random(number)
        asked = b''.join(sessions.request(*words) for words in self.questions(chance))
        last = self.ids[-1]
        # One more revision is put behind the questions, and one that no order accepts; then they are asked again.
        merged = b''.join(sessions.request('merge', at, chance.choice(self.ids)) for at in self.ids)
        merged += b''.join(sessions.request('merge_heads', '--author=a', '--date=d', '--key=' + sha(b'a'), branch) for branch in BRANCHES)
        # A commit, and packets: a new file, a revision and a certificate.
        merged += sessions.request('commit', '--author=a', '--branch=' + BRANCHES[0], '--changelog=c', '--date=d', '--key=' + sha(b'a'), self.texts[last])
        merged += sessions.request('read', packet_rows.fdata(b'a new content') + packet_rows.rdata(self.texts[last]) + packet_rows.rcert(self.ids[0], b'branch', sha(b'b'), b'read'))
        # Certificates of revisions that every order has accepted.
        certificates, members = self.certify(chance)
        certificates = [words for words in certificates if last not in words]
        members = {branch: of - {last} for branch, of in members.items() if of - {last}}
        looked = [b'%s\n' % branch.encode() for branch in sorted(members)]
        told = sessions.answers((0, b''.join(looked)), *((0, b''.join(b'%s\n' % at.encode() for at in self.heads(members.get(branch, set())))) for branch in BRANCHES))
        grown = asked + sessions.request('put_revision', self.texts[last]) + sessions.request('put_revision', b'no revision') + merged + asked
        orders = [[at for at in order if at != last] for order in (self.ids, self.another_order(chance), self.another_order(chance))]
        answers = []
        for at, order in enumerate(orders):
            store = os.path.join(folder, 'order%d-%d' % (number, at))
            put = sessions.session(store, self.accepted(order))
            verdict('history %d is accepted in order %d' % (number, at), put[0] == 0 and put[1].count(b':l:1:0') == len(CONTENTS) + len(order))
            said = sessions.session(store, b''.join(sessions.request(*words) for words in chance.sample(certificates, len(certificates))))
            verdict('history %d has its certificates in order %d' % (number, at), said[0] == 0 and said[1].count(b':l:1:0') == len(certificates))
            seen = sessions.session(store, sessions.request('branches') + b''.join(sessions.request('heads', branch) for branch in BRANCHES))
            verdict('history %d has its heads in order %d: %r' % (number, at, seen), seen == (0, told, b''))
            answers.append(sessions.session(store, grown))
        verdict('history %d has more than one order' % number, orders[1] != orders[0] or orders[2] != orders[0])
        for at in (1, 2):
            verdict('history %d answers alike in order %d' % (number, at), answers[at] == answers[0] and answers[0][0] == 0 and len(answers[0][1]) > 1000)

    # Packets.

    def told(self, certificates):
        """What a store holds that accepted the revisions in their order, with these certificates."""
        held = packet_rows.Held()
        held.files, held.log = {sha(data): data for data in CONTENTS}, {at: self.texts[at] for at in self.ids}
        for words in certificates:
            if words[0] == 'cert':
                _, key, *signed, at, name, value = words
                held.certs.add((at, name.encode(), key[len('--key='):].encode(), value.encode(), base64.b64decode(''.join(signed)[len('--sig='):])))
        return held

    def compare_packets(self, folder, number):
        chance = random.Random(number)
        first, second = Store(folder, 'sends%d' % number), Store(folder, 'reads%d' % number)
        certificates, _ = self.certify(chance)
        asked = lambda requests: b''.join(sessions.request(*words) for words in requests)
        put = sessions.session(first.path, self.accepted(self.ids) + asked(certificates))
        verdict('history %d is sent by a store that has it' % number, put[1].count(b':l:1:0') == len(CONTENTS) + len(self.ids) + len(certificates))
        sends = self.told(certificates)
        wanted = [(chance.choice(self.ids), *chance.sample(self.ids, chance.choice([0, 0, 1, 2, 3]))) for _ in range(30)]
        sent = sessions.session(first.path, asked(['packets', *words] for words in wanted))
        verdict('history %d has its packets' % number, sent == (0, sessions.answers(*((0, sends.sent(*words)) for words in wanted)), b''))
        self.read_leaves(first, second, chance, number)
        verdict('the keys of history %d get their names' % number, sessions.session(second.path, asked(words for words in certificates if words[0] == 'key'))[0] == 0)
        brought = {content for text in self.texts.values() for content in packet_rows.contents_of(text)}
        questions = asked(words for words in self.questions(chance) if words[0] != 'get_file' or words[1] in brought)
        questions += asked(['merge', at, chance.choice(self.ids)] for at in self.ids) + questions
        answers = [sessions.session(store.path, questions) for store in (first, second)]
        verdict('history %d answers alike where it was read' % number, answers[1] == answers[0] and answers[0][0] == 0 and len(answers[0][1]) > 1000)

    def read_leaves(self, first, second, chance, number):
        """One store reads what the other sends of each leaf, without what it has of some earlier ones, and once more."""
        leaves, reads = [at for at in self.ids if not any(at in parents for parents in self.parents.values())], packet_rows.Held()
        chance.shuffle(leaves)
        for at, leaf in enumerate(leaves):
            have = chance.sample(leaves[:at], chance.randint(0, at))
            text = first.ask('packets', leaf, *have)[1]
            for _ in range(2):
                line, refused = reads.read(text)
                ended = second.ask('read', given=text)
                verdict('leaf %d of history %d is read: %r' % (at, number, ended), not refused and ended == (0, line.encode(), b''))
        verdict('all of history %d is read' % number, set(reads.log) == set(self.ids))

    def check(self, folder, number):
        """Every store of this history is whole, to `check` and to sqlite3; so is one in memory that reads its packets."""
        stores = [self.store] + [Store(folder, name % number) for name in ('sends%d', 'reads%d')]
        stores += [type('Other', (Store,), {'__init__': lambda self, path=os.path.join(folder, 'order%d-%d' % (number, at)): setattr(self, 'path', path)})() for at in range(3)]
        for store in stores:
            with contextlib.closing(sqlite3.connect(store.path)) as records:
                log, = records.execute('SELECT count(*) FROM kept WHERE kind = 4').fetchone()
                whole = records.execute('PRAGMA integrity_check').fetchall()
            ended = store.ask('check')
            verdict('%s is whole: %r' % (store.path, ended), ended == (0, b'ok %d\n' % log, b'') and whole == [('ok',)] and log >= len(self.ids))
        sent = b''.join(self.store.ask('packets', at)[1] for at in self.ids)
        read = sessions.session('-', sessions.request('read', sent) + sessions.request('check'))
        verdict('history %d is whole in memory: %r' % (number, read), read[0] == 0 and read[1].endswith(sessions.framed(1, 0, b'ok %d\n' % len(self.ids))))


def main():
    seed, count = (int(word) for word in (sys.argv[1:] + ['1', '3'][len(sys.argv) - 1:])[:2])
    with tempfile.TemporaryDirectory() as folder:
        for number in range(seed, seed + count):
            history = History(Store(folder, 'seed%d' % number), random.Random(number))
            history.root()
            for _ in range(30):
                history.chance.choice([history.child, history.child, history.merge, history.try_merge])()
            verdict('history %d has merges' % number, any(len(parents) == 2 for parents in history.parents.values()))
            history.compare_orders(folder, number)
            history.compare_packets(folder, number)
            history.check(folder, number)
    print('%d passed, %d failed' % (revisions.passed, revisions.failed))
    return 1 if revisions.failed else 0


if __name__ == '__main__':
    sys.exit(main())
