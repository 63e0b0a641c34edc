"""The trees that the benchmarks of merges share, as the lines that `mtn_case_trees` reads, with ids of one digit."""
import random
from tree import tree


def nodes():
    """The parent's name, the component and the kind of each node of the shared tree, shuffled: all born in revision 1."""
    made = {}
    for line in tree():
        path = line.rstrip('/')
        above, _, comp = path.rpartition('/')
        made['1:' + path] = ['1:' + above, comp, 'dir' if line.endswith('/') else '2']
    made['1:'] = ['-', '-', 'dir']
    names = list(made)
    random.shuffle(names)
    return {name: made[name] for name in names}


def spelled(word, made):
    return ''.join('%s %s %s\n' % (word, name, ' '.join(node)) for name, node in made.items()).encode()


def changed(made, count):
    """The same nodes, so many of the files with another content."""
    files = [name for name, node in made.items() if node[2] != 'dir']
    new = dict(made)
    for name in random.sample(files, count):
        new[name] = made[name][:2] + [random.choice('345')]
    return new
