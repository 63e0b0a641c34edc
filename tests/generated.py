"""The history that `generate N` makes, by a model of its own: the commands that put the same revisions one by one, their ids,
and the same history for git fast-import."""
from revisions import add_dir, add_file, patch, rename, revision, set_attr, sha, two

FILES = 10
KEY = 'gen:step'


def content(file, number):
    return b'f%d %d\n' % (file, number)


class Generated:
    """Revisions 1, 2 and so on: `commands` are words with their payload, `ids` those of the revisions, `git` the stream."""

    def __init__(self):
        self.directory, self.number = 'd1', 0
        self.contents = {file: content(file, 0) for file in range(FILES)}
        self.steps = {}
        self.left = self.right = ''
        self.commands, self.ids, self.git, self.files, self.merges = [], [], [], 0, 0

    def path(self, file):
        return '%s/f%d' % (self.directory, file)

    def tree(self, contents=None):
        named = self.contents if contents is None else contents
        return {'': None, self.directory: None, **{self.path(file): sha(text) for file, text in named.items()}}

    def attributes(self, steps=None):
        named = self.steps if steps is None else steps
        return {self.path(file): [(KEY, str(step))] for file, step in named.items()}

    def keep(self, text):
        self.files += 1
        self.commands.append((('put_file',), text))

    def put(self, text):
        self.commands.append((('put_revision',), text))
        self.ids.append(sha(text))
        return sha(text)

    def commit(self, parents, changed=b''):
        """One commit for git, whose marks are the numbers."""
        self.git.append(b'commit refs/heads/main\nmark :%d\ncommitter a <a> %d +0000\ndata 1\nx\n' % (self.number, self.number))
        self.git.append(b''.join(b'%s :%d\n' % (word, parent) for word, parent in zip((b'from', b'merge'), parents)) + changed)

    def modify(self, file, text):
        return b'M 100644 inline %s\ndata %d\n%s\n' % (self.path(file).encode(), len(text), text)

    def first(self):
        for file in range(FILES):
            self.keep(content(file, 0))
        changes = [add_dir(''), add_dir(self.directory)] + [add_file(self.path(file), sha(content(file, 0))) for file in range(FILES)]
        self.left = self.right = self.put(revision(self.tree(), ('', changes)))
        self.commit((), b''.join(self.modify(file, content(file, 0)) for file in range(FILES)))

    def patched(self, file):
        """The left side goes on; the tree of the right side has its content as before."""
        self.before = dict(self.contents)
        old, new = self.contents[file], content(file, self.number)
        self.keep(new)
        self.contents[file] = new
        text = revision(self.tree(), (self.left, [patch(self.path(file), sha(old), sha(new))]), attributes=self.attributes())
        self.left = self.put(text)
        self.commit((self.number - 1,), self.modify(file, new))

    def attributed(self, file):
        """The right side goes on."""
        self.old_steps = dict(self.steps)
        self.steps[file] = self.number
        text = revision(self.tree(self.before), (self.right, [set_attr(self.path(file), KEY, str(self.number))]), attributes=self.attributes())
        self.right = self.put(text)
        self.commit((self.number - 2,))

    def joined(self, file):
        """The text of the merge, as the command makes it; it is asked for by its words."""
        from_left = (self.left, [set_attr(self.path(file), KEY, str(self.steps[file]))])
        from_right = (self.right, [patch(self.path(file), sha(self.before[file]), sha(self.contents[file]))])
        text = revision(self.tree(), *two(from_left, from_right), attributes=self.attributes())
        self.commands.append((('merge', self.left, self.right), b''))
        self.ids.append(sha(text))
        self.left = self.right = sha(text)
        self.merges += 1
        self.commit((self.number - 2, self.number - 1), self.modify(file, self.contents[file]))

    def renamed(self):
        old, self.directory = self.directory, 'd%d' % self.number
        text = revision(self.tree(), (self.left, [rename(old, self.directory)]), attributes=self.attributes())
        self.left = self.right = self.put(text)
        self.commit((self.number - 1,), b'R %s %s\n' % (old.encode(), self.directory.encode()))

    def more(self):
        """One revision more."""
        self.number += 1
        file = self.number // 4 % FILES
        if self.number == 1:
            self.first()
        elif self.number % 4 == 2:
            self.patched(file)
        elif self.number % 4 == 3:
            self.attributed(file)
        elif self.number % 4 == 0:
            # The same file as the two before it, which have the next number divided by four.
            self.joined((self.number - 1) // 4 % FILES)
        else:
            self.renamed()

    def summary(self):
        return b'revisions %d\nmerges %d\nfiles %d\nlast %s\n' % (self.number, self.merges, self.files, self.ids[-1].encode())


def generated(count):
    made = Generated()
    for _ in range(count):
        made.more()
    return made
