"""A line of revisions over 200 files, 20 to a directory, each of which patches one file: for mtn and for git."""
from revisions import add_dir, add_file, patch, revision, sha

FILES = 200


def content(file, version):
    return b'file %d, version %d\n' % (file, version)


def history(count):
    """The commands that put so many revisions with their files, each a word and its payload; and the stream for git fast-import."""
    paths = ['d%02d/f%03d' % (file // 20, file) for file in range(FILES)]
    dirs = sorted({path.split('/')[0] for path in paths})
    tree = {'': None, **{path: None for path in dirs}, **{path: sha(content(file, 0)) for file, path in enumerate(paths)}}
    ours, git = [('put_file', content(file, 0)) for file in range(FILES)], []

    def commit(number, changed):
        git.append(b'commit refs/heads/main\ncommitter a <a> %d +0000\ndata 1\nx\n' % number)
        for file, version in changed:
            git.append(b'M 100644 inline %s\ndata %d\n%s\n' % (paths[file].encode(), len(content(file, version)), content(file, version)))

    text = revision(tree, ('', [add_dir('')] + [add_dir(path) for path in dirs] + [add_file(path, tree[path]) for path in paths]))
    ours.append(('put_revision', text))
    commit(0, [(file, 0) for file in range(FILES)])
    for number in range(1, count):
        file = number * 7 % FILES
        ours.append(('put_file', content(file, number)))
        old, new = tree[paths[file]], sha(content(file, number))
        tree[paths[file]] = new
        text = revision(tree, (sha(text), [patch(paths[file], old, new)]))
        ours.append(('put_revision', text))
        commit(number, [(file, number)])
    return ours, b''.join(git)
