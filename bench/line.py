"""The records of a store of revisions in a line, by the formats of docs/FORMATS.md: a root with one attribute that each sets."""
import hashlib


def number(value):
    return value.to_bytes(8, 'big')


def field(text):
    return len(text).to_bytes(4, 'big') + text


def marks(at):
    return (1).to_bytes(4, 'big') + number(at)


def entry(born, value, at):
    """The root, with one attribute that this revision set."""
    node = number(1) + number(0) + born + field(b'') + b'\0' + number(0) + field(b'') + marks(0)
    return node + number(1) + field(b'k') + b'\1' + field(value) + marks(at)


def text_of(parent, value, change):
    manifest = b'format_version "1"\n\n dir ""\nattr "k" "%s"\n' % value
    return b'format_version "1"\n\nnew_manifest [%s]\n\nold_revision [%s]\n\n%s' % (hashlib.sha1(manifest).hexdigest().encode(), parent, change)


def records(count, ids, said=lambda at, made: ()):
    """The records of so many revisions, and more of each; their ids are added to `ids`."""
    for at in range(count):
        value = b'%d' % at
        change = b'  set ""\n attr "k"\nvalue "%s"\n' % value
        text = text_of(ids[-1].hex().encode() if ids else b'', value, change if ids else b'add_dir ""\n\n' + change)
        ids.append(hashlib.sha1(text).digest())
        yield 3, ids[-1], number(at) + text
        yield 4, number(at), ids[-1] + number(2) + (b'\1' + number(at - 1) if at else b'\0')
        entries = number(1) + entry(ids[0], value, at)
        yield 5, number(at), b'\0' + entries if at % 16 == 0 else b'\1' + number(at - 1) + bytes([at % 16]) + number(0) + entries
        yield from said(at, ids[-1])
    yield 1, b'count', number(count)
    yield 1, b'version', b'2'
