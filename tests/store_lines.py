#!/usr/bin/env python3
"""Lines of `mtn_cases_store` that only objects in memory can tell: each command with each of its calls of the keeper failing, generated
histories, checks of damaged stores, and how many records a revision asks for. With a folder it writes them there, asked and answered;
how many calls a command makes, and how many records a revision asks for, is taken from the program of MTN_CASES and has to keep its
bounds."""
import os
import subprocess
import sys

sys.dont_write_bytecode = True
sys.path.insert(0, os.path.dirname(os.path.abspath(__file__)))
sys.path.insert(0, os.path.join(os.path.dirname(os.path.abspath(__file__)), '..', 'bench'))
import generated
import packet_rows
from generated import generated as history
from measure import CASES
from packet_rows import Lines, answering, asking, escaped, record
from revisions import add_dir, add_file, patch, rename, revision, set_attr, sha

KEY, OTHER = '1' * 40, '2' * 40
ONE, TWO = sha(b'abc'), sha(b'a')
ROOT = revision({'': None, 'f': ONE}, ('', [add_dir(''), add_file('f', ONE)]))
LEFT = revision({'': None, 'f': TWO}, (sha(ROOT), [patch('f', ONE, TWO)]))
RIGHT = revision({'': None, 'g': ONE}, (sha(ROOT), [rename('f', 'g')]))
LATER = revision({'': None, 'f': TWO}, (sha(LEFT), [set_attr('f', 'k', 'v')]), attributes={'f': [('k', 'v')]})
SETUP = [(['put_file'], b'abc'), (['put_file'], b'a'), (['put_revision'], ROOT), (['put_revision'], LEFT), (['put_revision'], RIGHT), (['key', KEY, 'k@x'], None),
         (['cert', '--key=' + KEY, sha(LEFT), 'branch', 'main'], None), (['cert', '--key=' + KEY, sha(RIGHT), 'branch', 'main'], None)]
SAID = ['--author=a', '--date=d', '--key=' + KEY]
# Each command once, over these; `read` and `generate` stand with their own lines.
EACH = [(['put_file'], b'b'), (['put_revision'], LATER), (['get_file', ONE], None), (['get_revision', sha(LEFT)], None), (['get_manifest_of', sha(LEFT)], None),
        (['get_roster', sha(LEFT)], None), (['get_content_changed', sha(LEFT), 'f'], None), (['get_corresponding_path', sha(LEFT), 'f', sha(RIGHT)], None),
        (['merge', sha(LEFT), sha(RIGHT)], None), (['show_conflicts', sha(LEFT), sha(RIGHT)], None), (['cert', '--key=' + KEY, sha(ROOT), 'tag', 'first'], None),
        (['certs', sha(LEFT)], None), (['key', OTHER, 'l@x'], None), (['heads', 'main'], None), (['branches'], None),
        (['commit', *SAID, '--branch=side', '--changelog=c'], LATER), (['merge_heads', *SAID, 'main'], None), (['packets', sha(LEFT)], None),
        (['parents', sha(LEFT)], None), (['children', sha(ROOT)], None), (['ancestors', sha(LEFT)], None), (['descendents', sha(ROOT)], None),
        (['common_ancestors', sha(LEFT), sha(RIGHT)], None), (['erase_ancestors', sha(ROOT), sha(LEFT)], None), (['toposort', sha(LEFT), sha(ROOT)], None),
        (['ancestry_difference', sha(LEFT), sha(RIGHT)], None), (['leaves'], None), (['roots'], None), (['graph'], None), (['check'], None)]


def given(commands):
    lines = []
    for words, payload in commands:
        lines += ([] if payload is None else ['give ' + escaped(payload)]) + [asking(words)]
    return lines


def told(lines):
    """What the program answers to lines that ask."""
    return subprocess.run([CASES], input='\n'.join(lines).encode() + b'\n', stdout=subprocess.PIPE, check=True).stdout.decode().splitlines()


def calls_of(commands):
    """How many calls of the keeper these make over a store of their own: from the next one on none of them fails."""
    number = 1
    while any(answer.startswith('6 ') for answer in told(['store plain sha1 %d' % number, *given(commands)])):
        number += 1
    return number - 1


def fails_at_each_call(lines, setup, command, made):
    """The command with its first call failing, then with its second, and so on; nothing is kept until none fails."""
    before = calls_of(setup)
    count = calls_of(setup + [command]) - before
    failing = [str(before + turn * (turn + 1) // 2) for turn in range(1, count + 1)]
    lines.asked += ['store plain sha1 ' + ' '.join(failing), *given(setup), *given([command] * (count + 1))]
    done = told(['store plain sha1', *given(setup + [command])])
    assert done[-1].startswith('0 ') and (made is None or done[-1] == answering(0, made)), done[-1]
    lines.answered += done[:-1] + [answering(6, b'')] * count + done[-1:]


def every_command():
    lines = Lines()
    lines.remark('Each command with each of its calls of the keeper failing in turn: nothing is kept and nothing answered until none fails.')
    for command in EACH:
        fails_at_each_call(lines, SETUP, command, None)
    lines.ends()
    return lines


def generations():
    lines = Lines()
    lines.remark('A history from a number, by its summary. A store with a revision is refused; one with files alone is none.')
    for count in (1, 2, 4, 5, 44):
        lines.asks(['generate', str(count)], 0, history(count).summary(), None, 'store plain sha1')
        lines.asks(['generate', str(count)], 1, b'refused StoreNotEmpty %d\n' % count)
        lines.asks(['check'], 0, b'ok %d\n' % count)
    lines.asks(['put_file'], 0, ONE.encode() + b'\n', b'abc', 'store plain sha1')
    lines.asks(['generate', '4'], 0, history(4).summary())
    lines.remark('Other bytes under the id of one of its files, or of one of its texts, are a collision, and nothing is kept.')
    # Under the toy ident a text has its length as its id.
    lines.asks(['put_file'], 0, b'%040d\n' % 5, b'12345', 'store plain toy')
    lines.asks(['generate', '1'], 1, b'refused Collision %040d\n' % 5)
    lines.finds('%040d' % 5, 'none', 'none', b'count'.hex())
    lines.remark('All of it is kept or nothing, whichever call of the keeper fails.')
    fails_at_each_call(lines, [], (['generate', '4'], None), history(4).summary())
    lines.ends()
    return lines


def checks():
    lines = Lines()
    version = record(1, b'version', b'2')
    lines.remark('A store that is new is whole. A version alone is shown, a file under another id, and a position without a record.')
    lines.asks(['check'], 0, b'ok 0\n', None, 'store plain toy')
    lines.asks(['check'], 8, b'damaged 1 76657273696f6e 32\n', None, 'store plain toy', version)
    lines.asks(['check'], 8, b'damaged 2 %040d 616263\n' % 2, None, 'store plain toy', version, record(1, b'count', bytes(8)), record(2, bytes(19) + b'\2', b'abc'))
    lines.asks(['check'], 8, b'missing 4 0000000000000000\n', None, 'store plain toy', version, record(1, b'count', bytes(7) + b'\1'))
    lines.ends()
    return lines


def reads():
    """How often the keeper is read for a revision."""
    lines = Lines()
    made = history(2000)
    last = made.ids[-1]
    path = made.path(3)
    steps = dict(made.steps)
    steps[3] = 'x'
    child = revision(made.tree(), (last, [set_attr(path, generated.KEY, 'x')]), attributes=made.attributes(steps))
    asked = ['store plain sha1', asking(['generate', '2000']), 'reads', *given([(['put_revision'], child)]), 'reads']
    answers = told(asked)
    count = int(answers[3]) - int(answers[1])
    assert answers[2] == answering(0, sha(child).encode() + b'\n') and count <= 40, (answers, count)
    lines.remark('A child of the last of 2,000 revisions asks for few records: %d here, at most 40.' % count)
    lines.asked, lines.answered = lines.asked + asked, lines.answered + answers
    line = [(['put_file'], b'abc'), (['put_revision'], ROOT)]
    before = ROOT
    for number in range(200):
        before = revision({'': None, 'f': ONE}, (sha(before), [set_attr('f', 'k', str(number))]), attributes={'f': [('k', str(number))]})
        line.append((['put_revision'], before))
    left = revision({'': None, 'f': ONE}, (sha(before), [set_attr('f', 'l', '1')]), attributes={'f': [('k', '199'), ('l', '1')]})
    right = revision({'': None, 'f': ONE}, (sha(before), [set_attr('f', 'm', '1')]), attributes={'f': [('k', '199'), ('m', '1')]})
    merge = revision({'': None, 'f': ONE}, *sorted([(sha(left), [set_attr('f', 'm', '1')]), (sha(right), [set_attr('f', 'l', '1')])]), attributes={'f': [('k', '199'), ('l', '1'), ('m', '1')]})
    asked = ['store plain sha1', *given(line + [(['put_revision'], left), (['put_revision'], right)]), 'reads', *given([(['put_revision'], merge)]), 'reads', asking(['parents', sha(merge)]), 'reads',
             asking(['ancestry_difference', sha(merge), sha(left)]), 'reads']
    answers = told(asked)
    count = int(answers[-5]) - int(answers[-7])
    assert answers[-6] == answering(0, sha(merge).encode() + b'\n') and count <= 43, (answers[-7:], count)
    few = int(answers[-3]) - int(answers[-5])
    assert answers[-4] == answering(0, ''.join(id + '\n' for id in sorted([sha(left), sha(right)])).encode()) and few <= 6, (answers[-5:], few)
    near = int(answers[-1]) - int(answers[-3])
    assert answers[-2] == answering(0, (sha(right) + '\n' + sha(merge) + '\n').encode()) and near <= 12, (answers[-3:], near)
    lines.remark('So does a merge of two children of the last of 202 in a line: %d here, at most 43; its parents: %d, at most 6 with those of the opening; and '
                 'what it has that one of them has not: %d, at most 12.' % (count, few, near))
    lines.asked, lines.answered = lines.asked + asked, lines.answered + answers
    lines.ends()
    return lines


def older():
    """A store of the older form: a lone root with a certificate whose key has a name."""
    lines = Lines()
    field = lambda data: len(data).to_bytes(4, 'big') + data
    text = b'format_version "1"\n\nnew_manifest [%040x]\n\nold_revision []\n\nadd_dir ""\n' % 27
    # Under the toy ident a text has its length as its id.
    root = bytes(19) + bytes([len(text)])
    entry = bytes(7) + b'\1' + bytes(8) + root + field(b'') + b'\0' + bytes(8) + field(b'') + b'\0\0\0\1' + bytes(8) + bytes(8)
    held = root + field(b'branch') + field(b'k@x') + field(b'main') + field(b'')
    records = [record(1, b'count', bytes(7) + b'\1'), record(1, b'version', b'1'), record(3, root, bytes(8) + text), record(4, bytes(8), root + bytes(7) + b'\2\0'),
               record(5, bytes(8), b'\0' + bytes(7) + b'\1' + entry), record(6, held)]
    table = b'format_version "1"\n\n key [%s]\nname "k@x"\n' % KEY.encode()
    head = b'format_version "1"\n'
    lines.remark('A store of the older form is refused to every command, until it is migrated by a table that names its keys.')
    lines.asks(['heads', 'main'], 1, b'refused OldStore 1\n', None, 'store plain toy', *records)
    lines.asks(['check'], 1, b'refused OldStore 1\n')
    lines.asks(['heads'], 2, b'usage\n')
    lines.asks(['migrate'], 1, b'refused BadOrder 1\n', b'')
    lines.asks(['migrate'], 1, b'refused UnknownKey k@x\n', head)
    lines.finds('none', root.hex(), 'none', b'count'.hex())
    lines.asks(['migrate'], 0, b'keys 1\ncerts 1\n', table)
    lines.asks(['heads', 'main'], 0, root.hex().encode() + b'\n')
    lines.asks(['check'], 0, b'ok 1\n')
    lines.asks(['migrate'], 1, b'refused NotOld\n', table)
    lines.remark('A store that is new is not older. In a session a request is refused until the store is migrated.')
    lines.asks(['migrate'], 1, b'refused NotOld\n', head, 'store plain toy')
    refused, done, heads = b'refused OldStore 1\n', b'keys 1\ncerts 1\n', root.hex().encode() + b'\n'
    framed = b''.join(b'%d:m:%d:%s%d:l:1:%d' % (number, len(output), output, number, status) for number, (status, output) in enumerate(((1, refused), (0, done), (0, heads))))
    lines.asks(['stdio'], 0, framed, b'l5:heads4:maine' + b'l7:migrate%d:%se' % (len(table), table) + b'l5:heads4:maine', 'store plain toy', *records)
    lines.remark('A version that is neither is damage, and so is a record of table 6 that is no certificate.')
    lines.asks(['migrate'], 8, b'damaged 1 76657273696f6e 33\n', table, 'store plain toy', *records, record(1, b'version', b'3'))
    lines.asks(['migrate'], 8, b'damaged 6 00 \n', table, 'store plain toy', *records, record(6, b'\0'))
    lines.remark('All of it is put or nothing, whichever call of the keeper fails.')
    for call in range(len(records) + 1, len(records) + 8):
        sets = ['store plain toy %d' % call, *records]
        status, _, output = told([*sets, 'give ' + escaped(table), asking(['migrate'])])[-1].partition(' ')
        lines.asks(['migrate'], int(status), done if status == '0' else b'', table, *sets)
        # The call behind the last one of a migration that is done is the first that looks for a record, and fails.
        lines.finds('none' if status == '6' else 'no answer', root.hex(), 'none' if status == '6' else (root + field(b'branch') + bytes.fromhex(KEY) + field(b'main') + field(b'')).hex(), b'count'.hex())
        if status == '0':
            break
    lines.ends()
    return lines


def main(folder):
    for name in ('asked', 'answered'):
        with open(os.path.join(folder, name), 'w') as file:
            for part in (every_command, generations, checks, older, reads):
                file.write('\n'.join(getattr(part(), name)) + '\n')


if __name__ == '__main__':
    main(sys.argv[1])
