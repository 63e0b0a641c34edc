#!/usr/bin/env python3
"""Sessions of requests through the built program: answers in their frames, inputs that are no list of requests, the histories of
revisions.py, the merges of merged_rows.py, the branches of cert_rows.py and the packets of packet_rows.py as one session each, and
ten thousand requests. Requests are read here by a model of their own. Ends with 'N passed, M failed'."""
import base64
import contextlib
import os
import random
import re
import sqlite3
import subprocess
import sys
import tempfile
import time

sys.dont_write_bytecode = True
sys.path.insert(0, os.path.dirname(os.path.abspath(__file__)))
import cert_rows
import merged_rows
import packet_rows
import revisions
from revisions import MTN, left, sha

passed, failed = 0, 0


def verdict(name, holds):
    global passed, failed
    if holds:
        passed += 1
    else:
        failed += 1
        print('FAILED: ' + name, file=sys.stderr)


def request(*words):
    return b'l' + b''.join(b'%d:%s' % (len(word), word) for word in (w if isinstance(w, bytes) else w.encode() for w in words)) + b'e'


def framed(number, status, text):
    return b'%d:m:%d:%s%d:l:1:%d' % (number, len(text), text, number, status)


def answers(*pairs):
    return b''.join(framed(number, status, text) for number, (status, text) in enumerate(pairs))


def requests_of(data):
    """The requests of an input, or the number of the first that is not whole and right."""
    found, at = [], 0
    while True:
        while data[at:at + 1] in (b' ', b'\n'):
            at += 1
        if at == len(data):
            return found
        words, at = ([], at + 1) if data[at:at + 1] == b'l' else (None, at)
        while words is not None:
            if data[at:at + 1] == b'e' and words:
                at += 1
                break
            size = re.match(rb'(0|[1-9][0-9]*):', data[at:at + 12])
            if not size or int(size[1]) > 268435456 or at + len(size[0]) + int(size[1]) > len(data):
                words = None
                break
            at += len(size[0])
            words.append(data[at:at + int(size[1])])
            at += int(size[1])
        if words is None:
            return len(found) + 1
        found.append(words)


def session(store, data):
    ended = subprocess.run([*MTN, store, 'stdio'], input=data, stdout=subprocess.PIPE, stderr=subprocess.PIPE)
    return ended.returncode, ended.stdout, ended.stderr


def row(name, data, status, output, store='-'):
    """With no output given, each answer has status 0."""
    ended = session(store, data)
    if output is None:
        output = ended[1] if ended[1].count(b':l:1:0') == len(requests_of(data)) else b'an answer has another status'
    verdict('%s: %r' % (name, (ended[0], ended[1][:300], ended[2])), ended == (status, output, b''))


ABC = sha(b'abc').encode()
USAGE = (2, b'usage\n')


def frames():
    row('a file is put, and leaves are asked for', b'l8:put_file3:abcel6:leavese', 0, answers((0, ABC + b'\n'), (0, b'')))
    row('a payload is no word', request('put_file'), 0, answers(USAGE))
    row('three letters are no request', b'l3:abc', 1, b'refused BadRequest 1\n')
    row('no requests', b'', 0, b'')
    row('spaces and LF alone', b' \n \n', 0, b'')
    row('a session in a session', request('stdio'), 0, answers(USAGE))
    row('words before a payload that are none of the command\'s', request('put_file', 'x', 'abc'), 0, answers(USAGE))
    row('a payload of any bytes', request('put_file', b'\xff\n:e'), 0, answers((0, sha(b'\xff\n:e').encode() + b'\n')))
    row('a word that is not UTF-8', request('get_file', b'\xff'), 0, answers(USAGE))
    row('a payload that is empty', request('put_file', ''), 0, answers((0, sha(b'').encode() + b'\n')))
    row('a merge without a payload', request('merge', '--resolve'), 0, answers(USAGE))
    row('a refusal ends no session', request('get_file', ABC) + b'\n' + request('put_file', 'abc') + b' ' + request('get_file', ABC), 0,
        answers((1, b'refused UnknownFile ' + ABC + b'\n'), (0, ABC + b'\n'), (0, b'abc')))
    row('a revision text with a fault', request('put_revision', 'x'), 0, answers((1, b'refused NotText 1\n')))
    ended = subprocess.run([*MTN, '-', 'stdio', '--'], input=request('leaves'), stdout=subprocess.PIPE, stderr=subprocess.PIPE)
    verdict('an end of options is dropped', (ended.returncode, ended.stdout, ended.stderr) == (0, answers((0, b'')), b''))
    for words in (['stdio', 'x'], ['stdio', '--x=y'], ['stdio', '--', '--']):
        ended = subprocess.run([*MTN, '-', *words], input=b'', stdout=subprocess.PIPE, stderr=subprocess.PIPE)
        verdict('%r is outside the grammar' % words, (ended.returncode, ended.stdout) == (2, b'usage\n'))


def bad_inputs(folder):
    whole = b' ' + request('put_file', 'abc') + b'\n' + request('get_file', ABC) + request('leaves')
    kept = os.path.join(folder, 'bad.mtn')
    for cut in range(len(whole)):
        good = requests_of(whole[:cut])
        if isinstance(good, int):
            row('cut off after %d bytes' % cut, whole[:cut], 1, b'refused BadRequest %d\n' % good, kept)
        else:
            verdict('%d bytes are a list of requests' % cut, cut in (0, 1) or len(good) > 0)
    verdict('of a cut input nothing is done', session(kept, request('get_file', ABC))[1] == answers((1, b'refused UnknownFile ' + ABC + b'\n')))
    good = request('leaves')
    for name, bad in [('a leading zero', b'l06:leavese'), ('a size above the limit', b'l268435457:e'), ('a size of twenty digits', b'l18446744073709551622:leavese'),
                      ('a size longer than the rest', b'l7:leavese'), ('no size', b'l:e'), ('a sign', b'l+6:leavese'), ('no words', b'le'),
                      ('an option list', b'o1:a1:bel6:leavese'), ('a capital', b'L6:leavese'), ('a tab', b'\tl6:leavese'), ('a word too much', b'l6:leaves e')]:
        for front in range(3):
            verdict('the model knows %s' % name, requests_of(good * front + bad) == front + 1)
            row('%s behind %d' % (name, front), good * front + bad, 1, b'refused BadRequest %d\n' % (front + 1))


def over_a_file(folder):
    store = os.path.join(folder, 'file.mtn')
    row('a file is put into a store in a file, and leaves are asked for', b'l8:put_file3:abcel6:leavese', 0, answers((0, ABC + b'\n'), (0, b'')), store)
    row('a payload is no word there either', request('put_file'), 0, answers(USAGE), store)
    row('three letters are no request there', b'l3:abc', 1, b'refused BadRequest 1\n', store)
    row('the next session finds the file', request('get_file', ABC), 0, answers((0, b'abc')), store)
    rows = [('put_file', ''), ('put_file', 'abc'), ('put_file', 'abc'), ('get_file', ABC), ('get_file', sha(b'a')), ('heads',)]
    data = b''.join(request(*words) for words in rows)
    row('a store in a file answers as one in memory does', data, *session('-', data)[:2], os.path.join(folder, 'same.mtn'))
    full = os.path.join(folder, 'full.mtn')
    with open('/dev/full', 'wb') as out:
        ended = subprocess.run([*MTN, full, 'stdio'], input=request('put_file', 'abc') + request('put_file', 'x'), stdout=out, stderr=subprocess.PIPE)
    verdict('an output that takes nothing ends a session', (ended.returncode, ended.stderr) == (5, b''))
    row('the request that was being answered is done, and no other', request('get_file', ABC) + request('get_file', sha(b'x')), 0,
        answers((0, b'abc'), (1, b'refused UnknownFile ' + sha(b'x').encode() + b'\n')), full)


def bad_among_good(folder):
    store = os.path.join(folder, 'among.mtn')
    bad = [request('put_file'), request('stdio'), request('stdio', 'l6:leavese'), request('get_file', b'\xff'), request(b'\xff', ABC), request('merge', '--resolve'),
           request('leaves', ''), request('--', 'leaves'), request('get_file', '--x=y', ABC), request('put_file', '--resolve', 'abc'), request('x')]
    bodies = [b'%d \xff' % number for number in range(len(bad))]
    row('requests outside the grammar are answered each, the others beside them', b' '.join(request('put_file', body) + b'\n' + words for body, words in zip(bodies, bad)), 0,
        answers(*(answer for body in bodies for answer in ((0, sha(body).encode() + b'\n'), USAGE))), store)
    row('nothing was lost', b''.join(request('get_file', sha(body)) for body in bodies), 0, answers(*((0, body) for body in bodies)), store)
    held = sqlite3.connect(store)
    verdict('nothing else is held', held.execute('SELECT count(*) FROM kept WHERE kind = 2').fetchone() == (len(bodies),))
    held.close()


class Recorded(revisions.Store):
    """A store whose commands are noted, with what they answer."""
    stores = []

    def __init__(self, folder, name):
        super().__init__(folder, name)
        self.asked = []
        Recorded.stores.append(self)

    def ask(self, *words, given=b''):
        ended = super().ask(*words, given=given)
        self.asked.append((words, given, ended))
        return ended


def histories(folder):
    plain, revisions.Store = revisions.Store, Recorded
    try:
        for test in (revisions.lone_root, revisions.faulty_texts, revisions.changes, revisions.merges, revisions.attributes, revisions.chains):
            test(folder)
    finally:
        revisions.Store = plain
    verdict('the histories of revisions.py', revisions.failed == 0 and revisions.passed > 0)
    for store in Recorded.stores:
        takes = ('put_file', 'put_revision')
        data = b'\n'.join(request(*words, given) if words[:1] and words[0] in takes and len(words) == 1 else request(*words) for words, given, _ in store.asked)
        again = store.path + '.session'
        want = answers(*((ended[0], ended[1]) for _, _, ended in store.asked))
        row('%s, %d requests' % (os.path.basename(store.path), len(store.asked)), data, 0, want, again)
        replayed = revisions.Store(folder, 'replayed')
        replayed.path = again
        verdict('%s leaves the same records' % os.path.basename(store.path), replayed.records() == store.records())


def worked(folder):
    for number, made in enumerate(merged_rows.ROWS + cert_rows.ROWS + packet_rows.ROWS):
        history = made()
        data = b'\n'.join(request(*words) if given is None else request(*words, given) for words, given, _, _ in history.steps)
        want = answers(*((status, output) for _, _, status, output in history.steps))
        row('%s %d requests' % (history.title, len(history.steps)), data, 0, want, os.path.join(folder, 'worked%d' % number))


def too_long():
    """A value and a signature of one byte more than 64 MiB, behind what is looked at first. An input has at most 256 MiB."""
    key, many = '1' * 40, b'x' * 67108865
    text = revisions.revision({'': None}, ('', [revisions.add_dir('')]))
    lone, refused = sha(text), (1, b'refused TextTooLong 67108865\n')
    put, made = request('put_revision', text), (0, lone.encode() + b'\n')
    cert = lambda *words: request('cert', '--key=' + key, *words)
    commit = lambda author, date, text: request('commit', b'--author=' + author, '--branch=b', '--changelog=c', b'--date=' + date, '--key=' + key, text)
    row('a value and a signature that are too long', put + cert(lone, 'branch', many) + cert(b'--sig=' + base64.b64encode(many), lone, 'branch', 'main') + request('certs', lone), 0,
        answers(made, refused, refused, (0, b'')))
    row('a name and a signature come before, a revision behind', put + cert(lone, 'no field', many) + cert('--sig=no', lone, 'branch', many) + cert(sha(b''), 'branch', many), 0,
        answers(made, (1, b'refused BadField name\n'), (1, b'refused BadField signature\n'), refused))
    row('64 MiB are held', put + cert(lone, 'branch', many[1:]) + request('heads', many[1:]) + request('branches'), 0, answers(made, (0, b''), made, (0, many[1:] + b'\n')))
    row('the first value of a commit that is too long', commit(many, many + b'x', text) + request('leaves') + request('branches'), 0, answers(refused, (0, b''), (0, b'')))
    row('which comes behind the text', commit(b'a', many, b'no revision') + commit(b'a', many, text), 0, answers((1, b'refused NotText 3\n'), refused))


def killed(folder):
    """A session of commits that is killed leaves each revision with its certificates, and a store that is whole."""
    requests, parent = [], ''
    for number in range(150):
        attributes = {'': [('k', str(number))]}
        edge = (parent, [*([] if parent else [revisions.add_dir('')]), revisions.set_attr('', 'k', str(number))])
        text = revisions.revision({'': None}, edge, attributes=attributes)
        requests.append(request('commit', '--author=a', '--branch=main', '--changelog=c', '--date=%d' % number, '--key=' + '1' * 40, text))
        parent = sha(text)
    data, chance, seen = b''.join(requests), random.Random(1), set()
    for number in range(10):
        store = os.path.join(folder, 'killed%d.mtn' % number)
        process = subprocess.Popen([*MTN, store, 'stdio'], stdin=subprocess.PIPE, stdout=subprocess.PIPE)
        process.stdin.write(data)
        process.stdin.close()
        process.stdout.read(1)
        time.sleep(chance.random() * 0.3)
        process.kill()
        process.stdout.close()
        process.wait()
        with contextlib.closing(sqlite3.connect(left(store, store + '.left'))) as records:
            count = lambda table: records.execute('SELECT count(*) FROM kept WHERE kind = ?', (table,)).fetchone()[0]
            made = count(3)
            verdict('a killed session of %d commits parts none' % made, made > 0 and count(4) == count(5) == made and count(8) == 4 * made)
            verdict('and leaves a whole store', records.execute('PRAGMA integrity_check').fetchone() == ('ok',))
        seen.add(made)
        row('which goes on', request('heads', 'main') + requests[made - 1], 0, None, store)
    verdict('sessions were killed on their way: %r' % sorted(seen), any(made < len(requests) for made in seen))


def many(folder):
    store = os.path.join(folder, 'many.mtn')
    bodies = [b'body %d' % i for i in range(5000)]
    data = b''.join(request('put_file', body) for body in bodies) + b''.join(request('get_file', sha(body)) for body in bodies)
    want = answers(*[(0, sha(body).encode() + b'\n') for body in bodies], *[(0, body) for body in bodies])
    row('ten thousand requests', data, 0, want, store)


def little_kept():
    """A session that answers a thousand MiB holds no more than one that answers ten."""
    body = bytes(1 << 20)
    held = []
    for count in (10, 1000):
        with tempfile.TemporaryFile() as given:
            given.write(request('put_file', body) + request('get_file', sha(body)) * count)
            given.seek(0)
            process = subprocess.Popen(MTN + ['-', 'stdio'], stdin=given, stdout=subprocess.DEVNULL)
            _, status, used = os.wait4(process.pid, 0)
            held.append(used.ru_maxrss)
        verdict('it answers %d times: %d' % (count, status), status == 0)
    verdict('what was answered is not held: %r KiB' % held, held[1] < held[0] + 8192)


def damaged(folder):
    store = os.path.join(folder, 'damaged.mtn')
    row('a store is made', request('put_file', 'abc'), 0, answers((0, ABC + b'\n')), store)
    records = sqlite3.connect(store)
    records.execute("UPDATE kept SET body = x'010203' WHERE kind = 1 AND name = CAST('count' AS BLOB)")
    records.commit()
    records.close()
    row('a damage is answered, and ends the session', request('get_file', ABC) * 2, 8, answers((8, b'damaged 1 636f756e74 010203\n')), store)
    row('words outside the grammar come first', request('x') + request('get_file', ABC), 8, answers(USAGE, (8, b'damaged 1 636f756e74 010203\n')), store)


def main():
    with tempfile.TemporaryDirectory() as folder:
        frames()
        bad_inputs(folder)
        over_a_file(folder)
        bad_among_good(folder)
        histories(folder)
        worked(folder)
        too_long()
        killed(folder)
        many(folder)
        little_kept()
        damaged(folder)
    print('%d passed, %d failed' % (passed, failed))
    return 1 if failed else 0


if __name__ == '__main__':
    sys.exit(main())
