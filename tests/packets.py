#!/usr/bin/env python3
"""Answers the cases on standard input as crates/mtn_cases_packets has to, up to those of certificates, which begin with `##`: inputs
are matched by regular expressions and decoded by Python's base64. `packets.py SEED COUNT` prints so many random cases instead, most of them packets with a few bytes changed."""
import base64
import hashlib
import random
import re
import sys

SPACE = rb'[\t\n\r ]'
FIELD = rb'[!-Z\\^-~]{1,255}'
PLAIN = rb'[^\[\]]*'
ID = rb'[0-9a-f]{40}'
DATA = re.compile(rb'\[(fdata|rdata)' + SPACE + rb'+(' + ID + rb')' + SPACE + rb'*\](' + PLAIN + rb')\[end\]')
PUBKEY = re.compile(rb'\[pubkey' + SPACE + rb'+' + FIELD + SPACE + rb'*\](' + PLAIN + rb')\[end\]')
CERT = re.compile(rb'\[rcert' + SPACE + rb'+(' + ID + rb')' + SPACE + rb'+(' + FIELD + rb')' + SPACE + rb'+(' + FIELD + rb')((?:'
                  + SPACE + PLAIN + rb')?)\](' + PLAIN + rb')\[end\]')
OTHERS = re.compile(rb'\[(fdelta|keypair|privkey)' + SPACE)
ESCAPES = {0: b'\\0', 10: b'\\n', 13: b'\\r', 9: b'\\t', 92: b'\\\\'}


def decoded(part):
    text = re.sub(SPACE, b'', part)
    if not re.fullmatch(rb'(?:[A-Za-z0-9+/]{4})*(?:[A-Za-z0-9+/]{2}==|[A-Za-z0-9+/]{3}=)?', text):
        return None
    value = base64.b64decode(text)
    return value if base64.b64encode(value) == text else None


def packet(one):
    """The packet that a text is, or its fault."""
    if OTHERS.match(one):
        return 'Unsupported'
    data, pubkey, cert = DATA.fullmatch(one), PUBKEY.fullmatch(one), CERT.fullmatch(one)
    if data:
        made = ('file' if data[1] == b'fdata' else 'revision', data[2], decoded(data[3]))
    elif pubkey:
        made = ('passed',) if decoded(pubkey[1]) is not None else ('passed', None)
    elif cert:
        kind = 'id' if re.fullmatch(ID, cert[3]) else 'name'
        made = ('cert', cert[1], cert[2], kind, cert[3], decoded(cert[4]), decoded(cert[5]))
    else:
        return 'NotPacket'
    return 'BadBase64' if None in made else made


def read_all(text):
    """The packets of an input, or the number of the first bad one and its fault."""
    packets, rest = [], text.lstrip(b'\t\n\r ')
    while rest:
        end = rest.find(b'[end]')
        one = 'Truncated' if end < 0 else packet(rest[:end + 5])
        if isinstance(one, str):
            return len(packets) + 1, one
        packets.append(one)
        rest = rest[end + 5:].lstrip(b'\t\n\r ')
    return packets


def pieces(value):
    text = base64.b64encode(value)
    return [text[at:at + 72] for at in range(0, len(text), 72)]


def payload(value):
    return b''.join(piece + b'\n' for piece in pieces(value)) + b'[end]\n'


def write(made):
    """The printed form, or None."""
    if made[0] in ('file', 'revision'):
        return (b'[fdata ' if made[0] == 'file' else b'[rdata ') + made[1] + b']\n' + payload(made[2])
    if made[0] == 'passed':
        return None
    _, revision, name, kind, key, value, signature = made
    if not re.fullmatch(FIELD, name) or kind == 'name' and (not re.fullmatch(FIELD, key) or re.fullmatch(ID, key)):
        return None
    return b'\n       '.join([b'[rcert ' + revision, name, key, b'\n'.join(pieces(value))]) + b']\n' + payload(signature)


def told(answer, whole):
    if isinstance(answer, tuple):
        return b'bad %d %s' % (answer[0], answer[1].encode())
    words = [b' '.join(word.encode() if isinstance(word, str) else word for word in made) for made in answer]
    return b'; '.join([b'%d' % len(answer)] + words * whole)


def plain(text):
    one = lambda m: bytes([int(m[0][2:], 16)]) if m[0][1:2] == b'x' else {b'n': b'\n', b'r': b'\r', b't': b'\t', b'0': b'\0', b'\\': b'\\'}[m[0][1:]]
    return re.sub(rb'\\(?:x..|.)', one, text)


def escape(text):
    return b''.join(ESCAPES.get(b) or (bytes([b]) if 32 <= b <= 126 else b'\\x%02X' % b) for b in text)


def cuts(text):
    runs = []
    for at in range(len(text) + 1):
        said = told(read_all(text[:at]), False)
        if runs and runs[-1][1] == said:
            runs[-1][0] += 1
        else:
            runs.append([1, said])
    return b''.join(b'%d %s; ' % (count, said) for count, said in runs)


def long(count):
    name = b'ff' * 20
    return write(('file', name, b'a' * count)) + write(('cert', name, b'n', 'id', name, b'a' * count, b's' * count))


def ids(texts):
    return b'%d' % len(texts) + b''.join(b' ' + hashlib.sha1(text).hexdigest().encode() for text in texts)


def in_pieces(word, fields):
    """Ids, or what texts with blanks behind each are read as; in how many pieces changes neither."""
    numbers = 1 if word == b'ids' else 2
    if len(fields) < numbers or not all(field.isdigit() for field in fields[:numbers]):
        return b'?'
    if word == b'ids':
        return ids(fields[1:])
    return told(read_all(b''.join(text + b' ' * int(fields[1]) for text in fields[2:])), True)


def answer(line):
    word, _, rest = line.partition(b' ')
    if word == b'read':
        return told(read_all(plain(rest)), True)
    if word == b'again':
        return b''.join(write(made) or b'' for made in read_all(plain(rest)))
    if word == b'cuts':
        return cuts(plain(rest))
    if word == b'long':
        return long(int(rest))
    fields = [plain(field) for field in rest.split(b' ')]
    if word in (b'ids', b'pieces'):
        return in_pieces(word, fields)
    if word not in (b'file', b'revision', b'cert', b'passed'):
        return b'?'
    if word == b'cert':
        fields[2] = fields[2].decode()
    return write((word.decode(), *fields)) or b'no'


def random_packet(chance):
    name = bytes(chance.choice(b'0123456789abcdef') for _ in range(40))
    value = bytes(chance.randrange(256) for _ in range(chance.choice((0, 1, 2, 3, 4, 54, 55))))
    word = chance.choice(('file', 'revision', 'cert', 'cert', 'passed'))
    if word == 'passed':
        return b'[pubkey k@x]' + base64.b64encode(value) + b'[end]'
    if word != 'cert':
        return write((word, name, value))
    kind, key = chance.choice((('id', name), ('name', b'k@x'), ('name', name.upper() + b'!')))
    return write((word, name, b'branch', kind, key, value, value[::-1]))


def random_cases(seed, count):
    print('# random')
    for number in range(count):
        chance = random.Random(seed * 1000 + number)
        text = bytearray()
        for _ in range(chance.randint(1, 3)):
            text += random_packet(chance) + chance.choice((b'', b' ', b'\r\n\t'))
        for _ in range(chance.randint(0, 2)):
            at, byte = chance.randrange(len(text)), chance.choice(b'[] \n=Aaf0~\x7f')
            text[at:at + chance.randint(0, 1)] = bytes([byte]) * chance.randint(0, 1)
        print('read ' + escape(bytes(text)).decode())


def main():
    if len(sys.argv) == 3:
        random_cases(int(sys.argv[1]), int(sys.argv[2]))
        return
    for line in sys.stdin.buffer.read().split(b'\n##')[0].split(b'\n'):
        if line and not line.startswith(b'#'):
            sys.stdout.buffer.write(escape(answer(line)) + b'\n')


if __name__ == '__main__':
    main()
