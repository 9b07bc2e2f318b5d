"""The form of cases and lines (compare/README.md), and the two programs that read the one and write the other."""
import collections
import pathlib
import shutil
import struct
import subprocess
import sys

TOP = pathlib.Path(__file__).resolve().parent.parent
CALLS = {name: number for number, name in enumerate((
    'open_nwk', 'secure_nwk', 'open_aps', 'secure_aps', 'hash', 'hash_from', 'keyed_hash', 'take', 'reset', 'record', 'forget', 'advance',
    'record_aps', 'control', 'nwk_header', 'aps_header', 'read_auxiliary', 'write_auxiliary', 'seal', 'unseal'), 1)}
ANSWER, SPAN, NUMBERS, ROWS, BYTES = 1, 2, 4, 8, 16
ALL = 31
BLANK = 0xEE
BATCH = 50000

HEAD = struct.Struct('<BBBBQIBBBBBBQIHII')
NETWORK_KEY = struct.Struct('<B16s')
COUNTER_ROW = struct.Struct('<BQI')
PAIR_ROW = struct.Struct('<QB16sBII')

Line = collections.namedtuple('Line', 'answer start len numbers rows bytes')


class Case:
    """One call, with the state and the input that it is given. `sealed`, where the Rust cannot tell it: the finished frame of a securing, the
    payload of an opening."""
    __slots__ = ('call', 'level', 'active', 'own', 'outgoing', 'number', 'control', 'extended', 'device', 'counter', 'room', 'keys', 'rows',
                 'pairs', 'first', 'second', 'sealed')

    def __init__(self, call, **given):
        self.call, self.level, self.sealed = call, 5, None
        self.active = self.own = self.outgoing = self.number = self.control = self.extended = self.device = self.counter = self.room = 0
        self.keys, self.rows, self.pairs, self.first, self.second = (), (), (), b'', b''
        for name, value in given.items():
            setattr(self, name, value)

    def packed(self, show=ALL):
        head = HEAD.pack(CALLS[self.call], show, self.level, self.active, self.own, self.outgoing, self.number, self.control, self.extended,
                         len(self.keys), len(self.rows), len(self.pairs), self.device, self.counter, self.room, len(self.first), len(self.second))
        tables = [NETWORK_KEY.pack(*row) for row in self.keys] + [COUNTER_ROW.pack(*row) for row in self.rows] + [PAIR_ROW.pack(*row) for row in self.pairs]
        return b''.join([head, *tables, self.first, self.second])


def rows_text(rows):
    return ''.join('%02x%016x%08x' % tuple(row) for row in rows) or '-'


def pairs_text(pairs):
    return ''.join('%016x%02x%s%02x%08x%08x' % (device, attribute, key.hex(), kind, outgoing, incoming)
                   for device, attribute, key, kind, outgoing, incoming in pairs) or '-'


def bytes_text(value):
    return value.hex() or '-'


def stop(words):
    sys.exit('compare: ' + words)


def program(name='replay'):
    """The command that runs a program of crates/, proved and built where it has changed."""
    if shutil.which('rt') is None:
        stop('rt, of the Rattle kit, is not on PATH')
    folder = TOP / 'crates' / name
    done = subprocess.run(['rt', 'run'], cwd=folder, stdin=subprocess.DEVNULL, stdout=subprocess.PIPE, stderr=subprocess.STDOUT, text=True)
    path = folder / 'out' / name
    if done.returncode or not path.exists():
        stop('rt run in crates/%s built no program:\n%s' % (name, done.stdout[-600:]))
    return [str(path)]


def rust(checkout):
    """The command that runs the published Rust, built from the checkout."""
    done = subprocess.run([str(TOP / 'compare/build-rust'), checkout], stdout=subprocess.PIPE, text=True)
    if done.returncode:
        sys.exit(done.returncode)
    return [done.stdout.strip()]


def lines(command, records):
    """The program's line for each record."""
    answers = []
    for at in range(0, len(records), BATCH):
        part = records[at:at + BATCH]
        done = subprocess.run(command, input=b''.join(part), stdout=subprocess.PIPE, check=True)
        said = done.stdout.decode().splitlines()
        if len(said) != len(part):
            stop('%s gave %d lines for %d cases; its last is %r' % (command[-1], len(said), len(part), said[-1:]))
        answers += [Line(*words) if len(words) == 6 else Line(*words, *[''] * (6 - len(words))) for words in map(str.split, said)]
    return answers
