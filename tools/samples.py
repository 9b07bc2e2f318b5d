#!/usr/bin/env python3
"""Writes samples/: inputs of the frame reader, and the lines that they should give; and the frame reader's stored run.

    python3 tools/samples.py            write the files
    python3 tools/samples.py --check    say whether they are as this program would write them

Needs Python 3.8 or newer and the package `cryptography` (Debian: python3-cryptography), whose CCM is OpenSSL's. The lines come from
a small gateway written out here from document 01 over that cipher; nothing of the project's own code has a part in it.
"""
import pathlib
import sys

from cryptography.exceptions import InvalidTag
from cryptography.hazmat.primitives.ciphers.aead import AESCCM

CASE_15 = bytes.fromhex('''
    03 01 00 07 10 09 00 08 00 00 00 34 12 1E 01 AA 10 03 00 08 02 00 10 1B 00 08 02 00 00 34 12 1E 02 28 05 00 00 00
    77 66 55 44 33 22 11 00 07 AA BB CC DD EE''')

KEYS = {7: bytes(range(0x40, 0x50)), 8: bytes(range(0x80, 0x90))}
LOGGERS = {'retort 1': (0x00124B0001A0B101, 0x1001), 'retort 2': (0x00124B0001A0B102, 0x1002), 'cold store': (0x00124B0001A0B103, 0x1003)}


# the answer numbers of document 01 and of request W-201, by reason
DONE, PLAIN, CUT, WRONG_TAG, NO_KEY = 0, 1, 2, 5, 40
REPEATED, BEHIND, PAIR_REPEATED = 33, 34, 33


def field(tag, body):
    return bytes([tag]) + len(body).to_bytes(2, 'little') + body


def frame(logger, counter, reading, number=7, key=None):
    """A reading as a logger sends it: NWK header, auxiliary header with level bits clear, payload and tag."""
    sender, short = LOGGERS[logger]
    header = bytes.fromhex('0802') + bytes(2) + short.to_bytes(2, 'little') + bytes([30, counter % 256])
    rest = counter.to_bytes(4, 'little') + sender.to_bytes(8, 'little') + bytes([number])
    nonce = sender.to_bytes(8, 'little') + counter.to_bytes(4, 'little') + b'\x2d'
    text = reading.to_bytes(2, 'little') + b'TEMP'
    sealed = AESCCM(key or KEYS[number], tag_length=4).encrypt(nonce, text, header + b'\x2d' + rest)
    return header + b'\x28' + rest + sealed


class Gateway:
    """Document 01, opening NWK, for frames with the headers above and plain ones."""

    def __init__(self):
        self.active, self.keys, self.held = 0, {}, {}

    def open(self, b):
        if len(b) < 8:
            return CUT, 0, 0
        if not b[1] & 2:
            return PLAIN, 8, len(b) - 8
        counter, sender, number = int.from_bytes(b[9:13], 'little'), b[13:21], b[21]
        if number not in self.keys:
            return NO_KEY, 0, 0
        held = self.held.get((number, sender), -1)
        if counter <= held:
            return REPEATED if counter == held else BEHIND, 0, 0
        try:
            AESCCM(self.keys[number], tag_length=4).decrypt(sender + b[9:13] + b'\x2d', b[22:], b[:8] + b'\x2d' + b[9:22])
        except InvalidTag:
            return WRONG_TAG, 0, 0
        self.held[number, sender] = counter
        if number == (self.active + 1) % 256:
            self.active = number
        return DONE, 22, len(b) - 26


def lines(fields):
    """The lines of a stream that has no bad field."""
    gateway, out, at = Gateway(), [], 0
    while at < len(fields):
        tag, body = fields[at], fields[at + 3:at + 3 + int.from_bytes(fields[at + 1:at + 3], 'little')]
        at += 3 + len(body)
        if tag == 1:
            gateway.keys[body[0]] = body[1:]
        elif tag == 2:
            gateway.held[body[0], body[1:9]] = int.from_bytes(body[9:], 'little')
        elif tag == 3:
            gateway.active = body[0]
        else:
            out.append('%d %d %d %d\n' % ((len(out) + 1,) + gateway.open(body)))
    return ''.join(out).encode()


def shift():
    """One shift of three loggers. Each reports once a minute; counters rise by one with each report."""
    stream = [field(3, b'\x07'), field(1, b'\x07' + KEYS[7])]
    stream.append(field(2, b'\x07' + LOGGERS['retort 1'][0].to_bytes(8, 'little') + (100).to_bytes(4, 'little')))
    send = lambda *a, **k: stream.append(field(0x10, frame(*a, **k)))
    for minute in range(5):
        send('retort 1', 101 + minute, 1210 + minute)
        send('retort 2', 5 + minute, 1195)
        send('cold store', 900 + minute, 38)
    send('retort 1', 105, 1214)                       # a second copy
    send('retort 2', 6, 1195)                         # a step backwards
    forged = bytearray(frame('cold store', 905, 38))
    forged[23] ^= 4                                   # a forged reading
    stream.append(field(0x10, bytes(forged)))
    send('cold store', 905, 39)                       # the true one, which the forgery has not silenced
    for minute in range(5, 8):
        send('retort 1', 101 + minute, 1215)
        send('cold store', 901 + minute, 38)          # retort 2 is silent from here
    send('retort 1', 109, 1215, number=8)             # the new key, before the gateway has it
    stream.append(field(1, b'\x08' + KEYS[8]))
    for minute in range(8, 12):
        send('retort 1', 102 + minute, 1216, number=8)
        send('cold store', 901 + minute, 37, number=8)
    send('retort 2', 21, 1195, number=8)              # eleven minutes later: counters 10 to 20 were never heard
    send('retort 2', 22, 1196, number=8)
    stream.append(field(0x10, bytes.fromhex('0800 0000 0310 1E 01 0126')))   # a plain frame
    return b''.join(stream)


def main():
    folder = pathlib.Path(__file__).resolve().parent.parent
    made = {'samples/case-15.fields': CASE_15, 'samples/shift.fields': shift(), 'samples/shift.lines': lines(shift())}
    made['samples/case-15.lines'] = lines(CASE_15)
    assert made['samples/case-15.lines'] == b'1 1 8 1\n2 2 0 0\n3 40 0 0\n'
    both = CASE_15 + shift()    # the stored run of the frame reader: case 15, and the shift after it
    made['crates/frame_reader/stdin'], made['crates/frame_reader/stdout'] = both, lines(both)
    if '--check' in sys.argv[1:]:
        stale = [name for name, text in made.items() if (folder / name).read_bytes() != text]
        print(f'{", ".join(stale)} differ' if stale else 'all files are as computed')
        sys.exit(bool(stale))
    for name, text in made.items():
        (folder / name).write_bytes(text)
    print(len(made['samples/shift.lines'].splitlines()), 'frames in samples/shift.fields')


if __name__ == '__main__':
    main()
