#!/usr/bin/env python3
"""Writes crates/cases/stdin and crates/cases/stdout: the frames of document 01's cases and W-207's, and what each case should print.

    python3 tools/cases.py            write the files
    python3 tools/cases.py --check    say whether they are as this program would write them

Needs Python 3.8 or newer and the package `cryptography` (Debian: python3-cryptography), whose AES and CCM are OpenSSL's. Frames
are sealed and hashes computed by OpenSSL's ciphers, and the answers of P5, P7, P8 and 11 to 13 come from the gateway of samples.py. Those of P1,
P2, P3, P6, P9 and P10 are set down from document 01's table. Nothing of the project's own code has a part in it.
"""
import pathlib
import sys

from cryptography.hazmat.primitives.ciphers.aead import AESCCM

from samples import PAIR_REPEATED, Gateway
from vectors import blocks, mmo, padding

SENDER = (0x0011223344556677).to_bytes(8, 'little')
KEY = bytes(range(0x40, 0x50))
NWK_HEADER = bytes.fromhex('0802 0000 3412 1E 01')
LIMIT = 2 ** 29 - 1  # bytes that have fewer than 2^32 bits
APS_HEADER = bytes.fromhex('20 01 0204 0401 01 07')
frames, lines = [], []


def sealed(header, sent, counter, number, text):
    """A frame with control byte `sent` on the air; level 5 is filled in for nonce and associated data."""
    filled, rest = bytes([sent | 5]), counter.to_bytes(4, 'little') + SENDER + number
    nonce = SENDER + counter.to_bytes(4, 'little') + filled
    return header + bytes([sent]) + rest + AESCCM(KEY, tag_length=4).encrypt(nonce, text, header + filled + rest)


def line(name, *values):
    lines.append(name + ':' + ''.join(f' {v}' for v in values) + '\n')


def octets(data):
    return ' '.join(f'{b:02x}' for b in data)


def opened(name, active, number, counter, held=None, text=b'T'):
    """What a gateway with one key answers: number, start, length, the counter held after it, the active number."""
    gateway, pair = Gateway(), (number, SENDER)
    gateway.active, gateway.keys[number] = active, KEY
    if held is not None:
        gateway.held[pair] = held
    frames.append(sealed(NWK_HEADER, 0x28, counter, bytes([number]), text))
    answer = gateway.open(frames[-1])
    line(name, *answer, gateway.held[pair], gateway.active)


def hashed(name, text):
    line(name, 0, octets(mmo(text)))


def near(total, part):
    """W-207: a state after so many bytes (value all 1, tail all 2), and a part more: the answer, the total, and the value."""
    name, value, waiting = f'W-207 after {total} bytes {len(part)} more', b'\x01' * 16, (b'\x02' * 16)[:total % 16]
    taken = total + len(part) <= LIMIT
    if taken:
        waiting, total = waiting + part, total + len(part)
    if total <= LIMIT:
        line(name, 0 if taken else 7, total, 0, octets(blocks(value, waiting + padding(total))))
    else:
        line(name, 7, total, 7, octets(bytes(16)))


def cases():
    line('P1 NWK control sent, filled', octets([0x20 | 1 << 3, 0x20 | 1 << 3 | 5]))
    line('P2 APS data, transport, load sent', octets(0x20 | identifier << 3 for identifier in (0, 2, 3)))
    line('P3 nonce', octets(SENDER + (5).to_bytes(4, 'little') + b'\x2d'))
    for size in (13, 14, 15, 16, 17):
        hashed(f'P4 hash of {size} zero bytes', bytes(size))
    opened('P5 held 5, counter 4', 7, 7, 4, held=5)
    opened('P5 held 5, counter 5', 7, 7, 5, held=5)
    frames.append(sealed(APS_HEADER, 0x20, 0, b'', b'T!'))
    line('P6 APS known with held 0, counter 0', PAIR_REPEATED, 0, 0, 0)
    opened('P7 active 255, opened under 0', 255, 0, 6)
    opened('P8 active 7, opened under 9', 7, 9, 6)
    line('P9 reset at 0x80000000, 0x80000001', 0x80000000, 0)
    line('P10 NWK outgoing 2^32-1, secured, taken', 6, 6)
    opened('11 held 5, counter 6', 7, 7, 6, held=5)
    opened('12 no row, counter 0', 7, 7, 0)
    opened('13 four bytes after the headers', 7, 7, 6, text=b'')
    hashed('14 hash of 8,191 zero bytes', bytes(8191))
    hashed('14 hash of 8,192 zero bytes', bytes(8192))
    hashed('W-207 hash of 8,193 zero bytes', bytes(8193))
    for at in (0, 1, 15, 16, 17):
        hashed(f'W-207 hash of 40 bytes, cut at {at}', b''.join(frames)[:40])
    for total, size in ((LIMIT, 0), (LIMIT, 1), (LIMIT - 2, 3), (LIMIT - 2, 2), (LIMIT + 1, 0)):
        near(total, bytes.fromhex('112233')[:size])


def main():
    cases()
    crates = pathlib.Path(__file__).resolve().parent.parent / 'crates'
    made = {'cases/stdin': b''.join(frames), 'cases/stdout': ''.join(lines).encode()}
    if '--check' in sys.argv[1:]:
        stale = [name for name, text in made.items() if not (crates / name).exists() or (crates / name).read_bytes() != text]
        print(f'{", ".join(stale)} differ' if stale else 'all files are as computed')
        sys.exit(bool(stale))
    for name, text in made.items():
        (crates / name).write_bytes(text)
    print(len(lines), 'lines,', len(frames), 'frames')


if __name__ == '__main__':
    main()
