"""Cases, made from a seed: short inputs exhaustively, every length around each boundary, random ones, and damaged copies of right frames."""
import random

from document import (LAST, aps_command, aps_secured_line, aps_size, auxiliary_length, identifier, nwk_length, nwk_secured_line, relays,
                      usable)
from form import Case, lines

EDGES = (0, 1, 5, 0x7FFFFFFF, 0x80000000, 0x80000001, LAST - 1, LAST)
NUMBERS = (0, 1, 2, 7, 8, 254, 255)
ADDRESSES = (0x0011223344556677, 0x00124B0001A0B101, 0x00124B0001A0B102, 1, 0, 2 ** 64 - 1)
OWN = 0x00158D00012E3F40
KEYS = [bytes(range(16)), bytes(range(0x40, 0x50)), bytes(16), b'ZigBeeAlliance09', bytes(range(255, 239, -1))]

# lengths at which blocks of the cipher and of the hash begin and end
SIZES = (*range(0, 36), 47, 48, 49, 63, 64, 65, 79, 80, 81, 127, 128, 129, 255, 256, 257)


def low(number, size):
    return number.to_bytes(size, 'little')


class Maker:
    """Makes cases. The Rust's cipher seals frames for openings, many in one call; they are kept until then."""

    def __init__(self, seed, rust):
        self.rust, self.random, self.derived = rust, random.Random(seed), {}
        self.cases, self.waiting = [], []

    # what the frames are made of

    def octets(self, size):
        return self.random.randbytes(size)

    def counter(self):
        pick = self.random.random()
        return self.random.choice(EDGES) if pick < 0.3 else self.random.randrange(20) if pick < 0.7 else self.random.randrange(2 ** 32)

    def network_keys(self, most=2):
        numbers = self.random.sample(NUMBERS, self.random.randint(0, most))
        return tuple((number, self.random.choice(KEYS)) for number in numbers)

    def counter_rows(self, most):
        pairs = {(self.random.choice(NUMBERS), self.random.choice(ADDRESSES)) for _ in range(self.random.randint(0, most))}
        return tuple(pair + (self.counter(),) for pair in sorted(pairs))

    def full_rows(self):
        """As many rows as the Rust has, all of other senders."""
        return tuple((self.random.choice(NUMBERS), 0x1000 + i, self.counter()) for i in range(32))

    def pairs(self, repeated=False):
        devices = self.random.sample(ADDRESSES, self.random.choice((0, 1, 1, 2, 2, 2)))
        if repeated:
            devices = [self.random.choice(ADDRESSES)] * 2
        attribute = lambda: self.random.choice((0, 1, 2, 2, 2, 2, 2, 3, 4, 255))
        return tuple((device, attribute(), self.random.choice(KEYS), self.random.choice((0, 1, 7)), self.counter(), self.counter()) for device in devices)

    def nwk_header(self, kind, secured=True, route=None, flags=None):
        """An NWK header; `route` is the number of relays, None for no source route, with two octets a relay."""
        flags = self.random.choice((0, 0, 1, 8, 16, 25)) if flags is None else flags
        control = kind | self.random.choice((2, 2, 0, 15)) << 2 | self.random.randrange(4) << 6 | flags << 8 | self.random.randrange(8) << 13
        control = control & ~0x0600 | secured << 9 | (route is not None) << 10
        size = 6 + 8 * (flags >> 3 & 1) + 8 * (flags >> 4 & 1) + (flags & 1)
        relay = b'' if route is None else bytes([route, self.random.randrange(256)]) + self.octets(2 * route)
        return low(control, 2) + self.octets(size) + relay

    def aps_header(self, kind, delivery, secured=True, counter=None):
        control = kind | delivery << 2 | self.random.randrange(2) << 4 | secured << 5 | self.random.randrange(2) << 6
        return bytes([control]) + self.octets(aps_size(control) - 1)

    def nwk_command(self):
        """A typed command that reads and writes back to the same bytes, or any bytes."""
        sizes = {1: 5, 3: 3, 4: 1, 6: 1, 7: 3, 10: 6, 11: 2, 12: 2}
        if self.random.random() < 0.3:
            return self.octets(self.random.randrange(0, 20))
        if self.random.random() < 0.2:
            return bytes([self.random.choice((0, 14, 32, 255))])
        command = self.random.choice(list(sizes))
        body = bytearray(self.octets(sizes[command]))
        if command == 1:
            body[0] &= 0xDF
        return bytes([command]) + body

    def aps_command(self):
        sizes = {8: 1, 9: 1, 15: 25, 16: 10}
        pick = self.random.random()
        if pick < 0.2:
            return self.octets(self.random.randrange(0, 20))
        if pick < 0.3:
            return bytes([self.random.choice((0, 32, 255))])
        if pick < 0.7:
            kind = self.random.choice((1, 1, 3, 3, 4, 4, 0, 2, 5))
            return bytes([5, kind]) + self.octets({1: 33, 3: 25, 4: 32}.get(kind, self.random.randrange(3)))
        command = self.random.choice(list(sizes))
        return bytes([command]) + self.octets(sizes[command])

    def payload(self):
        return self.octets(self.random.choice(SIZES) if self.random.random() < 0.8 else self.random.randrange(960))

    # frames sealed

    def link_keys(self):
        """The keys that the Rust derives from each link key, by identifier."""
        texts = {2: b'\0', 3: b'\2'}
        asked = [(key, number) for key in KEYS for number in texts]
        said = lines(self.rust, [Case('keyed_hash', first=key, second=texts[number]).packed() for key, number in asked])
        self.derived = {(key, 0): key for key in KEYS} | {pair: bytes.fromhex(line.bytes) for pair, line in zip(asked, said)}

    def seal(self, key, header, control, rest, payload, use):
        """Asks for header, auxiliary header and sealed payload; `use` is called with them, and the payload's place, when all are made."""
        counter, sender = rest[:4], rest[4:12]
        filled = bytes([control & 0xF8 | 5])
        first = key + sender + counter + filled + header + filled + rest
        self.waiting.append((Case('seal', number=4, first=first, second=payload), header + bytes([control]) + rest, use))

    def settle(self):
        said = lines(self.rust, [case.packed() for case, _, _ in self.waiting])
        for (_, front, use), line in zip(self.waiting, said):
            use(front, bytes.fromhex(line.bytes))
        self.waiting = []

    def add(self, call, **given):
        self.cases.append(Case(call, **given))

    # the exhaustive part

    def controls(self):
        for control in range(256):
            for level in range(16):
                self.add('control', control=control, level=level)
            for size in range(17):
                self.add('read_auxiliary', first=(bytes([control]) + self.octets(16))[:size])
                self.add('write_auxiliary', control=control, counter=self.counter(), device=self.random.choice(ADDRESSES), number=size, room=size)

    def headers(self):
        for control in range(65536):
            self.add('nwk_header', first=low(control, 2) + bytes(38))
        for flags in range(32):
            for kind in range(4):
                for route in (None, 0, 1, 2, 3) if flags & 4 else (None,):
                    header = self.nwk_header(kind, bool(flags & 2), 0 if flags & 4 and route is None else route, flags & 0x19)
                    for size in range(len(header) + 3):
                        self.add('nwk_header', first=(header + bytes(2))[:size])
        for route in (127, 128, 254, 255):
            header = self.nwk_header(0, True, route, 0)
            for size in range(len(header) - 2, len(header) + 3):
                self.add('nwk_header', first=(header + bytes(2))[:size])
        for control in range(256):
            for size in range(14):
                self.add('aps_header', first=(bytes([control]) + self.octets(13))[:size])

    def hashes(self):
        for size in (*range(200), *range(8160, 8196), 12345, 65519, 65535, 65536, 65537, 70000):
            self.add('hash', first=self.octets(size))
        for size in range(34):
            self.add('hash_from', first=self.octets(size), second=self.octets(self.random.choice((0, 1, 13, 16, 32, 33))))
        for size in (*range(50), 80, 8175, 8176, 8189, 8191, 8192, 8193):
            for text in (0, 1, 13, 14, 15, 16, 17, 29, 30, 31, 32):
                self.add('keyed_hash', first=self.octets(size), second=self.octets(text))
        for text in (*range(40), *range(8170, 8180)):
            self.add('keyed_hash', first=self.octets(16), second=self.octets(text))

    def numbers(self):
        for edge in sorted({value + step for value in (*EDGES, 1023, 1024, 255, 256, 2048) for step in (-1, 0, 1) if 0 <= value + step <= LAST}):
            self.add('take', outgoing=edge)
            self.add('reset', outgoing=edge)

    def short_frames(self):
        """Every length of a right header and auxiliary header, for every control byte and every set of flags."""
        gateway = dict(keys=((7, KEYS[1]),), active=7, rows=((7, ADDRESSES[0], 5),))
        for control in range(256):
            rest = low(6, 4) + low(ADDRESSES[0], 8) + b'\7' + bytes(8)
            for size in range(0, 22):
                self.add('open_nwk', first=(bytes.fromhex('080200003412') + b'\x1e\1' + bytes([control]) + rest)[:8 + size], **gateway)
                self.add('open_aps', first=(b'\x21\7' + bytes([control]) + rest)[:2 + size], pairs=((ADDRESSES[0], 2, KEYS[0], 0, 0, 5),))
        for control in range(256):
            for size in range(26):
                self.add('open_aps', first=(bytes([control]) + self.octets(7) + b'\x20' + low(6, 4) + low(ADDRESSES[0], 8) + bytes(8))[:size])
                self.add('secure_aps', first=(bytes([control]) + self.octets(25))[:size], room=64, device=ADDRESSES[0], extended=1,
                         pairs=((ADDRESSES[0], 2, KEYS[0], 0, 5, 5),))
        for octet in range(256):
            for call in ('open_nwk', 'open_aps', 'nwk_header', 'aps_header', 'read_auxiliary'):
                self.add(call, first=bytes([octet]))

    def all_flags(self):
        """Every set of NWK flags, secured and not, opened whole and with room around each boundary when secured."""
        for flags in range(32):
            for kind in range(4):
                for route in (None, 0, 1, 2):
                    secured = bool(flags & 2)
                    header = self.nwk_header(kind, secured, route, flags & 0x19)
                    self.opening_nwk(header=header, right=True)
                    plain = header + (b'\x04\x40' if kind == 1 else self.octets(5))
                    for room in range(len(plain) - 2, len(plain) + 21):
                        self.securing_nwk(plain=plain, room=room, right=True)

    def all_rooms(self):
        """Every kind of APS frame that is taken, with room around each boundary."""
        for kind, delivery, text in [(0, delivery, b'payload') for delivery in (0, 2, 3)] + [(1, delivery, text) for delivery in range(4) for text in (
                b'\x09\7', b'\x20', b'\5\1' + bytes(33), b'\5\3' + bytes(25), b'\5\4' + bytes(32))]:
            plain = self.aps_header(kind, delivery) + text
            for room in range(len(plain) - 2, len(plain) + 20):
                for attribute in (0, 1, 2, 3):
                    case = Case('secure_aps', own=OWN, device=1, extended=1, first=plain, room=room, pairs=((1, attribute, KEYS[0], 0, 5, 5),))
                    self.cases.append(case)
                    self.finish_aps(case)

    def long_frames(self):
        """Sizes around 1,024 and 1,006."""
        nwk = dict(keys=((7, KEYS[1]),), active=7, own=OWN)
        aps = dict(pairs=((ADDRESSES[0], 2, KEYS[0], 0, 5, 5),), own=OWN)
        rest = low(6, 4) + low(ADDRESSES[0], 8)
        for size in range(1016, 1028):
            payload = self.octets(size)
            use = lambda call, at, gateway: lambda front, sealed: self.present(call, at, front, sealed, None, gateway)
            self.seal(KEYS[1], self.nwk_header(0, flags=0), 0x28, rest + b'\7', payload[:size - 26], use('open_nwk', 8, nwk))
            self.seal(KEYS[0], self.aps_header(0, 0), 0x20, rest, payload[:size - 25], use('open_aps', 8, aps))
        for size in range(1000, 1010):
            for room in range(size + 14, size + 20):
                self.add('secure_nwk', first=self.nwk_header(0, flags=0) + self.octets(size - 8), room=room, outgoing=5, **nwk)
                self.add('secure_aps', first=self.aps_header(0, 0) + self.octets(size - 8), room=room, device=ADDRESSES[0], extended=1, **aps)

    # the random part

    def opening_nwk(self, header=None, right=None):
        right = self.random.random() < 0.75 if right is None else right
        kind = self.random.choice((0, 0, 0, 0, 1, 1, 2, 3))
        route = self.random.choice((None, None, None, 0, 1, 3))
        header = header or self.nwk_header(kind, self.random.random() < 0.95, route)
        keys = self.network_keys() or ((7, KEYS[1]),)
        number, key = self.random.choice(keys)
        number = number if right or self.random.random() < 0.9 else self.random.choice(NUMBERS)
        sender = self.random.choice(ADDRESSES)
        full = self.random.random() < 0.03
        rows = self.full_rows() if full else self.counter_rows(self.random.choice((0, 2, 8, 30)))
        held = [row[2] for row in rows if row[:2] == (number, sender)]
        near = [held[0] + step for step in (-1, 0, 1, 1, 1, 2) if 0 <= held[0] + step <= LAST] if held else []
        counter = self.random.choice(near) if near and right else self.counter()
        control = 0x28 if right else self.random.choice((0x28, 0x28, 0x2D, 0x48, 0x88, 0xE9, 0x20, 0x08, 0x30, 0x38, self.random.randrange(256)))
        payload = self.nwk_command() if header[0] & 3 == 1 else self.payload()
        gateway = dict(level=5 if self.random.random() < 0.99 else self.random.randrange(8), keys=keys, rows=rows, own=OWN,
                       active=self.random.choice((number, (number - 1) % 256, self.random.randrange(256))))
        rest = low(counter, 4) + (low(sender, 8) if control >> 5 else b'') + (bytes([number]) if control >> 3 & 3 == 1 else b'')
        known = payload if (number, key) in keys else None
        use = lambda front, sealed: self.present('open_nwk', len(header), front, sealed, known, gateway)
        self.seal(key, header, control, rest, payload, use) if control >> 5 else use(header + bytes([control]) + rest, payload + self.octets(4))

    def present(self, call, at, front, sealed, payload, gateway):
        """A frame, and now and then a damaged copy of it: one bit, cut, longer, or every prefix. The control byte stands at `at`."""
        known = payload if len(front) + len(sealed) <= 1024 else None
        self.add(call, first=front + sealed, sealed=known, **gateway)
        pick = self.random.random()
        frame = bytearray(front + sealed)
        if pick < 0.35:
            place, bit = self.random.randrange(len(frame)), self.random.randrange(8)
            frame[place] ^= 1 << bit
            # the level bits on the air protect nothing: such a copy still opens
            self.add(call, first=bytes(frame), sealed=known if (place, bit < 3) == (at, True) else None, **gateway)
        elif pick < 0.5:
            self.add(call, first=bytes(frame[:-self.random.randint(1, 6)]), **gateway)
        elif pick < 0.55:
            self.add(call, first=bytes(frame) + self.octets(self.random.randint(1, 5)), **gateway)
        elif pick < 0.56 and len(frame) < 80:
            for size in range(len(frame)):
                self.add(call, first=bytes(frame[:size]), **gateway)
        elif pick < 0.57:
            self.add(call, first=bytes(frame) + bytes(1025 - min(len(frame), 1025) + self.random.randrange(2)), **gateway)

    def securing_nwk(self, plain=None, room=None, right=False):
        if plain is None:
            kind = self.random.choice((0, 0, 0, 0, 1, 1, 2, 3))
            header = self.nwk_header(kind, self.random.random() < 0.95, self.random.choice((None, None, None, None, 0, 1, 3)))
            plain = header + (self.nwk_command() if kind == 1 else self.payload())
            plain = plain[:self.random.randrange(len(plain))] if self.random.random() < 0.05 else plain
            plain = plain + bytes(1006 - min(len(plain), 1006) + self.random.choice((-1, 0, 1))) if self.random.random() < 0.01 else plain
        keys = self.network_keys() or ((7, KEYS[1]),)
        if room is None:
            room = len(plain) + 18 + self.random.choice((0, 0, 0, 1, 5, 40, -1, -2, -4, -5, -18, -20, -len(plain) - 18))
        active = keys[0][0] if right or self.random.random() < 0.9 else self.random.randrange(256)
        case = Case('secure_nwk', level=5 if right or self.random.random() < 0.99 else self.random.randrange(8), own=self.random.choice(ADDRESSES),
                    keys=keys, active=active, outgoing=6 if right else self.counter(), first=plain, room=max(room, 0))
        self.cases.append(case)
        self.finish_nwk(case)

    def finish_nwk(self, case):
        """What the finished frame should be, for those that the Rust cannot be handed as they are."""
        plain = case.first
        if nwk_secured_line(case).answer != '0' or not (relays(plain) or plain[0] & 3 == 1):
            return
        at, key = nwk_length(plain), dict(reversed(case.keys))[case.active]
        rest = low(case.outgoing, 4) + low(case.own, 8) + bytes([case.active])
        self.seal(key, plain[:at], 0x28, rest, plain[at:], lambda front, sealed: setattr(case, 'sealed', front + sealed))

    def opening_aps(self):
        kind = self.random.choice((0, 0, 0, 1, 1))
        delivery = self.random.choice((0, 0, 2, 3) if kind == 0 else (0, 0, 1, 2, 3))
        header = self.aps_header(kind, delivery, self.random.random() < 0.95)
        pairs = self.pairs()
        sender = self.random.choice([row[0] for row in pairs] or ADDRESSES) if self.random.random() < 0.8 else self.random.choice(ADDRESSES)
        row = next((row for row in pairs if row[0] == sender), None)
        link = row[2] if row else b'ZigBeeAlliance09'
        near = [row[5] + step for step in (-1, 0, 1, 1, 1, 2) if 0 <= row[5] + step <= LAST] if row else []
        counter = self.random.choice(near) if near and self.random.random() < 0.8 else self.counter()
        right = self.random.random() < 0.75
        control = self.random.choice((0x20, 0x20, 0x30, 0x38)) if right else self.random.choice((0x25, 0x40, 0xF7, 0x28, 0x00, 0x08, self.random.randrange(256)))
        payload = self.aps_command() if kind == 1 else self.payload()
        gateway = dict(level=5 if self.random.random() < 0.99 else self.random.randrange(8), own=OWN, pairs=pairs)
        rest = low(counter, 4) + (low(sender, 8) if control >> 5 else b'') + (b'\7' if control >> 3 & 3 == 1 else b'')
        use = lambda front, sealed: self.present('open_aps', len(header), front, sealed, payload, gateway)
        if control >> 5 and control >> 3 & 3 != 1:
            self.seal(self.derived[link, control >> 3 & 3], header, control, rest, payload, use)
        else:
            use(header + bytes([control]) + rest, payload + self.octets(4))

    def securing_aps(self):
        kind = self.random.choice((0, 0, 0, 1, 1, 1))
        delivery = self.random.choice((0, 0, 2, 3) if kind == 0 else (0, 0, 1, 2, 3))
        plain = self.aps_header(kind, delivery, self.random.random() < 0.95) + (self.aps_command() if kind == 1 else self.payload())
        if self.random.random() < 0.05:
            plain = plain[:self.random.randrange(len(plain))]
        if self.random.random() < 0.01:
            plain = plain + bytes(1006 - min(len(plain), 1006) + self.random.choice((-1, 0, 1)))
        pairs = self.pairs(self.random.random() < 0.05)
        device = self.random.choice([row[0] for row in pairs] or ADDRESSES) if self.random.random() < 0.9 else self.random.choice(ADDRESSES)
        room = len(plain) + 17 + self.random.choice((0, 0, 0, 1, 5, 40, -1, -2, -4, -5, -17, -20, -len(plain) - 17))
        case = Case('secure_aps', level=5 if self.random.random() < 0.99 else self.random.randrange(8), own=self.random.choice(ADDRESSES), pairs=pairs,
                    device=device, extended=self.random.random() < 0.9, first=plain, room=max(room, 0))
        self.cases.append(case)
        self.finish_aps(case)

    def finish_aps(self, case):
        if aps_secured_line(case).answer != '0' or not aps_command(case.first[0]):
            return
        row, at, number = case.pairs[usable(case)], aps_size(case.first[0]), identifier(case.first)
        rest = low(row[4], 4) + low(case.own, 8)
        use = lambda front, sealed: setattr(case, 'sealed', front + sealed)
        self.seal(self.derived[row[2], number], case.first[:at], 0x20 | number << 3, rest, case.first[at:], use)

    def table(self):
        call = self.random.choice(('record', 'record', 'forget', 'advance', 'record_aps', 'take', 'reset'))
        rows = self.full_rows() if self.random.random() < 0.05 else self.counter_rows(self.random.choice((0, 3, 30)))
        pairs = self.pairs(call == 'advance' and self.random.random() < 0.2)
        device = self.random.choice([row[0] for row in pairs] or ADDRESSES) if call in ('advance', 'record_aps') else self.random.choice(ADDRESSES)
        device = device if self.random.random() < 0.8 else self.random.choice(ADDRESSES)
        given = dict(number=self.random.choice(NUMBERS), device=device, counter=self.counter(), outgoing=self.counter())
        given |= dict(rows=rows) if call in ('record', 'forget') else dict(pairs=pairs) if call in ('advance', 'record_aps') else {}
        self.add(call, **given)

    def hashed(self):
        call = self.random.choice(('hash', 'hash_from', 'keyed_hash'))
        sizes = (*SIZES, self.random.randrange(600))
        self.add(call, first=self.octets(self.random.choice(sizes) if call != 'keyed_hash' else self.random.choice((16, 16, 17, 32, 40, 5))),
                 second=b'' if call == 'hash' else self.octets(self.random.choice(sizes)))

    def sealed(self):
        """The project's cipher beside the stood-in one."""
        self.add('seal', number=4, first=self.octets(29 + self.random.choice((0, 1, 13, 14, 15, 22, 30, 31, 200))), second=self.payload())

    def make(self, most):
        """All of the exhaustive part, and random cases until there are as many as asked for, or a few more."""
        self.link_keys()
        for part in (self.controls, self.headers, self.hashes, self.numbers, self.short_frames, self.all_flags, self.all_rooms, self.long_frames):
            part()
        weights = ((self.opening_nwk, 30), (self.securing_nwk, 25), (self.opening_aps, 25), (self.securing_aps, 20), (self.table, 12), (self.hashed, 4), (self.sealed, 1))
        parts = [part for part, weight in weights for _ in range(weight)]
        while len(self.cases) + len(self.waiting) < most:
            self.random.choice(parts)()
            if len(self.waiting) > 40000:
                self.settle()
        self.settle()
        return self.cases
