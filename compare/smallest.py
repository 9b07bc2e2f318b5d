"""The smallest inputs of docs/DIFFERENCES.md that can be run: name, case, and the answers of the Rust and of the project. `panic`: the Rust panics.
`unread`, `reshaped`: it cannot be handed the frame, or only another one. What the lines say besides the answer is held to differences.py."""
from form import Case

KEY = bytes(range(16))
OWN = 0x0011223344556677
LAST = 2 ** 32 - 1
D = bytes.fromhex('0002000000000000')
REST = '2805000000776655443322110000'
F = D + bytes.fromhex(REST + '517eb295')
PAIR = (OWN, 2, KEY, 0, 5, 4)
P = bytes.fromhex('210020')
REST_APS = '20050000007766554433221100'
E = bytes.fromhex('2100' + REST_APS + '82df9ad9')


def nwk(call, frame, **given):
    frame = bytes.fromhex(frame) if isinstance(frame, str) else frame
    return Case(call, **dict(dict(keys=((0, KEY),), outgoing=5, own=OWN, first=frame), **given))


def aps(call, frame, **given):
    frame = bytes.fromhex(frame) if isinstance(frame, str) else frame
    return Case(call, **dict(dict(pairs=(PAIR,), own=OWN, device=OWN, first=frame), **given))


def of_primitives():
    yield 'H1', Case('hash', first=bytes(14)), '0', '0'
    yield 'H2', Case('hash', first=bytes(15)), 'panic', '0'
    yield 'H3', Case('hash', first=bytes(8191)), 'panic', '0'
    yield 'H4', Case('hash', first=bytes(8192)), '0', '0'
    yield 'H5', Case('hash', first=bytes(65536)), '7', '0'
    yield 'H6', Case('keyed_hash'), '0', '0'
    yield 'H7', Case('keyed_hash', first=bytes(15)), 'panic', '0'
    yield 'H8', Case('keyed_hash', first=bytes(30)), '0', '0'
    yield 'H8', Case('keyed_hash', first=bytes(31)), 'panic', '0'
    yield 'H9', Case('keyed_hash', first=bytes(16), second=bytes(14)), '0', '0'
    yield 'H9', Case('keyed_hash', first=bytes(16), second=bytes(15)), 'panic', '0'
    yield 'H10', Case('keyed_hash', first=bytes(8192)), '0', '0'
    yield 'H11', Case('keyed_hash', first=bytes(16), second=bytes(8176)), '0', '0'


def of_headers():
    yield 'F1', nwk('open_nwk', '0004000000000000' '0100aa'), '1', '2'
    yield 'F2', nwk('open_nwk', '0004000000000000' '0100aabb'), '1', '1'
    yield 'F3', Case('aps_header', first=bytes.fromhex('0d00')), '2', '0'
    yield 'F4', Case('aps_header', first=b'\x04'), '2', '7'
    yield 'F5', Case('aps_header', first=b'\x02'), '2', '7'
    yield 'F5', Case('aps_header', first=b'\x12\0'), '0', '7'
    yield 'F7', Case('aps_header', first=b'\x81'), '2', '7'
    yield 'F7', Case('aps_header', first=b'\x81\0\0'), '0', '7'
    yield 'F8', nwk('open_nwk', '0200000000000000aa'), '1', '1'
    yield 'F9', nwk('open_nwk', '0100000000000000'), '2', '1'
    yield 'F10', Case('control', control=0x28, level=9), '0', '0'


def of_tables():
    rows = tuple((1, sender, 0) for sender in range(1, 33))
    yield 'C1', Case('record', rows=rows, number=1, device=33), '4', '0'
    pairs = tuple((device, 2, KEY, 0, 0, 0) for device in (1, 2))
    yield 'D1', Case('record_aps', pairs=pairs, device=3), '4', '0'
    reserved = (1, 3, KEY, 0, 0, 0)
    yield 'D2', Case('advance', pairs=(reserved, (1, 2, KEY, 0, 5, 0)), device=1), '?', '0'
    yield 'D3', Case('advance', pairs=(reserved,), device=1), '?', '4'
    yield 'D4', Case('advance', device=1), '?', '4'
    yield 'D5', Case('advance', pairs=((1, 2, KEY, 0, LAST, 0),), device=1), '?', '3'
    yield 'D6', Case('advance', pairs=((1, 2, KEY, 0, 5, 0),), device=1), '?', '0'


def of_nwk():
    secure = lambda frame, room, **given: nwk('secure_nwk', frame, room=room, **given)
    yield 'N1', secure(D, 26, level=0), 'panic', '7'
    yield 'N2', secure(D, 26, level=1), '0', '7'
    yield 'N3', secure('0202000000000000', 26, active=9), '4', '7'
    yield 'N4', secure('0202000000000000', 26, outgoing=LAST), '6', '7'
    yield 'N5', secure('0202000000000000', 26), '0', '7'
    yield 'N6', secure(bytes(8), 26), '0', '7'
    yield 'N7', secure(D, 0), '8', '8'
    yield 'N8', secure(D, 8), '8', '8'
    yield 'N8', secure(D, 21), '8', '8'
    yield 'N9', secure(D, 22), 'panic', '8'
    yield 'N10', secure(D + bytes(999), 1025), '0', '7'
    yield 'N11', secure('0102000000000000' '20aa', 28), 'reshaped', '0'
    yield 'N12', secure('0102000000000000', 26), 'unread', '0'
    yield 'N13', secure('0006000000000000' '0100aabb', 30), '0', '0'
    yield 'N14', nwk('open_nwk', bytes(8), level=0), '1', '7'
    yield 'N15', nwk('open_nwk', F, level=0), 'panic', '7'
    yield 'N16', nwk('open_nwk', D + bytes.fromhex(REST + '3fc66526'), level=1), '0', '7'
    yield 'N17', nwk('open_nwk', bytes(1025)), '1', '7'
    yield 'N18', nwk('open_nwk', F[:-1]), 'panic', '2'
    yield 'N19', nwk('open_nwk', F[:-1] + b'\0'), '5', '5'
    yield 'N20', nwk('open_nwk', D + bytes.fromhex(REST + '942b1e9700')), '5', '5'
    yield 'N21', nwk('open_nwk', F, rows=tuple((0, sender, 0) for sender in range(32))), '4', '0'
    yield 'N22', nwk('open_nwk', D + bytes.fromhex('2805000000776655443322110001' '0e5a8ece'), keys=((0, KEY), (1, KEY)),
                     rows=tuple((0, sender, 0) for sender in range(32))), '4', '0'
    yield 'N23', nwk('open_nwk', '0102000000000000' + REST + '37079da8'), '2', '0'
    yield 'N24', nwk('open_nwk', '0202000000000000' + REST + '94fb0b5740'), '0', '0'


def of_aps():
    secure = lambda frame, room, **given: aps('secure_aps', frame, room=room, **given)
    yield 'A1', aps('open_aps', E, level=0), 'panic', '7'
    yield 'A2', aps('open_aps', E, level=1), '5', '7'
    yield 'A3', aps('open_aps', b'\x21' + bytes(1024)), '4', '7'
    yield 'A4', aps('open_aps', '01000000'), '2', '1'
    yield 'A5', aps('open_aps', '0100' + REST_APS + 'd4c93fdd'), '2', '1'
    yield 'A6', aps('open_aps', '2d000000000000'), '2', '4'
    yield 'A7', aps('open_aps', '2200000000000000' + REST_APS + 'cc44f39e'), '0', '7'
    yield 'A8', aps('open_aps', '2300000000000000' + REST_APS + '823c5ce9'), 'panic', '7'
    yield 'A9', aps('open_aps', '24000000'), '2', '7'
    yield 'A9', aps('open_aps', 'a1000000'), '2', '7'
    yield 'A10', aps('open_aps', E[:-1]), 'panic', '2'
    yield 'A11', aps('open_aps', E[:-1] + b'\0'), '5', '5'
    yield 'A12', aps('open_aps', E + b'\0'), '5', '5'
    yield 'A13', aps('open_aps', '2100' + REST_APS + '452a00c0', pairs=tuple((device, 2, KEY, 0, 0, 0) for device in (1, 2))), '4', '0'
    yield 'A14', aps('open_aps', E), '2', '0'
    yield 'A16', secure(P, 20, level=0), 'panic', '7'
    yield 'A17', secure(P, 20, level=1), '0', '7'
    yield 'A18', secure('2200000000000000', 8), '0', '7'
    yield 'A19', secure('010020', 20), '0', '7'
    yield 'A20', secure('010020', 20, pairs=()), '4', '7'
    yield 'A21', secure(P, 0), '8', '8'
    yield 'A21', secure(P, 15), '8', '8'
    yield 'A22', secure(P, 16), 'panic', '8'
    yield 'A23', secure(P, 20, pairs=((OWN, 3, KEY, 0, 0, 4), PAIR)), '0', '0'
    yield 'A24', secure('21000502', 21), '0', '7'
    yield 'A25', secure('2d00112220', 22), '0', '0'
    yield 'A26', secure(b'\x20' + bytes(7 + 999), 1024, extended=1), '0', '7'
    yield 'A27', secure('210020aa', 21), 'reshaped', '0'
    yield 'A28', secure('2100', 19), 'unread', '2'


def smallest():
    for part in (of_primitives, of_headers, of_tables, of_nwk, of_aps):
        yield from part()
