"""docs/DIFFERENCES.md as a program: for a case and the Rust's line, which difference it falls under, what the project should print, and which
parts of the Rust's line hold for both."""
import collections

from document import (LAST, Claim, aps_command, aps_secured_line, aps_settled, aps_size, aps_taken, nwk_kind, nwk_length, nwk_secured,
                      nwk_secured_line, nwk_settled, opened, raised, relays, unchanged, usable)
from form import ALL, ANSWER, BYTES, NUMBERS, ROWS, SPAN, Line, bytes_text, pairs_text, rows_text

# The name in docs/DIFFERENCES.md, or None; the line the project should print, with None for what is left open; what holds for both.
Found = collections.namedtuple('Found', 'name line holds')

# A line of the driver that is no answer of the Rust.
NO_ANSWER = ('panic', 'unread', 'reshaped')


def same(line):
    return Found(None, line, ALL)


def spanned(claim, case, line):
    return line._replace(answer='0', start=str(claim.payload), len=str(len(case.first) - claim.payload - 4))


def of_open_nwk(case, line):
    settled = nwk_settled(case)
    if case.level != 5:
        return Found('N14 to N16', settled, 0)
    if len(case.first) > 1024:
        return Found('N17', settled, 0)
    if relays(case.first):
        return Found('F1, F2', opened_otherwise(case, settled), 0)
    if line.answer == 'panic':
        return Found('N18', unchanged(case, 2), 0) if not isinstance(settled, Claim) and settled.answer == '2' else same(line)
    if line.answer == '5':
        return Found('N19, N20', unchanged(case, 5), ALL - BYTES)
    if not isinstance(settled, Claim):
        plain = settled.answer == '1' and nwk_kind(case.first) != 0
        return Found('F8' if line.answer == '1' else 'F9', settled, (ANSWER if line.answer == '1' else 0) + NUMBERS + ROWS + BYTES) if plain else same(line)
    if line.answer == '4' and len(case.rows) == 32:
        row = (settled.number, settled.sender, settled.counter)
        return Found('N21, N22', spanned(settled, case, line)._replace(rows=rows_text([*case.rows, row])), BYTES)
    if nwk_kind(case.first) == 0:
        return same(line)
    name = 'N24' if nwk_kind(case.first) > 1 else 'N23'
    return Found(name, spanned(settled, case, line), (ANSWER if line.answer == '0' else 0) + NUMBERS + ROWS + BYTES)


def opened_otherwise(case, settled):
    """A frame whose header the Rust reads otherwise: opened as it was made, or else refused, since no tag is right by chance."""
    if not isinstance(settled, Claim):
        return settled
    return unchanged(case, 5) if case.sealed is None else opened(case, settled, case.sealed)


def of_secure_nwk(case, line):
    settled = nwk_secured_line(case)
    plain = case.first
    if case.level != 5:
        return Found('N1, N2', settled, 0)
    if len(plain) > 1006:
        return Found('N10', settled, 0)
    if nwk_length(plain) is None and line.answer == 'unread':
        return Found('N12', settled, 0)
    if relays(plain):
        return Found('N13', settled, 0)
    if len(plain) >= 8 and (nwk_kind(plain) >= 2 or not nwk_secured(plain)):
        return Found('N3 to N6', settled, 0)
    if line.answer in ('unread', 'reshaped'):
        return Found('N12' if line.answer == 'unread' else 'N11', settled, 0)
    if line.answer == '8':
        return Found('N7, N8', unchanged(case, 8), ANSWER + SPAN + ROWS)
    if line.answer == 'panic' and len(plain) + 14 <= case.room < len(plain) + 18:
        return Found('N9', unchanged(case, 8), 0)
    return same(line)


def of_open_aps(case, line):
    settled, frame = aps_settled(case), case.first
    if case.level != 5:
        return Found('A1, A2', settled, 0)
    if len(frame) > 1024:
        return Found('A3', settled, 0)
    if len(frame) < 4:
        return same(line)
    if not aps_taken(frame[0]):
        return Found('A7 to A9', settled, 0)
    if aps_command(frame[0]) and frame[0] >> 2 & 3 == 3:
        return Found('A6', opened_otherwise(case, settled), 0)
    if not frame[0] & 0x20:
        return Found('A4, A5', settled, 0)
    if line.answer == 'panic':
        return Found('A10', unchanged(case, 2), 0) if not isinstance(settled, Claim) and settled.answer == '2' else same(line)
    if line.answer == '5':
        return Found('A11, A12', unchanged(case, 5), ALL - BYTES)
    if not isinstance(settled, Claim):
        return same(line)
    if line.answer == '4' and len(case.pairs) == 2:
        row = (settled.sender, 2, b'ZigBeeAlliance09', 1, 0, settled.counter)
        return Found('A13', spanned(settled, case, line)._replace(rows=pairs_text([*case.pairs, row])), BYTES)
    if not aps_command(frame[0]):
        return same(line)
    return Found('A14', spanned(settled, case, line), (ANSWER if line.answer == '0' else 0) + ROWS + BYTES)


def of_secure_aps(case, line):
    settled, plain = aps_secured_line(case), case.first
    if case.level != 5:
        return Found('A16, A17', settled, 0)
    if len(plain) > 1006:
        return Found('A26', settled, 0)
    if plain and not (aps_taken(plain[0]) and plain[0] & 0x20):
        return Found('A18 to A20', settled, 0)
    if plain and aps_command(plain[0]) and plain[0] >> 2 & 3 == 3:
        return Found('A25', settled, 0)
    header = aps_size(plain[0]) if plain else 0
    if plain and aps_command(plain[0]) and plain[header:header + 1] == b'\5' and settled.answer == '7':
        return Found('A24', settled, 0)
    if line.answer in ('unread', 'reshaped'):
        return Found('A27' if settled.answer != '2' else 'A28', settled, 0)
    if line.answer == '8':
        return Found('A21', unchanged(case, 8), ANSWER + SPAN + ROWS)
    if line.answer == 'panic' and len(plain) + 13 <= case.room < len(plain) + 17:
        return Found('A22', unchanged(case, 8), 0)
    if line.answer == '0' and usable(case) != [row[0] for row in case.pairs].index(case.device):
        return Found('A23', line._replace(rows=settled.rows), ANSWER + SPAN + BYTES)
    return same(line)


def of_hash(case, line):
    """The value where the Rust's padding goes wrong, or it has none, is left open: compare/peers and compare/firmware hold an independent hash against it."""
    size = len(case.first if case.call == 'hash' else case.second)
    if size >= 8192:
        return Found('H4' if size < 65536 else 'H5', Line('0', '0', '0', '-', '-', None), 0)
    if size % 16 in (14, 15):
        return Found('H1 to H3', Line('0', '0', '0', '-', '-', None), 0)
    return same(line)


def of_keyed_hash(case, line):
    key, text = len(case.first), len(case.second)
    if key >= 8192 or text >= 8176:
        return Found('H10, H11', Line('0', '0', '0', '-', '-', None), 0)
    if key < 16:
        return Found('H6, H7', Line('0', '0', '0', '-', '-', None), 0)
    if key > 16 and key % 16 in (14, 15) or text % 16 in (14, 15):
        return Found('H8, H9', Line('0', '0', '0', '-', '-', None), 0)
    return same(line)


def of_record(case, line):
    if line.answer == '4' and len(case.rows) == 32:
        row = (case.number, case.device, case.counter)
        return Found('C1', line._replace(answer='0', rows=rows_text([*case.rows, row])), 0)
    return same(line)


def of_forget(case, line):
    """The order of the rows that stay is the stand-in's: in the fixed list it must not matter."""
    left = [row for row in case.rows if row[0] != case.number]
    return Found(None, line, ALL if left == list(case.rows[:len(left)]) or len(left) < 2 else ANSWER + SPAN)


def of_advance(case, line):
    """The Rust tells neither an answer nor a counter."""
    at = usable(case)
    places = [i for i, row in enumerate(case.pairs) if row[0] == case.device]
    pairs = pairs_text(case.pairs)
    if at is None:
        return Found('D3, D4', Line('4', '0', '0', '0', pairs, '-'), 0 if places else ROWS)
    counter = case.pairs[at][4]
    if counter == LAST:
        return Found('D5', Line('3', '0', '0', '0', pairs, '-'), 0)
    mine = Line('0', '0', '0', str(counter), pairs_text(raised(case.pairs, at)), '-')
    return Found('D6', mine, ROWS) if at == places[0] else Found('D2', mine, 0)


def of_record_aps(case, line):
    if line.answer == '4' and len(case.pairs) == 2:
        row = (case.device, 2, b'ZigBeeAlliance09', 1, 0, case.counter)
        return Found('D1', line._replace(answer='0', rows=pairs_text([*case.pairs, row])), 0)
    return same(line)


def of_control(case, line):
    if case.level > 7:
        numbers = line.numbers.split(',')
        numbers[5] = str(case.control & 0xF8 | case.level & 7)
        return Found('F10', line._replace(numbers=','.join(numbers)), 0)
    return same(line)


def of_nwk_header(case, line):
    if not relays(case.first):
        return same(line)
    length = nwk_length(case.first)
    mine = Line('2', '0', '0', '-', '-', '-')
    if length is not None:
        mine = Line('0', '0', str(length), '%d,%d' % (nwk_kind(case.first), nwk_secured(case.first)), '-', '-')
    return Found('F1, F2', mine, 0)


def of_aps_header(case, line):
    if not case.first:
        return same(line)
    control = case.first[0]
    if not aps_taken(control):
        return Found('F4 to F7', Line('7', '0', '0', '-', '-', '-'), 0)
    if aps_command(control) and control >> 2 & 3 == 3:
        mine = Line('0', '0', '2', '1,%d' % (control >> 5 & 1), '-', '-') if len(case.first) >= 2 else Line('2', '0', '0', '-', '-', '-')
        return Found('F3', mine, 0)
    return same(line)


def of_write_auxiliary(case, line):
    if line.answer == '8':
        return Found('N8', Line('8', '0', '0', '-', '-', bytes_text(bytes([0xEE]) * case.room)), ANSWER + SPAN)
    return same(line)


RULES = {
    'open_nwk': of_open_nwk, 'secure_nwk': of_secure_nwk, 'open_aps': of_open_aps, 'secure_aps': of_secure_aps, 'hash': of_hash,
    'hash_from': of_hash, 'keyed_hash': of_keyed_hash, 'record': of_record, 'forget': of_forget, 'advance': of_advance,
    'record_aps': of_record_aps, 'control': of_control, 'nwk_header': of_nwk_header, 'aps_header': of_aps_header,
    'write_auxiliary': of_write_auxiliary,
}


def found(case, line):
    return RULES.get(case.call, lambda case, line: same(line))(case, line)


WIDTH = {'open_nwk': 26, 'record': 26, 'forget': 26}


def sorted_rows(case, rows):
    width = WIDTH.get(case.call, 68)
    return sorted(rows[i:i + width] for i in range(0, len(rows), width))


def agrees(case, wanted, mine):
    """Whether the project's line is the wanted one. The order of rows is left open, as is every part that is None."""
    parts = zip(wanted._replace(rows=None), mine)
    return all(want is None or want == have for want, have in parts) and sorted_rows(case, wanted.rows) == sorted_rows(case, mine.rows)
