"""What document 01 lays out, as far as a run needs it to say what a difference should look like: lengths of headers, and the order of the
checks up to the tag. It decides no case on which the Rust and the project agree."""
import collections

from form import BLANK, Line, bytes_text, pairs_text, rows_text

LAST = 2 ** 32 - 1
TAG = 4
TRUST_CENTRE_KEY = b'ZigBeeAlliance09'

# A secured frame that only its tag can settle: where its auxiliary header starts and ends, and what stands there.
Claim = collections.namedtuple('Claim', 'at payload control counter sender number')


def unchanged(case, answer):
    """The line of a refusal."""
    numbers = {'open_nwk': case.active, 'secure_nwk': case.outgoing}.get(case.call, '-')
    rows = pairs_text(case.pairs) if case.call.endswith('_aps') else rows_text(case.rows) if case.call == 'open_nwk' else '-'
    value = case.first if case.call.startswith('open') else bytes([BLANK]) * case.room
    return Line(str(answer), '0', '0', str(numbers), rows, bytes_text(value))


def told(case, answer, start, length):
    return unchanged(case, answer)._replace(start=str(start), len=str(length))


def nwk_control(frame):
    return frame[0] | frame[1] << 8


def nwk_kind(frame):
    return frame[0] & 3


def nwk_secured(frame):
    return bool(frame[1] & 2)


def nwk_route_at(frame):
    """Where the source route stands, if it is flagged."""
    control = nwk_control(frame)
    return 8 + 8 * (control >> 11 & 1) + 8 * (control >> 12 & 1) + (control >> 8 & 1)


def relays(frame):
    """How many relays are named; 0 where no source route is flagged or its count is cut."""
    if len(frame) < 8 or not frame[1] & 4 or len(frame) <= nwk_route_at(frame):
        return 0
    return frame[nwk_route_at(frame)]


def nwk_length(frame):
    """The NWK header's length, or None where it is cut."""
    if len(frame) < 8:
        return None
    length = nwk_route_at(frame) + (2 + 2 * relays(frame) if frame[1] & 4 else 0)
    return length if length <= len(frame) else None


def aps_taken(control):
    return control & 3 < 2 and not control & 0x80 and not (control & 3 == 0 and control >> 2 & 3 == 1)


def aps_command(control):
    return control & 3 == 1


def aps_size(control):
    return 2 if aps_command(control) else 9 if control >> 2 & 3 == 3 else 8


def auxiliary_length(control):
    return 5 + 8 * (control >> 5 != 0) + (control >> 3 & 3 == 1)


def auxiliary(frame, at):
    """The claim of the auxiliary header at a place, or None where it is cut."""
    if len(frame) <= at or len(frame) < at + auxiliary_length(frame[at]):
        return None
    control, end = frame[at], at + auxiliary_length(frame[at])
    sender = int.from_bytes(frame[at + 5:at + 13], 'little') if control >> 5 else None
    number = frame[end - 1] if control >> 3 & 3 == 1 else None
    return Claim(at, end, control, int.from_bytes(frame[at + 1:at + 5], 'little'), sender, number)


def nwk_settled(case):
    """Opening NWK up to the tag: the line that is settled, or the claim."""
    frame = case.first
    if case.level != 5 or len(frame) > 1024:
        return unchanged(case, 7)
    at = nwk_length(frame)
    if at is None:
        return unchanged(case, 2)
    if not nwk_secured(frame):
        return told(case, 1, at, len(frame) - at)
    claim = auxiliary(frame, at)
    if claim is None:
        return unchanged(case, 2)
    if claim.counter == LAST or claim.sender is None or claim.number is None:
        return unchanged(case, 3)
    if claim.number not in [number for number, _ in case.keys]:
        return unchanged(case, 4)
    if any((number, sender) == (claim.number, claim.sender) and claim.counter <= held for number, sender, held in case.rows):
        return unchanged(case, 3)
    return unchanged(case, 2) if len(frame) - claim.payload < TAG else claim


def aps_settled(case):
    """Opening APS up to the tag, likewise."""
    frame = case.first
    if case.level != 5 or len(frame) > 1024:
        return unchanged(case, 7)
    if len(frame) < 4:
        return unchanged(case, 2)
    if not aps_taken(frame[0]):
        return unchanged(case, 7)
    at = aps_size(frame[0])
    if len(frame) < at:
        return unchanged(case, 2)
    if not frame[0] & 0x20:
        return told(case, 1, at, len(frame) - at)
    claim = auxiliary(frame, at)
    if claim is None:
        return unchanged(case, 2)
    if claim.counter == LAST:
        return unchanged(case, 3)
    if claim.sender is None:
        return unchanged(case, 4)
    if claim.number is not None:
        return unchanged(case, 3)
    held = [row[5] for row in case.pairs if row[0] == claim.sender]
    if held and claim.counter <= held[0]:
        return unchanged(case, 4)
    return unchanged(case, 2) if len(frame) - claim.payload < TAG else claim


def opened(case, claim, payload):
    """What opening leaves of a frame whose payload is known."""
    frame = bytearray(case.first)
    frame[claim.at] = frame[claim.at] & 0xF8 | 5
    frame[claim.payload:-TAG] = payload
    line = told(case, 0, claim.payload, len(payload))._replace(bytes=bytes_text(frame))
    if case.call == 'open_aps':
        new = (claim.sender, 2, TRUST_CENTRE_KEY, 1, 0, claim.counter)
        known = [row[:5] + (claim.counter,) if row[0] == claim.sender else row for row in case.pairs]
        return line._replace(rows=pairs_text(known if claim.sender in [row[0] for row in case.pairs] else [*case.pairs, new]))
    pair = (claim.number, claim.sender)
    rows = [row for row in case.rows if row[:2] != pair] + [pair + (claim.counter,)]
    active = claim.number if claim.number == (case.active + 1) % 256 else case.active
    return line._replace(numbers=str(active), rows=rows_text(rows))


def usable(case):
    """The place of the row by which securing APS sends, or None."""
    places = [i for i, row in enumerate(case.pairs) if row[0] == case.device and row[1] <= 2]
    return places[0] if places else None


def raised(pairs, at):
    """The pairs with the outgoing counter of one row raised."""
    row = pairs[at]
    return [*pairs[:at], row[:4] + (row[4] + 1,) + row[5:], *pairs[at + 1:]]


def nwk_secured_line(case):
    """Securing NWK. The bytes of a finished frame are the case's `sealed`; without it they are left open."""
    plain = case.first
    if case.level != 5 or len(plain) > 1006:
        return unchanged(case, 7)
    if nwk_length(plain) is None:
        return unchanged(case, 2)
    if nwk_kind(plain) >= 2 or not nwk_secured(plain):
        return unchanged(case, 7)
    if case.active not in [number for number, _ in case.keys]:
        return unchanged(case, 4)
    if case.outgoing == LAST:
        return unchanged(case, 6)
    if case.room < len(plain) + 18:
        return unchanged(case, 8)
    return finished(case, len(plain) + 18)._replace(numbers=str(case.outgoing + 1))


def aps_secured_line(case):
    """Securing APS, likewise."""
    plain = case.first
    if case.level != 5 or len(plain) > 1006:
        return unchanged(case, 7)
    if not plain:
        return unchanged(case, 2)
    if not aps_taken(plain[0]) or not plain[0] & 0x20:
        return unchanged(case, 7)
    header, command = aps_size(plain[0]), aps_command(plain[0])
    if len(plain) < header + command:
        return unchanged(case, 2)
    if command and plain[header] == 5 and plain[header + 1:header + 2] not in (b'\1', b'\3', b'\4'):
        return unchanged(case, 7)
    at = usable(case)
    if at is None:
        return unchanged(case, 4)
    if case.pairs[at][4] == LAST or not (command or case.extended):
        return unchanged(case, 3)
    if case.room < len(plain) + 17:
        return unchanged(case, 8)
    return finished(case, len(plain) + 17)._replace(rows=pairs_text(raised(case.pairs, at)))


def finished(case, length):
    value = None if case.sealed is None else bytes_text(case.sealed + bytes([BLANK]) * (case.room - length))
    return unchanged(case, 0)._replace(len=str(length), bytes=value)


def identifier(plain):
    """The key identifier by which securing APS sends a plain frame."""
    header = aps_size(plain[0])
    if not aps_command(plain[0]) or plain[header:header + 1] != b'\5':
        return 0
    return 2 if plain[header + 1:header + 2] == b'\1' else 3
