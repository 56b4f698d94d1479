"""The event records of RULES R2 and the note bundle of RULES R15, packed apart from the proved writer."""
import struct

PAYLOAD = 500
EVENT = struct.Struct('<BBBBIIQ')  # kind, name, virtual spaces before and after, from, to, extra


def event(kind, name, start=0, end=0, before=0, after=0, extra=0):
    return EVENT.pack(kind, name, before, after, start, end, extra)


def block(edition, number, kind, payload):
    head = struct.pack('<IHBB', edition, number, kind, 0) + payload.ljust(PAYLOAD, b'\0')
    return head + struct.pack('<I', sum((place + 1) * byte for place, byte in enumerate(head)))


def cut(data):
    return [data[at:at + PAYLOAD] for at in range(0, len(data), PAYLOAD)]


def pack(text, events, edition=1):
    header = struct.pack('<II', len(text), len(events) // EVENT.size)
    parts = [(1, header)] + [(2, part) for part in cut(text)] + [(3, part) for part in cut(events)]
    return b''.join(block(edition, number, kind, part) for number, (kind, part) in enumerate(parts))
