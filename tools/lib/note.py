"""A note's events, its bundle and its page, as the tools have them."""
import os, struct, subprocess, sys
from lib.program import ROOT, stop

RUST = os.path.join(ROOT, 'rust')
CARGO = {**os.environ, 'CARGO_TARGET_DIR': os.path.join(RUST, 'target')}
EXPORTER = 'notepage-export'
BUILD, WRITE_BUNDLE, READ_PARTS = 7, 9, 10
BLOCK, MOST_BUNDLE, MOST_TEXT, MOST_EVENTS, RECORD = 512, 131584, 64000, 3200, 20
READ_ROOM, PAGE_ROOM, WORK, MOST_SENT = 64000, 65536, 49152, 262144
THE_END_IS_SAID = 1


def contents(name):
    with open(name, 'rb') as file:
        return file.read()


def is_bundle(data):
    """Whether it begins as a bundle does: whole blocks, the first one a header with number 0."""
    return len(data) > 0 and len(data) % BLOCK == 0 and data[4:8] == b'\0\0\1\0'


def is_text(data):
    return b'\0' not in data


def exporter():
    """The exporter, compiled by cargo where it, or what it stands on, has changed."""
    program = os.path.join(RUST, 'target', 'release', EXPORTER)
    if not os.path.exists(program):
        print('compiling the exporter with the crate\'s parser: some 20 seconds', file=sys.stderr)
    words = ['cargo', 'build', '--offline', '--release', '--quiet', '-p', EXPORTER]
    try:
        made = subprocess.run(words, cwd=RUST, env=CARGO, capture_output=True, text=True)
    except FileNotFoundError:
        stop('there is no `cargo` here: the exporter of a note\'s events is compiled by it')
    if made.returncode:
        stop(made.stderr + 'the exporter can\'t be compiled: what cargo said stands above')
    return [program]


def events_of(name, note):
    """The event records of a note, by the crate's parser."""
    ran = subprocess.run(exporter(), input=note, capture_output=True)
    if ran.returncode:
        stop(f'{name}: {ran.stderr.decode(errors="replace").strip() or "the exporter was ended by a signal"}')
    return ran.stdout


def wrong_length(text, events):
    """What refusal 1 means for these two, or nothing."""
    if len(text) > MOST_TEXT:
        return f'{len(text):,} bytes of at most {MOST_TEXT:,}: split the note'
    if len(events) % RECORD:
        return f'the events are {len(events):,} bytes long, no whole number of records of {RECORD}: export them again'
    if len(events) > MOST_EVENTS * RECORD:
        return f'{len(events) // RECORD:,} events of at most {MOST_EVENTS:,}: split the note'


def asked(calls, op, text, events=b'', room=0, work=0, edition=0, options=0):
    """The answer of the program `calls`: the number, the value, the second number, and the buffers."""
    request = struct.pack('<BBBBIIIII8x', op, options, 0, 0, len(text), len(events), room, work, edition) + text + events
    ran = subprocess.run(calls, input=request, capture_output=True)
    if ran.returncode or len(ran.stdout) < 24:
        stop(f'the program `calls` gave no answer (it ended with {ran.returncode})')
    return *struct.unpack('<III', ran.stdout[:12]), ran.stdout[24:]


def bundle_of(calls, name, text, events, edition):
    """The bundle of a note, by the writer."""
    wrong = wrong_length(text, events)
    if wrong:
        stop(f'{name}: refused 1 at 0: {wrong}')
    number, value, _, out = asked(calls, WRITE_BUNDLE, text, events, MOST_BUNDLE, edition=edition)
    if number:
        stop(f'{name}: refused {number} at {value}')
    return out[:value]


def page_of(calls, bundle):
    """The number, the place and the page of a bundle, as `notepage` has them: what follows the largest bundle is not judged."""
    bundle = bundle[:MOST_SENT]
    part = struct.pack('<I', len(bundle))
    number, value, events, out = asked(calls, READ_PARTS, bundle, part, READ_ROOM, READ_ROOM, options=THE_END_IS_SAID)
    if number:
        return number, value, b''
    text, records = out[:value], out[READ_ROOM:READ_ROOM + events]
    number, value, _, out = asked(calls, BUILD, text, records, PAGE_ROOM, WORK)
    return number, value, b'' if number else out[:value]
