"""Edits: wrong programs and definitions that must be noticed, each a file of the form that `rt must-fail` reads."""
import pathlib, shutil, subprocess
from lib import program
from lib.program import reached

ROOT = pathlib.Path(program.ROOT)
CRATES = ROOT / 'crates'
PARTS = ('src', 'specs', 'proofs')
# what tries the edits of a crate's folder, and the folder: `rt ci` has those of the gate, and calls any below must-fail bad
FOLDERS = {'gate': 'must-fail', 'more': 'edits/more', 'stops': 'edits/stops', 'pages': 'edits/pages'}


class Edit:
    """CRATE/LABEL: pairs of texts, old and new, each with the file of the crate that has the old one."""

    def __init__(self, path):
        self.path, self.crate, self.label = path, path.relative_to(CRATES).parts[0], path.stem
        self.name = f'{self.crate}/{self.label}'
        # one that shows that the others are not noticed for another reason: it must not be noticed
        self.harmless = self.label.startswith('harmless_')
        self.pairs = list(pairs_of(path.read_text()))


def pairs_of(text):
    """A file holds for the pairs behind it. What is neither file, old nor new is passed over."""
    file = old = ''
    for line in text.split('\n'):
        if line.startswith('file: '):
            file = line.removeprefix('file: ')
        elif line.startswith('old: '):
            old = line.removeprefix('old: ')
        elif line.startswith('new:'):
            yield file, old, line.removeprefix('new:').removeprefix(' ')
            old = ''


def edits_of(kind):
    return [Edit(path) for path in sorted(CRATES.glob(f'*/{FOLDERS[kind]}/*.edit'))]


def replaced(text, old, new, file):
    """The text with an old one, which must stand in it exactly once, made new."""
    if not old or text.count(old) != 1:
        raise ValueError(f'{text.count(old) if old else 0} times in {file}: {old}')
    if old == new:
        raise ValueError(f'nothing changes in {file}: {old}')
    return text.replace(old, new)


def edited(edit, crates=CRATES):
    """The files that the edit changes, with their new texts."""
    files = {}
    for file, old, new in edit.pairs:
        path = crates / edit.crate / file
        if file.split('/')[0] not in PARTS or '..' in file or not path.is_file():
            raise ValueError(f'no file of the crate under {", ".join(PARTS)}: {file}')
        files[path] = replaced(files.get(path) or path.read_text(), old, new, file)
    if not files:
        raise ValueError('no pair of old and new')
    return files


def listed(line, crates):
    """A line of crates.txt, if a copy of these crates has it."""
    head, colon, _ = line.partition('#')[0].partition(':')
    return f'{line}\n' if colon and head.split()[0] in crates else ''


def copied(folder, crates):
    """These crates and all that they stand on, in a folder outside the repository: `rt ci` refuses a copy within. What `rt`
    has proved of them stays proved there."""
    shutil.rmtree(folder, ignore_errors=True)
    folder.mkdir(parents=True)
    lines = (ROOT / 'crates.txt').read_text().splitlines()
    every = [line.partition(':')[0].split()[0] for line in lines if line.partition('#')[0].strip()]
    (folder / 'crates.txt').write_text(''.join(listed(line, every) for line in lines))
    needed = reached(crates, folder / 'crates.txt')[1]
    (folder / 'crates.txt').write_text(''.join(listed(line, needed) for line in lines))
    for crate in needed:
        shutil.copytree(CRATES / crate, folder / 'crates' / crate, ignore=shutil.ignore_patterns('out'))


def check_of(folder, crate):
    """What `rt check` says of a crate of the copy, and of those below it."""
    return subprocess.run(['rt', 'check'], cwd=folder / 'crates' / crate, stdout=subprocess.PIPE, stderr=subprocess.STDOUT, text=True)


def checked(edit, folder, crate):
    """What `rt check` says of the crate in the copy with the edit made. It is taken back then."""
    files = edited(edit, folder / 'crates')
    before = {path: path.read_text() for path in files}
    try:
        for path, text in files.items():
            path.write_text(text)
        return check_of(folder, crate)
    finally:
        for path, text in before.items():
            path.write_text(text)
