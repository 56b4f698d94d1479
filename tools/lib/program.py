"""How the programs of this repository are made and started: proved and built by `rt`, which leaves each in its crate's out/."""
import functools, os, re, subprocess, sys, threading, time

ROOT = os.path.dirname(os.path.dirname(os.path.dirname(os.path.abspath(__file__))))
MOST_WORDS = 60  # lines of the prover that are shown


def stop(sentence, status=1):
    """Ends the run with a sentence on standard error."""
    print(sentence, file=sys.stderr)
    sys.exit(status)


def tool(main, usage):
    """Runs a tool's main on its words: --help is answered, and a file, a number or a key that ends it gives a sentence."""
    try:
        if '--help' in sys.argv[1:] or '-h' in sys.argv[1:]:
            write_output(usage.strip().encode() + b'\n')
        else:
            main(sys.argv[1:])
    except KeyboardInterrupt:
        stop('stopped by a key', 130)
    except OSError as error:
        stop(f'{error.filename or "standard output"}: {error.strerror}')


def write_output(data):
    """Writes all of it, or ends the run."""
    if sys.stdout is None:
        stop('standard output is closed: nothing was written')
    left = memoryview(data)
    while left:
        try:
            left = left[os.write(1, left):]
        except BlockingIOError:
            time.sleep(0.001)


def write_file(name, data):
    """Writes a file beside and renames it, so that none is ever cut short."""
    name = os.path.realpath(name)
    if os.path.exists(name) and not os.path.isfile(name):
        stop(f'{name} is no file that can be replaced')
    beside = f'{name}.{os.getpid()}.new'
    try:
        with open(beside, 'xb') as out:
            out.write(data)
            out.flush()
            os.fsync(out.fileno())
        if os.path.exists(name):
            os.chmod(beside, os.stat(name).st_mode & 0o7777)
        os.rename(beside, name)
    except BaseException:
        if os.path.exists(beside):
            os.remove(beside)
        raise


def folder(name):
    """Where a crate stands."""
    return os.path.join(ROOT, 'crates', name)


def dependencies(listed):
    """The crates of a list such as crates.txt, each with the crates that it names."""
    with open(listed) as lines:
        rows = [line.split('#')[0].partition(':') for line in lines]
    return {words.split()[0]: named.split() for words, colon, named in rows if colon}


def reached(names, listed=os.path.join(ROOT, 'crates.txt')):
    """These crates and all that they stand on, those of the kit too; and those of the list alone."""
    known, found, new = dependencies(listed), [], list(names)
    while new:
        name = new.pop()
        if name not in found:
            found.append(name)
            new += known.get(name, [])
    return sorted(found), [name for name in found if name in known]


class Progress:
    """A line on standard error that moves: how many crates were proved of at most so many, seconds, and how long it may take still."""

    def __init__(self, count):
        self.count, self.done, self.name = count, 0, ''
        self.began, self.over = time.time(), threading.Event()
        self.moves = sys.stderr.isatty()
        self.thread = threading.Thread(target=self.move, daemon=True)
        self.thread.start()

    def line(self):
        seconds = int(time.time() - self.began)
        left = f', at most about {int(seconds / self.done * (self.count - self.done))} s to go' if self.done else ''
        return f'proving: {self.done} of at most {self.count} crates{self.name}, {seconds} s{left}'

    def show(self):
        sys.stderr.write(f'\r\x1b[K{self.line()}' if self.moves else f'{self.line()}\n')
        sys.stderr.flush()

    def move(self):
        while self.moves and not self.over.wait(1):
            self.show()

    def take(self, name):
        self.done, self.name = self.done + 1, f', last {name}'
        self.show()

    def end(self):
        self.over.set()
        if self.moves:
            self.thread.join()
            sys.stderr.write('\r\x1b[K')


def prove(names):
    """Has `rt` prove and build these programs with all that they stand on. What is unchanged since is not proved again."""
    progress = Progress(len(reached(names)[1]))
    try:
        for name in names:
            build(name, progress)
    finally:
        progress.end()


def build(name, progress):
    """`rt run` builds a program and runs it, here on no input: each of them ends at once then."""
    apart = {'stdin': subprocess.DEVNULL, 'stdout': subprocess.DEVNULL, 'stderr': subprocess.PIPE}
    try:
        run = subprocess.Popen(['rt', 'run'], cwd=folder(name), text=True, errors='replace', **apart)
    except FileNotFoundError:
        progress.end()
        stop('there is no `rt` here: install the Rattle toolchain')
    try:
        words, proved = followed(run.stderr, progress)
        status = run.wait()
    finally:
        if run.poll() is None:
            run.terminate()
            run.wait()
    if status and not proved:
        progress.end()
        stop(''.join(words[-MOST_WORDS:]) + f'`rt run` in crates/{name} did not prove all: its own words stand above')


def followed(lines, progress):
    """What `rt` says of crates that are not proved, and whether it came to run the program."""
    current, proved = [], False
    for line in lines:
        found = re.match(r'crate (\w+): modules loaded=\d+ checked=([1-9])', line)
        if found:
            progress.take(found[1])
        if line.startswith('logic=proved'):
            current.clear()
        proved = proved or line.startswith('rt: running ')
        current += [line] * (not re.search(': note: |^library |^statements |: proved$|^checked ', line))
    return current, proved


@functools.lru_cache(None)
def command(name):
    """The words that start a program: proved and built first where it, or what it stands on, has changed."""
    prove([name])
    return [os.path.join(folder(name), 'out', name)]


def unproved(name):
    """The words that start a program which is compiled anew as its sources stand, without any proof. It ends within a minute."""
    print(f'compiling {name} WITHOUT PROOF: what it says is a look, no promise', file=sys.stderr)
    return ['env', '-C', folder(name), 'rt', 'try', '--steps', '1']
