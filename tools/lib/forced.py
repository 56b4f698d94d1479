"""Each branch of the handlers forced one way and the other: whether the pages of machine_pages notice it.

All are tried in one check of a copy. There each question of a handler has a number, and the options say which one is
forced; the pages are data in a crate of their own. `none` is the definition as it stands, which every page must bear
out."""
import re
from lib.edit import CRATES, check_of, copied, replaced

PAGES = sorted(path.stem for path in (CRATES / 'machine_pages/proofs').glob('On*.antt'))
EVENTS = 'enter, exit, enter_with, exit_with'
CASE = '''use Rattle.std.specs.Prelude.{Bool, true, false, List, [], ℕ}
use Prim.Native.String.{String}
use Rattle.event.specs.declared.Event.{Event}

pub data Opts : Type 0 where
  off html protocol images on quoted quoted_on : Opts

pub data End : Type 0 where
  Lf Cr CrLf : End

pub record Case : Type 0 where
  pub opts : Opts
  pub end : End
  pub text : List String
  pub events : List Event
  pub page : List String
  pub panics : Bool

abbrev pub shows : Opts → End → List String → List Event → List String → Case
shows o e t es p = record { opts = o; end = e; text = t; events = es; page = p; panics = false }

abbrev pub stops : Opts → End → List String → List Event → Case
stops o e t es = record { opts = o; end = e; text = t; events = es; page = []; panics = true }

'''
NOTICED = '''use Rattle.std.specs.Prelude.{Bool, true, false, List, [], ◌∷◌, ℕ}
use Rattle.cases.specs.Case as K
use Rattle.cases.specs.Case.{Case, Opts, End}
use Rattle.machine.specs.declared.Ending.{Ending}
use Rattle.machine.specs.declared.Ending.TheVariants.{Lf, Cr, CrLf}
use Rattle.machine.specs.declared.Options.{Options}
use Rattle.machine.proofs.Running.{running}
use Rattle.machine.proofs.Answers.{shows, stops, options_of}

abbrev end_of : End → Ending
end_of K.Lf = Lf
end_of K.Cr = Cr
end_of K.CrLf = CrLf

abbrev opts_of : ℕ → Opts → Ending → Options
opts_of m K.off e = options_of m false false false false e
opts_of m K.html e = options_of m false true false false e
opts_of m K.protocol e = options_of m false false true false e
opts_of m K.images e = options_of m false false false true e
opts_of m K.on e = options_of m false true true true e
opts_of m K.quoted e = options_of m true false false false e
opts_of m K.quoted_on e = options_of m true true true true e

abbrev holds : Options → Case → Bool
holds o c = elim c.panics [ true ↦ stops o c.text c.events | false ↦ shows o c.text c.events c.page ]

unfoldable pub noticed : ℕ → List Case → Bool
noticed m [] = false
noticed m (c ∷ cs) = elim (holds (opts_of m c.opts (end_of c.end)) c) [ true ↦ noticed m cs | false ↦ true ]

unfoldable pub all : ℕ
unfolding running noticed
all = 0
'''
OWN = 'cases: lent event\nforced: lent event machine cases\n'
# proofs of the crate machine that say nothing of questions
UNWANTED = ('CodeText', 'Examples', 'Outcomes', 'Pushes')
# question k is answered yes where the options force 2 k + 1, and no where they force 2 k + 2
ANSWERED = '''test (forced k q) t s = if eqb t.options.forced (k + k + 1) then go true else \
(if eqb t.options.forced (k + k + 2) then go false else test q t s)
test (is f) t s ='''
OPTIONS = ' options_with : (apostrophes html protocol images : Bool) → Ending → Options\noptions_with a h p i e ='
OPTIONS_OF = ' options_of : ℕ → (apostrophes html protocol images : Bool) → Ending → Options\noptions_of m a h p i e ='
CHANGES = [
    ('machine/src/lib.rt', 'pub struct Options {\n', 'pub struct Options {\n    pub forced: u64,\n'),
    ('machine/specs/Test.antt', '  is_empty_item : Test\n', '  is_empty_item : Test\n  forced : ℕ → Test → Test\n'),
    ('machine/specs/Test.antt', 'test (is f) t s =', ANSWERED),
    ('machine/specs/Test.antt', 'ℕ, eqb, leb, ltb, length}\n',
     'ℕ, ◌+◌, eqb, leb, ltb, length, if◌then◌else◌}\n'),
    ('machine/proofs/Answers.antt', 'older e = record {', 'older e = record { forced = 0;'),
    ('machine/proofs/Answers.antt', f'{OPTIONS}\n    record {{', f'{OPTIONS_OF}\n    record {{ forced = m;'),
    ('machine/proofs/Answers.antt', 'abbrev pub options :', f'abbrev pub{OPTIONS} options_of 0 a h p i e\n\nabbrev pub options :'),
]
# pages of its own kind, which are looked at first
NEAR = {
    'OnText': 'OnParagraph OnHtml OnListItem OnDefinition',
    'OnInline': 'OnCodeText OnBreak OnEmphasis OnAutolink OnImage',
    'OnFlow': 'OnParagraph OnCodeFenced OnCodeIndented OnBlockQuote OnContainer OnListItem',
    'OnHeading': 'OnHeading', 'OnSetext': 'OnHeading', 'OnList': 'OnListItem', 'OnTable': 'OnTable',
    'OnCell': 'OnTable', 'OnMedia': 'OnLink OnImage',
}


class Forced:
    """The copy, and its questions: file, handler and words of each, by number."""

    def __init__(self, folder):
        self.folder, self.crates, self.sites = folder, folder / 'crates', []
        copied(folder, ['machine'])
        with open(folder / 'crates.txt', 'a') as lines:
            lines.write(OWN)
        self.force()
        self.write_cases()

    def write(self, path, lines):
        (self.crates / path).parent.mkdir(parents=True, exist_ok=True)
        head = '-- Made by tools/edits forced. Assumes nothing.\n' if path.endswith('.antt') else ''
        (self.crates / path).write_text(head + lines)

    def force(self):
        self.write('machine/proofs/Lib.antt', 'pub mod Running\npub mod Answers\n')
        for name in UNWANTED:
            (self.crates / f'machine/proofs/{name}.antt').unlink()
        for file, old, new in CHANGES:
            path = self.crates / file
            path.write_text(replaced(path.read_text(), old, new, file))
        for path in sorted((self.crates / 'machine/specs').glob('On*.antt')):
            self.number_questions(path)

    def number_questions(self, path):
        lines, handler, before = path.read_text().split('\n'), '', len(self.sites)

        def number(match):
            self.sites.append((path.stem, handler, match[0]))
            return len(self.sites) - 1

        def asked(match):
            return f'{match[1]} (forced {number(match)} {match[2]})'

        def tagged(match):
            return f'whether (forced {number(match)} (is alt)) nothing (put {match[1]})'

        for i, line in enumerate(lines):
            if not line.startswith(('use ', '--', 'unfoldable')):
                handler = line.split()[0] if line[:1].isalpha() else handler
                line = re.sub(r'\b(whether|when|unless) (\(is \w+\)|\w+)', asked, line)
                lines[i] = re.sub(r'\btag ("[^"]*")', tagged, line)
        if len(self.sites) > before:
            text = re.sub(r'(Test\.\{)', r'\1forced, ', '\n'.join(lines), count=1)
            needed = re.search(r'Command\.\{([^}]*)\}', text)[1].split(', ')
            added = ''.join(f'{word}, ' for word in ('nothing', 'whether') if word in text and word not in needed)
            path.write_text(text.replace('Command.{', 'Command.{' + added, 1))

    def write_cases(self):
        """The pages as data, which no edit of the definition touches."""
        answers = (self.crates / 'machine/proofs/Answers.antt').read_text()
        events = answers.split('-- ---- events\n')[1].split('-- ---- tests')[0]
        self.write('cases/src/lib.rt', '// Pages as data.\n')
        self.write('cases/specs/Lib.antt', 'pub mod Case\n' + ''.join(f'pub mod {page}\n' for page in PAGES))
        self.write('cases/specs/Case.antt', CASE + events)
        for page in PAGES:
            text = (CRATES / f'machine_pages/proofs/{page}.antt').read_text()
            found = re.findall(r'^(v\d+) : T \((shows|stops) \((\w+ \w+)\) (.*)\)$', text, re.M)
            if not found or len(found) != len(re.findall(r'^v\d+ :', text, re.M)):
                raise ValueError(f'a test in {page} of another form')
            self.write(f'cases/specs/{page}.antt', case_lines(found))

    def names(self):
        """HANDLER/QUESTION/ANSWER by number, and what is asked."""
        told, count = {'none': (0, 'the definition as it stands')}, {}
        for k, (_, handler, question) in enumerate(self.sites):
            count[handler] = count.get(handler, 0) + 1
            for place, answer in enumerate(('yes', 'no'), 1):
                told[f'{handler}/{count[handler]}/{answer}'] = 2 * k + place, f'{question} forced to {answer}'
        return told

    def write_proofs(self, numbers):
        """A theorem for each: some page shows it."""
        self.write('forced/src/lib.rt', '// Forced branches.\n')
        self.write('forced/proofs/Lib.antt', 'mod Noticed\nmod Forced\n')
        self.write('forced/proofs/Noticed.antt', NOTICED)
        lines = 'use Rattle.std.specs.Prelude.{T, not, ◌++◌}\n'
        lines += 'use Rattle.forced.proofs.Noticed.{noticed, all}\n'
        lines += ''.join(f'use Rattle.cases.specs.{page} as {page}\n' for page in PAGES)
        unfolding = 'unfolding all ' + ' '.join(f'{page}.cases' for page in PAGES)
        for number in numbers:
            first = NEAR.get(self.sites[(number - 1) // 2][0], '').split() if number else []
            order = ' ++ '.join(f'{page}.cases' for page in first + [page for page in PAGES if page not in first])
            lines += f'\nm{number} : T ({"" if number else "not "}(noticed {number} ({order})))\n{unfolding}\nm{number} = tt\n'
        self.write('forced/proofs/Forced.antt', lines)

    def lost(self, numbers):
        """Those that no page shows; with 0, that a page does not bear out the definition itself."""
        self.write_proofs(numbers)
        check = check_of(self.folder, 'forced')
        errors = [line for line in check.stdout.splitlines() if ': error' in line]
        if check.returncode and not (errors and all('/Forced.antt' in line for line in errors)):
            raise ValueError(check.stdout[-2000:])
        return {int(number) for number in re.findall(r'error: `m(\d+)`', check.stdout)}


def case_lines(found):
    names = [name for name, *_ in found]
    used = f'Case, shows, stops, off, html, protocol, images, on, quoted, quoted_on, Lf, Cr, CrLf, {EVENTS}'
    lines = f'use Rattle.std.specs.Prelude.{{List, [], ◌∷◌}}\nuse Rattle.cases.specs.Case.{{{used}}}\n\n'
    for name, kind, options, rest in found:
        lines += f'unfoldable pub {name} : Case\n{name} = {kind} {options} {rest}\n\n'
    return lines + f'unfoldable pub cases : List Case\nunfolding {" ".join(names)}\ncases = {" ∷ ".join(names)} ∷ []\n'
