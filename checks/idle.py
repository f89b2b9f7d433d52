"""What proofs have and don't need, as far as a script can tell: variables of the proof in the lists that `omega` is
given, since omega reads those in scope anyway, and lemmas and definitions that nothing names."""
import collections
import re

from lib.checks import ROOT

WORD = re.compile(r'[^\s(){}.;,@"«»]+')
WHOLE = re.compile(r'^\s*(?:pub |ghost )*use Rattle\.([\w.]+)(?: as \w+)?;?\s*$', re.M)
IMPORTS = re.compile(r'^\s*(?:pub |ghost )*use Rattle\.([\w.]+?)\.\{([^}]*)\}', re.M)
PLAIN = re.compile(r'^\s*(?:pub )?use [^{\n]*\{([^}]*)\}', re.M)
DECLARED = re.compile(r'^(?:  )?(?:(?:unfoldable|abbrev|pattern|pub|axiom) )*([^\s(){}.;,@"«»]+)(?: \{[^}]*\})? : ',
                      re.M)
OMEGA = re.compile(r'\bomega \(\s*arith((?:,\s*[^\s(){}.;,@"«»]+)+),?\s*\)')
MARKS = {'unfoldable', 'abbrev', 'pattern', 'pub', 'axiom', 'record', 'data', 'mutual'}
OTHER = {'use', 'mod', 'open', 'infix', 'infixl', 'infixr', 'ruleset', 'unfolding', 'module', '}', '{', ']'}
# what pages alone name, and a digest that is computed to be compared with another program's
FOR_PAGES = {('kds_defs/specs/Streams.antt', 'cut'), ('kcl_sim/specs/Schedule.antt', 'turns'),
             ('kds_base/proofs/Digests.antt', 'of_a')}


def texts():
    """The place of each file of definitions, proofs and code below crates/, and its text."""
    for part in ('specs', 'proofs', 'src'):
        for path in sorted(ROOT.glob(f'crates/*/{part}/**/*')):
            if path.suffix in ('.rt', '.antt'):
                yield str(path.relative_to(ROOT / 'crates')), path.read_text()


def idle_entries():
    """Each file of proofs with the entries of lists for omega that are variables: what the file neither imports nor
    declares."""
    for where, text in texts():
        if '/proofs/' not in where:
            continue
        imported = {name.strip().split(' as ')[-1].strip() for names in PLAIN.findall(text)
                    for name in names.split(',')}
        known = imported | set(DECLARED.findall(text))
        found = [entry for match in OMEGA.finditer(text)
                 for entry in re.findall(r'[^\s,]+', match[1]) if entry not in known and entry != '_']
        if found:
            yield f'crates/{where}', found


def declarations(text):
    """The name and the words of each declaration of a file, comments left out."""
    name = None
    found = collections.defaultdict(list)
    for line in text.splitlines():
        line = line.partition('--')[0]
        if not line.strip():
            continue
        words = WORD.findall(line)
        if not line[0].isspace():
            name = next((word for word in words if word not in MARKS), None)
            name = None if name in OTHER else name
        if name:
            found[name] += words
    return found


def is_told(text, name):
    """Whether a file declares a name as one whose users need not name it: a type with fields or cases, or
    an answer that rattle asks for."""
    return bool(re.search(rf'^(?:\w+ )*(?:record|data) {re.escape(name)}\b', text, re.M))


def is_for_rattle(where):
    return where.endswith(('Answers.antt', 'Invariants.antt', 'Proof.antt', 'Lib.antt')) or 'Example' in where


def imported(files):
    """The names that files import, each with its module, and the names that code cites by a path."""
    found = set()
    for where, text in files:
        found |= {(module, name.strip().split(' as ')[0].strip()) for module, names in IMPORTS.findall(text)
                  for name in names.split(',')}
        crate = where.split('/')[0]
        for owner, part, path in re.findall(r'(?:crate|(\w+))::(proofs|specs)::([\w:]+)', text):
            *modules, name = path.split('::')
            found.add(('.'.join([owner or crate, part, *modules]), name))
    return found


def unnamed():
    """Each lemma and definition that no other declaration names, with its file."""
    files = list(texts())
    named = imported(files)
    whole = {module for _, text in files for module in WHOLE.findall(text)}
    for where, text in files:
        module = where[:-len('.antt')].replace('/', '.')
        if not where.endswith('.antt') or is_for_rattle(where) or module in whole:
            continue
        count = collections.Counter(WORD.findall(re.sub(r'^(?:pub )?use .*|--.*', '', text, flags=re.M)))
        for name, words in declarations(text).items():
            is_alone = count[name] == words.count(name) and (module, name) not in named
            if is_alone and not is_told(text, name) and (where, name) not in FOR_PAGES:
                yield f'crates/{where}', name
