"""Files that somebody made to run script in tools/journal.html or to send something away, to stop the page or to write
its sentences: each word of each kind of line of a journal, its answers and its schedule is HTML once, a word that every
object of a script has, and signs that turn text or move a cursor; and small files that could take long. None is to do
anything but to be shown, each in its time."""
import json
import random
import re
import socket
import threading

# Read as HTML it is an element that loads and runs something, an attribute in quotes of either kind, and a reference.
WORD = '\'/spoilt="1"/<img/src="{away}"/onerror="window.pwned=1">&lt;b&gt;&'
COMMANDS = ('survey', 'rows', 'make 1/0', 'make 1/0 latest', 'make 1/0 time 5', 'take 1/0 0 w1', 'renew 1 1',
            'free 1 1', 'open 1', 'read 1 1 10', 'give 1', 'mark 1 1 1', 'mark 1 1 end', 'cut 1/0 0')
# Words that an object has before anybody gives it one, and signs: of the direction of writing, of a terminal, of a
# line's end.
OWN_WORDS = ('constructor', '__proto__')
SIGNS = 'a\u202eb\x1b[2J\x07\x0b\u2067\x85\x7f'
# The milliseconds of the processor that a page may take for one file: to read it, draw it twice, fold it and look for a
# record in it. Measured: under 1,200.
LIMIT = 5_000
REFUSALS = ('NoLease', 'Lost 2', 'Moved 3', 'ParentsOpen 1/0', 'Unheard')


class Listener:
    """A port of this machine, and who came to it."""

    def __init__(self):
        self.door = socket.create_server(('127.0.0.1', 0))
        self.address = f'http://127.0.0.1:{self.door.getsockname()[1]}/'
        self.heard = []
        threading.Thread(target=self.listen, daemon=True).start()

    def listen(self):
        while True:
            try:
                client, _ = self.door.accept()
            except OSError:
                return
            with client:
                client.settimeout(2)
                self.heard.append(client.recv(200))

    def close(self):
        self.door.close()


def words_of(line):
    """The places of a line's words: what spaces part, and what quotes part in JSON."""
    found = [it.span() for it in re.finditer(r'[^ ]+', line)] + [it.span(1) for it in re.finditer(r'"([^"]*)"', line)]
    return sorted(set(found))


def kind_of(line):
    """Lines of one kind differ in numbers and names alone."""
    words = line.split(' ')
    shape = re.sub(r'\d+', '0', ' '.join(words[:4]))
    if ' api ' in line or ' raw ' in line:
        return shape
    return re.sub(r'[0-9/]+', '0', words[2] if re.match(r'\d+ \d+ [a-z]', line) else shape)


def spoilt(text, word):
    """The text once for each word of the first line of each kind, with that word replaced."""
    lines, seen = text.splitlines(), set()
    for at, line in enumerate(lines):
        if kind_of(line) in seen:
            continue
        seen.add(kind_of(line))
        for begin, end in words_of(line):
            yield (f'line {at + 1}, {line[begin:end][:30]}',
                   '\n'.join([*lines[:at], line[:begin] + word + line[end:], *lines[at + 1:]]) + '\n')


def cases(away, stories):
    """Names and texts. A story is a journal, its answers and its schedule, or the journal and its answers alone."""
    word = WORD.format(away=away)
    yield from of_word(word, stories)
    yield from refused(word, *next(iter(stories.values())))
    for other in (*OWN_WORDS, SIGNS):
        yield from of_word(other, dict(list(stories.items())[:1]))
        yield from refused(other, *next(iter(stories.values())))
    yield from muddled(random.Random(11), *next(iter(stories.values())))


def of_word(word, stories):
    """Each text of each story once for each of its places, with the word there."""
    for name, (journal, *others) in stories.items():
        for what, text in spoilt(journal, word):
            yield f'{name}, journal, {what}', [text, *others]
        for at, kind in enumerate(('answers', 'schedule')[:len(others)]):
            for what, text in spoilt(others[at], word):
                yield f'{name}, {kind}, {what}', [journal, *others[:at], text, *others[at + 1:]]


def muddled(chance, *texts):
    """Texts whose lines and bytes were mixed by chance."""
    odd = ['\0', '\ufffd', '\u2028', '\r', ' ', '-1', '9' * 400, '1e9', 'NaN', 'end', '{', '[' * 2000, '" = "',
           '; handed', 'é', '\ud7ff']
    for i in range(200):
        found = []
        for text in texts:
            lines = text.splitlines()
            for _ in range(chance.randrange(1, 5)):
                at, kind = chance.randrange(len(lines)), chance.random()
                if kind < 0.3:
                    lines[at] = lines[chance.randrange(len(lines))]
                elif kind < 0.4:
                    del lines[at]
                else:
                    words = lines[at].split(' ')
                    words[chance.randrange(len(words))] = chance.choice(odd)
                    lines[at] = ' '.join(words)
            found.append('\n'.join(lines) + '\n')
        yield f'muddled {i}', found


# ---- files that could take long

def journal_of(lines, clock=9000):
    return '\n'.join(['journal 2', *lines, f'end {clock}']) + '\n'


def heavy():
    """Names and texts of small files, each with something that is many: what costs the square of
    it, or more than it, stops a page."""
    one = ['1000 0 made 1 s 1', '1000 1 lease 1/0', '1000 1 taken 1/0 1 1 w1', '1000 1 opened 1']
    puts = [f'1000 0 put 1 0 {i} 5 2 3' for i in range(1, 20_001)]
    yield 'streams of 500 shards', [journal_of(f'1000 0 made {i} s{i} 500' for i in range(1, 20_001))]
    yield ('streams of 500 shards that are deleted',
           [journal_of(it for i in range(1, 10_001) for it in (f'1000 0 made {i} s 500', f'1000 0 gone {i}'))])
    yield ('streams that are deleted, at one moment each',
           [journal_of((it for i in range(1, 20_001) for it in (f'{i} 0 made {i} s 1', f'{i} 0 gone {i}')), 20_000)])
    yield ('one shard that is split often',
           [journal_of([one[0], *(f'1000 0 split 1 0 5 1 {2 * i + 1} {2 * i + 2}' for i in range(20_000))])])
    yield ('splits of each child',
           [journal_of([one[0], *(f'1000 0 split 1 {i} 5 1 {2 * i + 1} {2 * i + 2}' for i in range(20_000))])])
    yield ('rows, and records below them',
           [journal_of([one[0], *puts,
                        *(it for i in range(10_000)
                          for it in (f'2000 1 lease 1/0 {"latest" if i % 2 else "time 1500"}', '2000 1 cut 1/0 0'))])])
    takes = [f'{2000 + i} {i % 900 + 1} taken 1/0 {i + 2} {i + 2} w{i % 900 + 1}' for i in range(10_000)]
    yield ('tenures that all go on behind their end',
           [journal_of([*one, *takes, *(f'20000 {i % 900 + 1} read {i + 2} 10 more' for i in range(10_000))], 30_000)])
    yield ('tenures by many workers',
           [journal_of([*one, *(f'{2000 + i} 1 taken 1/0 {i + 2} {i + 2} w{i + 1}' for i in range(10_000))], 30_000)])
    numbers = [[str(i) for i in range(1, 20_001) if i % 2 == part] for part in (1, 0)]
    reads = [f'2000 1 read 1 10000 more {" ".join(it)}' for it in (*numbers, [str(i) for i in range(1, 20_001)])]
    yield ('deliveries in very many runs',
           [journal_of([*one, *puts, *reads, '3000 1 given 1', '4000 1 given 1', '5000 1 given 1'])])
    yield ('a checkpoint at the end, often',
           [journal_of([*one, *(f'{2000 + i} 1 marked 1 2 end' for i in range(20_000))], 30_000)])
    yield 'renewals', [journal_of([*one, *(f'{2000 + i} 1 renewed 1 {i + 2}' for i in range(20_000))], 30_000)]
    yield ('numbers of many digits',
           [journal_of([*one, *(f'{"9" * 300} 0 put 1 0 {"9" * 300} 5 2 3' for _ in range(500))])])
    yield ('a line of digits',
           [journal_of([*one, '9' * 500_000, '1000 0 ' + 'a' * 500_000,
                        '1000 1 read 1 5 more' + ' 1' * 200_000 + 'x'])])
    yield 'lines that are none', ['journal 2\n' + 'nonsense\n' * 100_000]
    small = journal_of([*one, '1000 0 put 1 0 1 5 2 3'])
    head = ('200\nok\nok tenure 1 counter 1 start TRIM_HORIZON\nok\n'
            '200 {"SequenceNumber":"1","ShardId":"shardId-000000000000"}\n')
    yield 'refusals', [small, head + 'refused Lost 1\n' * 30_000]
    for name, text in {
            'signs of an answer': ' = ' * 120_000 + 'x', 'parts of a hand-off': 'make 1/0 = ok; ' * 50_000 + 'handed',
            'shards that are wanted': '200 {"CurrentShardCount":1,"StreamName":"s","TargetShardCount":10000000}',
            'types': '400 ' + '{"__type":"' * 50_000, 'a deep body': '200 {"SequenceNumber":' + '[' * 200_000,
            'records without a shard': '200 {"FailedRecordCount":0,"Records":[{"SequenceNumber":"1"}]}',
            'a record that is none': '200 {"SequenceNumber":"1"}',
            'reads': 'ok reach 9 more' + ' 1' * 100_000 + 'x'}.items():
        yield name, [small, head + text + '\n']
        yield f'{name}, and more of it', [small, head + (text + '\n') * 20]
    records = ''.join(f'record 1/{i} {i + 10**55}\n' for i in range(1, 20_001))
    yield 'names of very many records', [journal_of([one[0], *puts]),
                                         'names 1\n' + records + 'worker w1 ' + 'h' * 200 + '\n']
    yield 'bodies', [small, head, ''.join(f'1000 api PutRecord {json.dumps("x" * 50_000)}\n' for _ in range(5))]


def refused(word, journal, answers, schedule):
    """Commands and requests that are refused after the last line of a story: nothing of them stands in the journal."""
    clock = schedule.splitlines()[-1].split(' ')[0]
    for command in COMMANDS:
        for begin, end in words_of(command):
            bad = command[:begin] + word + command[end:]
            for name in REFUSALS[:2]:
                yield f'raw {command}, {name}', [journal, f'{answers}refused {name}\n',
                                                 f'{schedule}{clock} raw 1 {bad}\n']
            yield f'{command} = refused', [journal, f'{answers}{bad} = refused Moved 3\n']
            yield f'hand {command}', [journal, f'{answers}{bad} = refused Lost 1; refused\n',
                                      f'{schedule}{clock} hand 1000 1/0\n']
    for name in REFUSALS:
        for begin, end in words_of(name):
            bad = name[:begin] + word + name[end:]
            yield f'refused {name}', [journal, f'{answers}refused {bad}\n', f'{schedule}{clock} raw 1 make 1/0\n']
    for by in (word, f'1{word}'):
        yield 'actor', [journal, f'{answers}refused Lost 2\n', f'{schedule}{clock} raw {by} mark 1 2 3\n']
        yield 'operation', [journal, f'{answers}400 {{"__type":"{word}","message":"{word}"}}\n',
                            f'{schedule}{clock} api {by} {{}}\n']
        yield 'moment', [journal, f'{answers}refused Lost 2\n', f'{schedule}{by} raw 1 mark 1 2 3\n']


def three(away, journal, answers, schedule):
    """The three that once ran: an actor, a shard, and a shard in the answers alone."""
    word = f'<img/src="{away}"/onerror="window.pwned=1">'
    return {
        'an actor': ([journal, f'{answers}refused Lost 2\n', f'{schedule}1795961160000 raw {word} mark 1 2 3\n'], word),
        'a shard': ([journal, f'{answers}refused NoLease\n', f'{schedule}1795961160000 raw 1 take {word} 0 w1\n'],
                    f'take {word} 0 w1'),
        'a shard in the answers': ([journal, f'{answers}take {word} 0 w1 = refused Moved 3\n'], f'take {word} 0 w1'),
    }


# What a page does with files, and what it must not have afterwards: elements of another kind than
# its own, attributes that are script.
EXERCISE = """(async (cases) => {
    const own = new Set('html head meta title style body div header h1 h2 span input button label select option \
details summary textarea svg defs pattern line g path rect circle text code br \
table caption thead tbody tr th td a script'.split(' ')), found = [];
    // the help is the page's own text, and no file changes it
    const help = document.querySelector('#help'), asMade = help.outerHTML;
    const ofHelp = new Set('dialog h3 p ul li dl dt dd kbd'.split(' '));
    const look = (name) => {
        for (const it of document.querySelectorAll('*')) {
            const tag = it.tagName.toLowerCase();
            const mine = own.has(tag) || ofHelp.has(tag) && help.contains(it);
            if (!mine) found.push([name, it.tagName, it.outerHTML.slice(0, 80)]);
            for (const { name: attribute } of it.attributes)
                if (/^on|^spoilt$/.test(attribute)) found.push([name, it.tagName, attribute]);
        }
        if (help.outerHTML !== asMade) found.push([name, 'another help']);
        if (window.pwned) { found.push([name, 'ran']); window.pwned = undefined; }
        const text = document.body.textContent;
        if (/native code|\[object Object\]/.test(text)) found.push([name, 'a word of the script']);
        const sign = /[\\u202a-\\u202e\\u2066-\\u2069\\u0080-\\u009f\\0-\\x08\\x0b-\\x1f\\x7f]/.exec(text);
        if (sign) found.push([name, 'a sign that is obeyed', sign[0].charCodeAt(0)]);
    };
    for (const [i, [name, texts]] of cases.entries()) {
        state.files = {}; state.joined = false;
        arrive(texts.map((text) => ({ text, name })));
        if (state.model) {
            for (const it of [...state.model.refused.slice(-2), ...state.model.journal.entries.slice(0, 2)]) select(it);
            if (i % 10 === 0) { foldAll(); look(name); onPaper(); look(name); offPaper(); }
        }
        look(name);
        await new Promise((done) => setTimeout(done));
    }
    look('the last');
    return found;
})"""

# What a page takes for a file that could take long, in milliseconds: to read it, to draw it by both axes, to fold and
# unfold it, and to look for a record.
TIMED = """((texts) => {
    const begin = performance.now();
    state.files = {}; state.joined = false;
    arrive(texts.map((text) => ({ text, name: 'heavy' })));
    if (state.model) {
        draw(); axis('entry'); draw(); axis('clock'); foldAll(); foldAll(); draw();
        document.querySelector('#search').value = 'record 9'; search(1); go(1);
    }
    return performance.now() - begin;
})"""
