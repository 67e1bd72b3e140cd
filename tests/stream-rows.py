#!/usr/bin/env python3
"""Runs the rows of crates/claims_rows/specs/Rows.antt: each row's stream through the program, and each row and call through the reading of
the papers in samples/oracle.py, against the text that the row says; and those of crates/claims_summary_rows/specs/Rows.antt, records, summaries and queries,
through the reading. Rows from other states than a fresh session cannot be run through the
program, which always begins with one. Needs target/bin/rig, which tests/program.sh makes.
"""

import os
import re
import struct
import subprocess
import sys

sys.dont_write_bytecode = True
ROOT = os.path.dirname(os.path.dirname(os.path.abspath(__file__)))
sys.path.insert(0, os.path.join(ROOT, 'samples'))
import oracle

PROGRAM = os.path.join(ROOT, 'target/bin/rig')
SOURCE = os.path.join(ROOT, 'crates/claims_rows/specs/Rows.antt')
SUMMARIES = os.path.join(ROOT, 'crates/claims_summary_rows/specs/Rows.antt')
TOKEN = re.compile(r'\s+|--[^\n]*|("(?:[^"\\]|\\.)*"|[()]|∷|\+\+|[^\s()"]+)')


def joined(rows):
    return [entry for row in rows for entry in row + [0] * (16 - len(row))]


def table(rows):
    return joined(rows) + [0] * (256 - 16 * len(rows))


# ---- the rows, read out of the file: numbers, texts, lists and the application of a definition

class Reader:
    def __init__(self, text):
        self.types, self.clauses = {}, {}
        for block in re.split(r'\n\s*\n', text):
            lines = [l for l in block.split('\n') if l and not l.startswith(('--', 'unfolding'))]
            head = re.match(r'(?:unfoldable |abbrev |pub )*(\w+) : (.*)', lines[0]) if lines else None
            if head and len(lines) > 1:
                left, _, right = '\n'.join(lines[1:]).partition('=')
                self.types[head[1]] = head[2]
                self.clauses[head[1]] = (left.split()[1:], right)
        self.known = {
            'prints': lambda bytes_, lines: (bytes_, lines),
            'replicate': lambda n, a: [a] * n,
            'fresh': lambda steps: (None, steps),
            'lent': lambda buffer, first, second, steps: (oracle.Session(buffer=buffer, first=first, second=second), steps),
            'held': self.held,
            'table': table,
            'joined': joined,
            'handed': lambda masks, shared, views, cameras, reference: oracle.Session(masks, views, cameras, reference, shared=shared),
            'leaves': lambda bytes_, rows: (bytes(bytes_), tuple(table(rows))),
            'asks': lambda session, first, second, told: (session, first, second, told),
            'called_at': lambda offset, after, row: (offset, after, row),
        }

    @staticmethod
    def held(numbers, masks, shared, views, cameras, reference, steps):
        session = oracle.Session(masks, views, cameras, reference, buffer=len(numbers), shared=shared)
        floats = [struct.unpack('<d', struct.pack('<Q', n))[0] for n in numbers]
        for cell in range(len(floats) // 7):
            session.cells[cell // 16, cell % 16] = tuple(floats[7 * cell:7 * cell + 7])
        return session, steps

    def value(self, name):
        return self.read(self.clauses[name][1], {})

    def read(self, text, bound):
        tokens = [t for t in TOKEN.findall(text) if t]
        found = self.joined(tokens, bound)
        if tokens:
            raise SyntaxError('rows: %s is left over' % tokens[0])
        return found

    def joined(self, tokens, bound):
        found = self.listed(tokens, bound)
        while tokens and tokens[0] == '++':
            tokens.pop(0)
            found = found + self.listed(tokens, bound)
        return found

    def listed(self, tokens, bound):
        first = self.applied(tokens, bound)
        if tokens and tokens[0] == '∷':
            tokens.pop(0)
            return [first] + self.listed(tokens, bound)
        return first

    def applied(self, tokens, bound):
        head = tokens[0]
        if head in ('(', '[]') or len(tokens) == 1 or tokens[1] in (')', '∷', '++'):
            return self.atom(tokens, bound)
        tokens.pop(0)
        arguments = []
        while tokens and tokens[0] not in (')', '∷', '++'):
            arguments.append(self.atom(tokens, bound))
        if head in self.known:
            return self.known[head](*arguments)
        names, body = self.clauses[head]
        return self.read(body, dict(zip(names, arguments)))

    def atom(self, tokens, bound):
        token = tokens.pop(0)
        if token == '(':
            inside = self.joined(tokens, bound)
            tokens.pop(0)
            return inside
        if token == '[]':
            return []
        if token.startswith('"'):
            return token[1:-1]
        if token[0].isdigit():
            return int(token, 0)
        return bound[token] if token in bound else self.value(token)


# ---- what runs print

def run(stream):
    return subprocess.run([PROGRAM], input=stream, stdout=subprocess.PIPE, check=True).stdout.decode()


def reading(session, stream):
    session, at, text = session or oracle.Session(), 0, ''
    while at < len(stream):
        reply, at = session.call(stream, at)
        text += oracle.lines(reply)
    return text


def stream_and_text(steps):
    return bytes(b for bytes_, _ in steps for b in bytes_), ''.join(line + '\n' for _, lines in steps for line in lines)


def main():
    with open(SOURCE, encoding='utf-8') as file:
        reader = Reader(file.read())
    ran = read = called = wrong = 0

    def hold(name, who, found, said):
        nonlocal wrong
        if found != said:
            wrong += 1
            print('rows: %s: %s gives %r, the row says %r' % (name, who, found, said), file=sys.stderr)

    for name, kind in reader.types.items():
        if name in ('fresh_rows', 'solved_rows', 'other_rows', 'rows', 'call_rows') or kind not in ('Row', 'List Row', 'List CallRow'):
            continue
        value = reader.value(name)
        if kind == 'List CallRow':
            for offset, after, (session, steps) in value:
                stream, text = stream_and_text(steps)
                reply, found = (session or oracle.Session()).call(stream, offset)
                hold(name, 'the reading', (oracle.lines(reply), found), (text, after))
                called += 1
            continue
        for session, steps in value if kind == 'List Row' else [value]:
            stream, text = stream_and_text(steps)
            if session is None:
                hold(name, 'the program', run(stream), text)
                ran += 1
            hold(name, 'the reading', reading(session, stream), text)
            read += 1
    hold('rows', 'the file', (read, called), (len(reader.value('rows')), len(reader.value('call_rows'))))

    with open(SUMMARIES, encoding='utf-8') as file:
        reader = Reader(file.read())
    records = [(name, session, name == 'true_records') for name in ('true_records', 'false_records') for session in reader.value(name)]
    for name, session, true in records:
        hold(name, 'the reading', session.possible(), true)
    summaries, queries = reader.value('summary_rows'), reader.value('query_rows')
    for stream, entries in summaries:
        session = oracle.Session()
        reading(session, stream)
        hold('summary_rows', 'the reading', session.shared, entries)
    for session, first, second, told in queries:
        answer = session.query(first, second)
        hold('query_rows', 'the reading', list(answer) if isinstance(answer, tuple) else [answer], told)
    if wrong:
        sys.exit(1)
    print('rows: %d streams through the program, %d with those from other states and %d calls, %d records, %d summaries and %d queries through the reading, as the rows say'
          % (ran, read, called, len(records), len(summaries), len(queries)))


if __name__ == '__main__':
    main()
