"""The ledger of a run: where its ticks went. Follows docs/ledger.md."""
from collections import Counter
from dataclasses import dataclass

import indexing as index
from formats import is_full
from prepare import COUNTER, fetch, half, index_word
from reasons import Walk
from report import place
from run import Run
from timetable import IssueState, Row
from uses import noting, uses_of
from words import INDEX, INDICATORS

PARTED = ('INSTRUCTION', 'INDEX', 'OPERAND')            # the stages whose charges lines WAIT cut further
STAGES = ('RESTART', 'INSTRUCTION', 'ADDRESS', 'INDEX', 'PREPARING', 'OPERAND', 'EXECUTING')
WAITS = [(stage, why) for stage in PARTED for why in ('TURN', 'BANK', 'STORAGE') if (stage, why) != ('INDEX', 'TURN')]
DELAYS_A_LINE = 10


@dataclass
class Known:
    """An entry with its row, the fronts before and behind it, and what it finds in the state."""
    entry: object
    row: Row
    before: IssueState
    behind: IssueState
    code: list                  # the half-words that it executes
    old: int                    # the index word that it changes

    @property
    def number(self):
        return self.behind.bus.row

    @property
    def uses(self):
        return uses_of(self.entry, self.row.a, self.row.p, self.before, self.behind)


class Noting(Run):
    """A run that notes its reads, and what is ahead where a segment ends."""

    def __init__(self, program, levels):
        super().__init__(program, levels)
        self.issue.bus = noting(self.issue.bus, 0)

    def decide(self):
        self.waited, self.ended = False, []
        self.found = self.state.word(INDICATORS)
        return super().decide()

    def wake(self, moment):
        woken = super().wake(moment)
        self.waited = self.waited or woken
        return woken

    def end_segment(self, moment):
        """Where a segment ends twice at a tick, nothing is left ahead at the second time.

        What ran ahead has seen no indicator that came from outside behind the row.
        """
        rows, self.looked = self.issue.bus.row, []
        words, now = self.state.words, self.state.word(INDICATORS)
        words[INDICATORS] = self.found
        super().end_segment(moment)
        words[INDICATORS] = now
        self.ended = self.ended or self.looked
        self.issue.bus = noting(self.issue.bus, rows)

    def look(self, entry, row, issue, behind):
        self.looked.append(self.known(entry, row, issue, behind))

    def known(self, entry, row, issue, behind):
        old = self.state.word(INDEX + entry.change[0]) if entry.change else None
        return Known(entry, row, issue, behind, code_of(self.state, entry), old)

    def known_next(self):
        """The entry that is done next."""
        return self.known(*self.next(), self.issue, self.behind)


def code_of(state, entry):
    """The half-words that an entry executes, of EX those of its target; none where they may not be fetched."""
    where = entry.place
    made, _, fault = fetch(state, where)
    if entry.is_ex:
        where = index.effective(made.address, index_word(state, made.i)) >> 5
        made, _, fault = fetch(state, where)
    return [] if fault else [half(state, where + k & COUNTER) for k in range(made.halves)]


# ---- the lines of an entry

def facts(known, card, end):
    """What is known of an entry by itself. Its segment ends at the tick `end`, or goes on where that is None."""
    entry = known.entry
    if entry.alone:
        yield f'ALONE {alone_for(entry)}'
    if entry.fault:
        yield f'SUPPRESSED {entry.fault}'
    yield from card
    if known.code:
        yield 'CODE ' + ' '.join(f'{half_word:08X}' for half_word in known.code)
    for use in known.uses:
        if use.how != 'READ' or end is None or use.read.want < end:
            yield f'USE {use.kind} {use.word} {source(use, end)}'
    for words in runs(entry):
        yield f'WRITES {words[0]} {len(words)}'
    if entry.change:
        number, word = entry.change
        yield f'INDEX {number} WAS {known.old:016X} IS {word:016X}'


def alone_for(entry):
    if entry.table is not None:
        return f'TABLE {entry.table}'
    if entry.is_ex:
        return 'EXECUTE'
    side = [] if entry.side is None else [entry.side]
    return 'REGISTER' if any(word < 32 for word in side + entry.reads + entry.writes) else 'OPERATION'


def card_line(program, state, where):
    """The card that emitted the half-words at an address, and whether they are still those of the image."""
    def of_image(half_word):
        return program.words.get(half_word >> 1, 0) >> (0 if half_word & 1 else 32) & 0xFFFFFFFF
    if where not in program.emitted:
        return []
    halves = [where, where + 1][:1 + is_full(half(state, where))]
    kept = all(half(state, one) == of_image(one) for one in halves)
    return [f'LAID {program.emitted[where]} KEPT {int(kept)}']


def source(use, end):
    """Where an entry has a word from."""
    if use.how == 'REGISTER':
        return 'REGISTER'
    if use.how == 'FORWARDED':
        return f'FORWARDED ROW {use.row} DONE {use.done}'
    read = use.read
    if use.how == 'HELD':
        return f'HELD ANSWER {read.answer}'
    return (f'READ BANK {read.bank} WANT {read.want} TURN {read.turn} FREE {read.free} ACCEPT {read.accept} '
            f'ANSWER {read.answer} MADE {int(end is None or read.accept < end)}')


def runs(entry):
    """The words that an entry writes, in runs: SWAP has two."""
    if entry.writes and entry.made.name == 'SWAP':
        count = entry.made.count
        return [entry.writes[:count], entry.writes[count:]]
    return [entry.writes] if entry.writes else []


def named(known):
    row = known.row
    return f'{known.number} {place(known.entry.place)} A {row.a} P {row.p} R {row.r}'


# ---- charges

def charges(row, start, done):
    """The charges of a row, where the one before it was done at the tick `done`: their ticks and stages."""
    ends = (start, row.a - 1, row.a, row.p - 1, row.p, row.r, row.c)
    for stage, end in zip(STAGES, ends):
        if done < end:
            yield done, end, stage
            done = end


def charge_lines(known, walk, start, done, sums):
    """The lines of the charges of a row, each with its waits, and what kept the row back."""
    shown = False
    for begin, end, stage in charges(known.row, start, done):
        yield f'CHARGE {begin} {end} {stage}'
        sums[stage] += end - begin
        shown = shown or stage != 'EXECUTING'
        for wait in walk.waits:
            if wait.stage == stage and wait.end > done:
                begin = max(wait.start, done)
                yield f'WAIT {begin} {wait.end} {wait.why} WORD {wait.word} {which(wait.read)}'
                sums[stage, wait.why] += wait.end - begin
    if walk.level_wait:
        yield f'LEVEL {walk.level_wait}'
    if shown:
        yield because_line(walk.because)


def because_line(because):
    """Which row asked for a word that was prefetched, and when, is to be seen from its uses."""
    if because.why == 'PREFETCH':
        return f'BECAUSE PREFETCH WORD {because.word} LATE {because.late}'
    by, late = ('-' if number is None else number for number in (because.row, because.late))
    return f'BECAUSE {because.why} ROW {by} TICK {because.tick} LATE {late}'


def which(read):
    return f'READ {read.word} BANK {read.bank}'


# ---- the whole

def start_lines(program, levels, state):
    delays = program.controls.delays
    yield f'LEVELS {levels}'
    for k in range(0, len(delays), DELAYS_A_LINE):
        yield 'DELAYS ' + ' '.join(map(str, delays[k:k + DELAYS_A_LINE]))
    yield from [f'IC {place(state.counter)}', f'EN {int(state.enabled)}']
    yield from (f'WORD {word} IS {number:016X}' for word, number in sorted(state.words.items()) if number)


def change_lines(state):
    """What a step and all behind it changed of the state."""
    yield f'IC {place(state.counter)}'
    if state.enabled != state.trail.rest[1]:
        yield f'EN {int(state.enabled)}'
    before = dict(reversed(state.trail.words))
    for word in sorted(before):
        if before[word] != state.word(word):
            yield f'WORD {word} WAS {before[word]:016X} IS {state.word(word):016X}'


def ahead_lines(program, state, ended, tick):
    """What was ahead where a segment ended."""
    for known in ended:
        yield f'{"BEGUN" if known is ended[-1] else "DROP"} {named(known)}'
        yield from facts(known, card_line(program, state, known.entry.place), tick)


def ledger(program, levels):
    """The lines of the ledger."""
    run, sums, segment, done = Noting(program, levels), Counter(), 0, 0
    state, why, waited = run.state, 'RUN', False
    moment = run.decide()
    yield from start_lines(program, levels, state)
    while not moment.end:
        if why:
            segment, start = segment + 1, run.issue.p
            yield f'SEGMENT {segment} START {start} WAITED {int(waited)} BY {why}'
        known = run.known_next()
        card = card_line(program, state, known.entry.place)
        run.step()
        mispredicted = run.mispredicted
        moment = run.decide()
        tick = known.row.c
        yield f'ROW {named(known)} C {tick}'
        yield from ['MISSED'] if mispredicted else []
        yield from facts(known, card, tick if run.ended else None)
        walk = Walk(known.entry, known.row, known.uses, known.before, levels)
        yield from charge_lines(known, walk, start, done, sums)
        if run.ended:
            yield f'SEGMENT {segment} END {tick}'
            yield from ahead_lines(program, state, run.ended, tick)
        yield from (f'PRT {text}' for text in moment.prints)
        yield from change_lines(state)
        if moment.interrupt is not None:
            yield f'INT {moment.interrupt} AFTER {state.done}'
        done, waited = tick, run.waited
        why = opened_by(run, moment, mispredicted)
    yield from [f'END {moment.end}', f'DONE {state.done}', f'TICKS {done}']
    yield from (f'SUM {stage} {sums[stage]}' for stage in STAGES)
    yield from (f'SUM {stage} {why} {sums[stage, why]}' for stage, why in WAITS)


# ---- the short forms

# The first words of the lines that `sums` takes from the ledger.
TOTALS = {'LEVELS', 'DELAYS', 'END', 'DONE', 'TICKS', 'SUM'}
# The reasons of the tables: of a row whose reason is START why its segment began, else the reason.
REASONS = ('RUN', 'INTERRUPT', 'MISSED', 'CARD', 'SERIAL', 'STORE', 'LEVEL', 'FORWARDING', 'BUS', 'PREFETCH', 'ORDER')


class Tally:
    """What the lines of rows add up to: by card, by reason, and in all."""

    def __init__(self):
        self.rows, self.sums = Counter(), {}                    # by card; the second by stage, and by stage and kind of wait
        self.reasons = {reason: [0, 0, 0] for reason in REASONS}
        self.mispredicted = self.level_rows = self.level_ticks = self.dropped = 0
        self.card, self.opened = 0, ''

    def take(self, words):
        """Takes a line. Those of an entry that was dropped, or had begun, say nothing of a row."""
        match words:
            case ['SEGMENT', _, 'START', _, 'WAITED', _, 'BY', why, *_]:
                self.opened = why
            case ['ROW', *_]:
                self.card, self.lost, self.stage, self.in_row = 0, 0, None, True
                self.counted = False
            case ['DROP', *_]:
                self.dropped, self.in_row = self.dropped + 1, False
            case ['BEGUN', *_]:
                self.in_row = False
            case ['MISSED']:
                self.mispredicted += 1
            case ['LAID', card, *_] if self.in_row:
                self.card = int(card)
            case ['CHARGE', begin, end, stage]:
                self.count()
                self.stage = stage
                self.add(int(end) - int(begin), stage)
                self.lost += 0 if stage == 'EXECUTING' else int(end) - int(begin)
            case ['WAIT', begin, end, why, *_]:
                self.add(int(end) - int(begin), self.stage, why)
            case ['LEVEL', ticks]:
                self.level_rows, self.level_ticks = self.level_rows + 1, self.level_ticks + int(ticks)
            case ['BECAUSE', why, *_, late]:
                one = self.reasons[self.opened if why == 'START' else why]
                for k, number in enumerate((1, self.lost, self.lost if late == '-' else min(int(late), self.lost))):
                    one[k] += number

    def count(self):
        """Counts the row, at its first charge: each row has one."""
        self.rows[self.card] += not self.counted
        self.counted = True

    def add(self, ticks, *what):
        self.sums.setdefault(self.card, Counter())[what] += ticks

    def lines(self):
        for card in sorted(self.rows):
            yield f'CARD {card} ROWS {self.rows[card]}'
            yield from (f'SUM {stage} {self.sums[card][stage,]}' for stage in STAGES)
            yield from (f'SUM {stage} {why} {self.sums[card][stage, why]}' for stage, why in WAITS)
        for reason, (rows, ticks, late) in self.reasons.items():
            yield f'REASON {reason} ROWS {rows} TICKS {ticks} LATE {late}'
        yield f'COUNT MISSED {self.mispredicted}'
        yield f'COUNT LEVEL ROWS {self.level_rows} TICKS {self.level_ticks}'
        yield f'COUNT DROP {self.dropped}'


def totals(program, levels):
    """The lines of the ledger that say nothing of a row or of what comes between rows, and the tables of its rows."""
    tally = Tally()
    for line in ledger(program, levels):
        words = line.split(' ')
        if words[0] in TOTALS:
            yield line
        tally.take(words)
    yield from tally.lines()


class Place:
    """What the lines of a ledger say of the state, and of the segment, up to some line."""

    def __init__(self):
        self.counter = self.enabled = self.segment = ''
        self.words = {}

    def take(self, line):
        match line.split(' '):
            case ['IC', _]:
                self.counter = line
            case ['EN', _]:
                self.enabled = line
            case ['WORD', word, *_, number]:
                self.words[int(word)] = number
            case ['SEGMENT', _, 'START', *_]:
                self.segment = line

    def lines(self):
        yield from (self.counter, self.enabled)
        yield from (f'WORD {word} IS {number}' for word, number in sorted(self.words.items()) if int(number, 16))
        yield self.segment


def part(program, levels, first, last):
    """The ledger of a run with a budget of at most `last`, from the row `first` on, without its sums."""
    program.controls.budget = min(program.controls.budget, last)
    place, shown = Place(), False
    for line in ledger(program, levels):
        name = line.split(' ')[0]
        if name == 'ROW' and not shown and int(line.split(' ')[1]) == first:
            yield from place.lines()
            shown = True
        if name == 'SUM':
            return
        if shown or name in TOTALS:
            yield line
        place.take(line)


def opened_by(run, moment, mispredicted):
    """Why the next segment begins, where this one has ended."""
    if not run.ended:
        return ''
    return f'INTERRUPT {moment.interrupt}' if moment.interrupt is not None else 'MISSED' if mispredicted else 'CARD'
