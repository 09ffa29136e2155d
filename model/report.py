"""The report of a run. Follows docs/report.md."""
from run import Run


def place(half_word):
    return f'{half_word >> 1}.{32 * (half_word & 1)}'


def block(state, controls, index=None):
    """The state block; `index` has the index words where they are not those of the state."""
    def word(address):
        return index[address - 16] if index and 16 <= address < 32 else state.word(address)
    lines = [f'IC {place(state.counter)}', f'EN {int(state.enabled)}']
    lines += [f'REG {w:02} {word(w):016X}' for w in range(2, 32) if word(w)]
    for first, last in controls.dumps:
        lines.append(f'DUMP {first} {last}')
        named = range(first, last + 1)
        if len(named) > len(state.words):
            named = sorted(w for w in state.words if w in named)
        lines += [f'MEM {w} {word(w):016X}' for w in named if word(w)]
    return lines


def snapshots(run, snaps, before, over=False):
    """The snapshots that are asked for at ticks before some tick."""
    lines = []
    while snaps and snaps[0] < before:
        tick = snaps.pop(0)
        view = run.view(tick, over)
        lines.append(f'SNAP {tick} DONE {run.state.done} AHEAD {len(view.levels)}')
        lines += block(run.state, run.controls, view.index)
        for entry, row, old in view.levels:
            changed = '-' if old is None else f'{entry.change[0]} OLD {old:016X}'
            lines.append(f'LEV {place(entry.place)} X {changed} READY {int(row.r <= tick)}')
    return lines


def moment_lines(run, moment):
    controls, lines = run.controls, []
    if controls.chart:
        lines += [f'DROP {place(entry.place)} P {row.p}' for entry, row in reversed(moment.dropped)]
    lines += [f'PRT {text}' for text in moment.prints]
    if moment.interrupt is not None:
        lines.append(f'INT {moment.interrupt} AFTER {run.state.done}')
        lines += [f'TIME {moment.tick}'] if controls.time else []
        lines += block(run.state, controls)
    return lines


def step_lines(run, entry, row):
    controls, lines = run.controls, []
    if controls.trace:
        lines.append(f'TRC {run.state.done} {place(entry.place)}')
    if controls.chart:
        lines.append(f'ROW {run.state.done} {place(entry.place)} P {row.p} R {row.r} C {row.c}')
    return lines


def end_lines(run, moment):
    controls, state = run.controls, run.state
    lines = [f'END {moment.end}', f'DONE {state.done}']
    lines += [f'TICKS {moment.tick}'] if controls.time else []
    lines += block(state, controls)
    if controls.back:
        lines.append(f'BACK {len(run.trails)}')
        for trail in reversed(run.trails):
            state.undo(trail)
        lines += block(state, controls)
    return lines


def report(program, heading=()):
    """The lines of the whole report."""
    run, snaps = Run(program), list(program.controls.snaps)
    lines = list(heading) + (program.listing if program.controls.list else [])
    while True:
        moment = run.decide()
        lines += moment_lines(run, moment)
        if moment.end:
            lines += snapshots(run, snaps, moment.tick + 1, over=True)
            return lines + end_lines(run, moment)
        entry, row = run.next()
        lines += snapshots(run, snaps, row.c)
        run.step()
        lines += step_lines(run, entry, row)
