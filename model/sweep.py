"""The command `sweep`. Follows docs/timetable.md, "One to eight levels"."""
from run import Run


def last_tick(program, levels):
    """The tick of the last completion on a machine of so many levels, with an empty reader, and whether it is calm."""
    run = Run(program, levels, cards=[])
    run.controls.back = 0
    while True:
        moment = run.decide()
        if moment.end:
            return moment.tick, run.calm and len(set(run.controls.delays)) == 1
        run.next()
        run.step()


def sweep(program):
    lines = []
    for levels in range(1, 9):
        ticks, calm = last_tick(program, levels)
        lines.append(f'LEVELS {levels} TICKS {ticks}')
    return lines + [f'CALM {int(calm)}']
