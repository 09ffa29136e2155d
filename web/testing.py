"""What the checks of the pages share: counting, decks, what the model and the programs say of them, and the vectors in
the page's own worker."""
import base64
import importlib.machinery
import importlib.util
import json
import os
import pathlib
import random
import subprocess
import sys
import time

HERE = pathlib.Path(__file__).resolve().parent
TOP = HERE.parent
sys.dont_write_bytecode = True
sys.path[:0] = [str(TOP / "model"), str(TOP / "tools")]
import vectors as model_vectors  # noqa: E402
from cli import PROGRAMS  # noqa: E402
from deckmaker import made_deck  # noqa: E402

AT_ONCE = 150           # vectors that are sent to the page in one go
# Runs jobs in a worker of the page, and says of each how it differs from what it has to give.
RUN_MANY = """async (program, jobs) => {
  const bytes = (text) => Uint8Array.from(atob(text), (letter) => letter.charCodeAt(0));
  window.many ??= new (app.side.constructor)(app.programs);
  const { answers, message } = await window.many.ask({ ask: 'many', program,
    jobs: jobs.map((job) => ({ words: job.words, job: bytes(job.job) })) });
  if (!answers) return [message];
  const wrong = [];
  answers.forEach(({ status, bytes: got, left }, k) => {
    const wanted = bytes(jobs[k].written);
    if (status !== jobs[k].status) wrong.push(`${jobs[k].name} ends with status ${status}, not ${jobs[k].status}`);
    else if (left || got.length !== wanted.length || got.some((byte, n) => byte !== wanted[n])) wrong.push(
      `${jobs[k].name} writes something else`);
  });
  return wrong;
}"""

# Whether a bar of the timetable lies at the cursor, in each timetable, where it is seen.
SEEN = """(stepper) => stepper.tables.every((table) => {
  const box = table.box.getBoundingClientRect();
  const x = box.left + table.box.clientLeft + table.x(stepper.tickOf(table.run));
  return [...table.svg.children[1].querySelectorAll('rect')].some((bar) => {
    const { left, right, top, bottom } = bar.getBoundingClientRect();
    return left <= x + 1.5 && right >= x - 1.5 && top >= box.top + 20 && bottom <= box.bottom + 2;
  });
})"""


class Count:
    """Counts what is as it has to be, and names what is not."""

    def __init__(self, name):
        self.name, self.passed, self.failed = name, 0, 0

    def good(self, what, holds, more=""):
        if holds:
            self.passed += 1
        else:
            self.failed += 1
            print(f"{self.name}: {what} {more}".rstrip(), flush=True)

    def told(self, took=None):
        print(f"{self.passed} passed, {self.failed} failed")
        return 1 if self.failed else 0


def script(name):
    """A script of tools/, as a module."""
    loader = importlib.machinery.SourceFileLoader(name, str(TOP / "tools" / name))
    module = importlib.util.module_from_spec(importlib.util.spec_from_loader(name, loader))
    loader.exec_module(module)
    return module


def example(name):
    return (TOP / "examples" / name / "deck.txt").read_text(encoding="latin-1")


def examples():
    return {path.name: example(path.name) for path in sorted((TOP / "examples").iterdir())}


def vectors(program, every=1):
    """The vectors of a program, or each so-manieth of them; of `stretch` with the examples."""
    all_ = [one for path in model_vectors.families() for one in model_vectors.read_family(path)
        if one.program == program]
    if program == "stretch":
        all_ += model_vectors.examples()
    return all_[::every]


def encoded(content):
    return base64.b64encode(content).decode()


def run_vectors(count, ask, program, chosen):
    """Runs vectors in the worker of a page; `ask` evaluates an expression in it."""
    begun = time.monotonic()
    for k in range(0, len(chosen), AT_ONCE):
        jobs = [{"name": one.name, "words": one.words, "job": encoded(one.job), "status": one.status,
            "written": encoded(one.written)} for one in chosen[k:k + AT_ONCE]]
        wrong = ask(f"({RUN_MANY})({json.dumps(program)}, {json.dumps(jobs)})", 300)
        count.passed += len(jobs) - len(wrong)
        for one in wrong:
            count.good(one, False)
    return time.monotonic() - begun


def model(program, words, job=b""):
    """What the model of this repository writes, and its status."""
    return PROGRAMS[program](words, lambda: job)


def random_decks(seed, number):
    """Made decks, as (number, cards, text)."""
    rng = random.Random(seed)
    return [(n, cards, made_deck(n, cards).decode("latin-1")) for n,
        cards in ((rng.randrange(1 << 32), rng.randrange(1, 60)) for _ in range(number))]


def output(program, words, deck):
    """What a program on disk writes of a deck."""
    return subprocess.run([program, *words], input=deck.encode("latin-1"), stdout=subprocess.PIPE,
        stderr=subprocess.DEVNULL, check=False, env={**os.environ, "STRETCH_UNPROVED": "silent"}).stdout


def explained(lines, deck, levels):
    """The object that ./explain json writes of the lines of a ledger, without what it asks other programs for."""
    import io
    from explaining import as_json
    from explaining.lines import Ledger
    from explaining.sources import Deck
    from explaining.texts import Texts
    from explaining.totals import Totals

    class Asked:
        is_part = False

        @staticmethod
        def shows(_row):
            return True

    source = Deck(deck.encode("latin-1"), script("deck"))
    names = {number: name for number, name in enumerate(script("read").INDICATORS) if name != "-"}
    ledger, out = Ledger(lines), io.StringIO()
    texts, sums, form = Texts(source.lines), Totals(levels), as_json.Json(Asked, names, out)
    for row in ledger.rows():
        if row.row == 1:
            form.begin(ledger.start)
        text = texts.of(row)
        sums.add(row, text)
        form.add(row, text, texts.of)
    sums.close(ledger.end)
    form.end(sums, ledger, None, None, source)
    made = json.loads(out.getvalue())
    for name in ("ticks_on_levels", "ticks_if_delays_were_one"):
        del made["totals"][name]
    return made


def loop(turns, words=5):
    """A loop that stores, multiplies now and then, and changes its index words; behind the last turn it waits."""
    body = ["         L(BU,64),TABLE($X3)", "         +(BU,64),TABLE+1", "         ST(BU,64),TABLE+2($X3)",
        "         V+I,$X2,1.0", "         *(BU,64),TABLE+1"][:words]
    return "\n".join([" START   LX,$X1,CTL", " LOOP    V+I,$X3,1.0", *body, "         CB,$X1,LOOP", "         BEW",
        f" CTL     XW,0.0,{turns},0",
                      " TABLE   DD(BU,64),7", "         DD(BU,64),3", "         END,START", "/BUDGET 100000"]) + "\n"
