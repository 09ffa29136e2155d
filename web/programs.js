// The programs from the page's side: workers that answer one request after another, and are ended and begun anew where
// one has to stop.

// A run was stopped before it answered.
export class Stopped extends Error {}

// The source of all workers, and the modules: compressed at first, compiled when one worker has done that.
export class Programs {
  constructor(script, packed) {
    this.url = URL.createObjectURL(new Blob([script], { type: 'text/javascript' }));
    this.sources = packed;
  }
}

export class Runner {
  constructor(programs) {
    Object.assign(this, { programs, worker: null, ready: null, asked: new Map(), next: 1 });
  }

  // Begins a worker, which has its modules when `ready` is done.
  begin() {
    const { programs } = this;
    const worker = new Worker(programs.url);
    this.worker = worker;
    worker.onmessage = ({ data }) => this.take(data);
    worker.onerror = (event) => this.fail(new Error(event.message || 'the worker could not be begun'));
    this.ready = this.post({ ask: 'modules', sources: programs.sources }).then(({ modules, message }) => {
      if (!modules) throw new Error(message);
      programs.sources = modules;
    });
    this.ready.catch(() => {});
  }

  post(request, tell, take) {
    const id = this.next;
    this.next += 1;
    return new Promise((done, fail) => {
      this.asked.set(id, { done, fail, tell, take });
      this.worker.postMessage({ id, ...request });
    });
  }

  take({ id, progress, part, ...answer }) {
    const one = this.asked.get(id);
    if (progress) one?.tell?.(progress);
    else if (part) one?.take?.(part);
    else {
      this.asked.delete(id);
      one?.done(answer);
    }
  }

  fail(error) {
    const all = [...this.asked.values()];
    this.asked.clear();
    for (const one of all) one.fail(error);
  }

  // When the worker has its modules.
  there() {
    if (!this.worker) this.begin();
    return this.ready;
  }

  // The answer to a request; fails with Stopped where `stop` comes before it. `take` gets the parts that come before
  // the answer.
  async ask(request, tell, take) {
    const ready = this.there();
    const { worker } = this;
    await ready;
    if (worker !== this.worker) throw new Stopped();
    return this.post(request, tell, take);
  }

  // What a program of these words makes of a job.
  run(program, words, job, tell) {
    return this.ask({ ask: 'run', program, words, job }, tell);
  }

  get busy() {
    return this.asked.size > 0;
  }

  stop() {
    if (!this.busy) return;
    this.worker.terminate();
    this.worker = null;
    this.fail(new Stopped());
  }
}
