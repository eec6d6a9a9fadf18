// The page's side of the worker: jobs wait in turn, a newer drawing takes the place of one that waits, and a run can be
// stopped, which ends its worker and begins another.

const PATIENCE = 1000; // milliseconds after which a run gives way to a newer drawing of the same kind

export class Runs {
  #source;
  #module;
  #worker = null;
  #waiting = [];
  #running = null;
  #numbers = 0;
  #tell;

  // `source` is the address of the worker's text; `tell` is called with the job that runs, or with null for none.
  constructor(source, module, tell) {
    this.#source = source;
    this.#module = module;
    this.#tell = tell;
    this.#begin();
  }

  // Answers a job. Of jobs with one `place` only the last one waits; those before it are answered `dropped`.
  ask(job) {
    return new Promise((resolve) => {
      const entry = { job: { ...job, id: ++this.#numbers }, resolve };
      if (job.place) {
        const [old, rest] = partition(this.#waiting, (it) => it.job.place === job.place);
        this.#waiting = rest;
        for (const it of old) it.resolve({ dropped: true });
        this.#hurry(job.place);
      }
      this.#waiting.push(entry);
      this.#next();
    });
  }

  get busy() {
    return this.#running !== null;
  }

  // Ends the run and all that waits.
  stop() {
    const ended = this.#running ? [this.#running, ...this.#waiting] : this.#waiting;
    this.#waiting = [];
    if (this.#running) this.#replace();
    for (const it of ended) it.resolve({ stopped: true });
  }

  #begin() {
    this.#worker = new Worker(this.#source);
    this.#worker.onmessage = ({ data }) => this.#answered(data);
    this.#worker.onerror = (event) => {
      const running = this.#running;
      this.#replace();
      running?.resolve({ died: event.message ?? 'the worker ended' });
      this.#next();
    };
    this.#worker.postMessage({ module: this.#module });
  }

  #replace() {
    this.#worker.terminate();
    this.#running = null;
    this.#begin();
    this.#tell(null);
  }

  #next() {
    if (this.#running || this.#waiting.length === 0) return;
    const entry = this.#waiting.shift();
    this.#running = { ...entry, since: performance.now() };
    this.#tell(entry.job);
    this.#worker.postMessage(entry.job);
  }

  #answered(answer) {
    const running = this.#running;
    if (!running || running.job.id !== answer.id) return;
    this.#running = null;
    running.resolve(answer);
    this.#next();
    if (!this.#running) this.#tell(null);
  }

  // Gives up a drawing that has run for long where a newer one waits. A drawing that is made while one drags is short,
  // and is let through, so that slow models still move.
  #hurry(place) {
    const running = this.#running;
    if (!running || running.job.place !== place || running.job.brief) return;
    const left = Math.max(0, PATIENCE - (performance.now() - running.since));
    setTimeout(() => {
      if (this.#running !== running || !this.#waiting.some((it) => it.job.place === place)) return;
      this.#replace();
      running.resolve({ dropped: true });
      this.#next();
    }, left);
  }
}

function partition(list, test) {
  return [list.filter(test), list.filter((it) => !test(it))];
}
