// The program as a helper beside the page: a worker that runs one command after the other, and is made anew where it
// was stopped.
const NONE = new Uint8Array(0);

export class Machine {
  constructor(module, url) {
    this.module = module;
    this.url = url;
    this.calls = new Map();
    this.last = 0;
    this.start();
  }

  start() {
    const worker = new Worker(this.url);
    worker.onmessage = ({data}) => this.hear(data);
    worker.onerror = it => this.end({failed: it.message ?? 'the worker ended'});
    this.worker = worker;
    this.ready = this.module.then(it => worker.postMessage({module: it}));
  }

  hear({id, bytes, ended}) {
    const call = this.calls.get(id);
    if (bytes) call?.write(bytes);
    if (!ended) return;
    this.calls.delete(id);
    call?.done(ended);
  }

  /**
   * Runs a command. `files` maps names to texts or bytes. `write` gets the output as it comes, else it is in the
   * answer. A run that asks for input past its end has `wants` in its answer, unless it is `closed`.
   */
  async ask(words, {files, input = NONE, closed = true, skip = 0, most = Infinity, write = null}) {
    const {worker} = this, id = ++this.last;
    const answer = new Promise(done => this.calls.set(id, {done, write}));
    await this.ready;
    if (this.worker === worker) worker.postMessage({id, words, files, input, closed, skip, most, stream: !!write});
    return answer;
  }

  get busy() { return this.calls.size > 0; }

  stop() {
    this.worker.terminate();
    this.end({stopped: true});
    this.start();
  }

  end(answer) {
    for (const call of this.calls.values()) call.done(answer);
    this.calls.clear();
  }
}
