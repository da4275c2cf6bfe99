// What the page keeps in the browser. Where the browser refuses that, the page works on, says so as long as it is so,
// and tries again whenever something else is kept.
const PREFIX = 'b1972:';

export class Store {
  /** `refused(is)` is told whether something isn't kept. */
  constructor(refused) {
    Object.assign(this, {refused, waiting: new Map(), isFull: false});
  }

  /** What is kept under a name, as a text; null where nothing is. */
  text(name) {
    try { return localStorage.getItem(PREFIX + name); } catch { return null; }
  }

  get(name) {
    try { return JSON.parse(this.text(name)); } catch { return null; }
  }

  /** Keeps a value under a name; whether it is kept now. */
  put(name, value) {
    this.waiting.set(name, JSON.stringify(value));
    this.retry();
    return !this.waiting.has(name);
  }

  drop(name) {
    this.waiting.delete(name);
    try { localStorage.removeItem(PREFIX + name); } catch { /* Nothing is kept here. */ }
    this.retry();
  }

  /** Writes all that waits, as far as the browser takes it. */
  retry() {
    const {isFull} = this;
    for (const [name, text] of this.waiting) {
      try {
        localStorage.setItem(PREFIX + name, text);
        this.waiting.delete(name);
      } catch { /* It waits. */ }
    }
    this.isFull = this.waiting.size > 0;
    if (this.isFull !== isFull) this.refused?.(this.isFull);
  }

  /** The names of all that is kept, below a first part. */
  names(first) {
    try {
      return Object.keys(localStorage).filter(it => it.startsWith(PREFIX + first)).map(it => it.slice(PREFIX.length));
    } catch { return []; }
  }

  /** Hears what other windows of the page keep: its name, and its text or null. */
  hear(heard) {
    addEventListener('storage', ({key, newValue, storageArea}) => {
      if (storageArea === localStorage && key?.startsWith(PREFIX)) heard(key.slice(PREFIX.length), newValue);
    });
  }
}
