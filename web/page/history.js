// The texts that stood, so that typing and sliders can be taken back alike. A browser's own undo forgets what a slider
// wrote.

const AT_ONCE = 1000; // milliseconds within which keystrokes are one step
const MOST = 500;

export class History {
  #texts;
  #at = 0;
  #last = { from: null, time: -Infinity };

  constructor(text) {
    this.#texts = [text];
  }

  // Notes a text. Steps from one place that follow one another quickly are one, and so are those of a slider as long as it
  // is `held`, however slowly it moves.
  note(text, from, held) {
    if (text === this.#texts[this.#at]) return;
    const now = performance.now();
    const goesOn = this.#last.from === from && (held || now - this.#last.time < AT_ONCE) && this.#at > 0;
    this.#texts.length = this.#at + 1;
    if (goesOn) this.#texts[this.#at] = text;
    else this.#texts.push(text);
    if (this.#texts.length > MOST) this.#texts.shift();
    this.#at = this.#texts.length - 1;
    this.#last = { from, time: now };
  }

  // Ends the step that goes on, as where a slider is let go.
  settle() {
    this.#last = { from: null, time: -Infinity };
  }

  get canUndo() {
    return this.#at > 0;
  }

  get canRedo() {
    return this.#at + 1 < this.#texts.length;
  }

  undo() {
    this.settle();
    if (this.canUndo) this.#at -= 1;
    return this.#texts[this.#at];
  }

  redo() {
    this.settle();
    if (this.canRedo) this.#at += 1;
    return this.#texts[this.#at];
  }
}
