// The WebAssembly module, behind one call: words and the bytes of an input go in; a status, the bytes of the output and
// a note come out. Nothing else of the page knows how the module keeps its memory.

const NOTE_ROOM = 512n; // the longest note is a line of some forty bytes
const RAN_BYTES = 24n; // three numbers of 64 bits: the status, and the lengths of the output and of the note
const FIRST_ROOM = 1n << 21n; // more than a picture of 1024 pixels a side takes
const FIRST_ROOMS = { mesh: 1n << 24n, replay: 1n << 24n };

export const NO_MEMORY = 8; // the status of a run to which memory was refused

export class Engine {
  #module;
  #exports = null;
  #rooms = new Map(); // by verb: longer than the longest output so far, so that few runs find theirs too short

  constructor(module) {
    this.#module = module;
  }

  // Runs the modeller on words over an input. The answer has as `output` what `read` makes of the output, which stands in
  // the memory of the module and is gone after that. `refuse` is the number of the block of memory that is refused, for
  // tests, and `blocks` how many the run asked for.
  run(words, input, { read = (output) => output.slice(), refuse = 0 } = {}) {
    const line = new TextEncoder().encode(words.join(' '));
    const verb = words[0];
    for (;;) {
      const room = this.#rooms.get(verb) ?? FIRST_ROOMS[verb] ?? FIRST_ROOM;
      const ran = this.#once({ line, input, room, refuse, read });
      if (!ran.wants) return ran;
      this.#rooms.set(verb, ran.wants + ran.wants / 4n);
    }
  }

  #once(run) {
    try {
      this.#exports ??= new WebAssembly.Instance(this.#module, {}).exports;
      return this.#within(run);
    } catch (error) {
      this.#exports = null; // a trap leaves the memory as it was in the middle of the run, so it is given up
      throw error;
    }
  }

  // One run, or the length that its output wants, where the room for it is shorter.
  #within({ line, input, room, refuse, read }) {
    const { memory, modeller_run: call, block, free_block: free, fail_at: failAt } = this.#exports;
    const sizes = [BigInt(line.length), BigInt(input.length), room, NOTE_ROOM, RAN_BYTES];
    const places = sizes.map((size) => block(size || 1n));
    try {
      if (places.some((at) => !at)) return { status: NO_MEMORY, output: read(new Uint8Array(0)), note: 'modeller: no memory\n' };
      const [lineAt, inputAt, outputAt, noteAt, ranAt] = places.map(Number);
      new Uint8Array(memory.buffer, lineAt, line.length).set(line);
      new Uint8Array(memory.buffer, inputAt, input.length).set(input);
      failAt(BigInt(refuse));
      call(places[0], sizes[0], places[1], sizes[1], places[2], sizes[2], places[3], sizes[3], places[4]);
      const blocks = Number(failAt(0n));
      const [status, output, note] = new BigUint64Array(memory.buffer, ranAt, 3); // the memory may have grown
      if (output > room) return { wants: output };
      return {
        status: Number(status),
        output: read(new Uint8Array(memory.buffer, outputAt, Number(output))),
        note: new TextDecoder().decode(new Uint8Array(memory.buffer, noteAt, Number(note))),
        blocks,
      };
    } finally {
      for (const at of places) if (at) free(at);
    }
  }
}
