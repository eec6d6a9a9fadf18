// The page: what is typed, slid, opened or dropped becomes a run, and its answer becomes a drawing or a refusal.

import { Editor } from './editor.js';
import { MOST_BYTES, onFiles, save, stemOf } from './files.js';
import { fitted } from './fit.js';
import { History } from './history.js';
import { readPgm } from './pictures.js';
import { nodesOf, noteOf, sentencesOf } from './reasons.js';
import { Sliders } from './sliders.js';
import { Stage } from './stage.js';
import { svgOf } from './outlines.js';
import { Tabs } from './tabs.js';
import { kindOf, numbersOf, numeralOf, withNumber } from './texts.js';
import { cellsOf, ENDS, lengthsOf, niceBelow, wordsOf } from './views.js';

const DEFAULTS = { x0: '-1', x1: '1', y0: '-1', y1: '1', z0: '-1', z1: '1', z: '0', cell: '0.02', pixels: '480', layers: '255' };
const PICTURES = ['shade', 'height', 'render'];
const SETTLED = 900; // milliseconds of quiet, after which a screen reader is told how it stands
const KINDS = { model: 'a model', solid: 'a solid', formulas: 'formulas', mesh: 'a mesh' };

export const at = (id) => document.getElementById(id);

export class Page {
  #runs;
  #reasons;
  #view = 'shade';
  #kind = 'solid';
  #name = 'part';
  #checked = null; // a mesh that was dropped in, while it is what the page shows
  #sayLater = 0;

  constructor(runs, reasons, examples) {
    this.#runs = runs;
    this.#reasons = reasons;
    this.examples = examples;
    this.stage = new Stage({ picture: at('picture'), outline: at('outline'), mesh: at('mesh'), nothing: at('nothing') });
    this.tabs = new Tabs(at('views'), (view) => this.#look(view));
    this.editor = new Editor({ area: at('area'), numbers: at('numbers'), mark: at('mark'), changed: () => this.#typed() });
    this.history = new History('');
    this.sliders = new Sliders({
      list: at('sliders'),
      find: at('find'),
      none: at('no-sliders'),
      moved: (index, numeral, brief) => this.#slid(index, numeral, brief),
      settled: () => this.#settle(),
    });
    this.#listen();
  }

  #listen() {
    for (const name of [...ENDS, 'z', 'cell', 'layers', 'pixels']) at(name).addEventListener('change', () => this.#set());
    at('z-slide').addEventListener('input', () => {
      at('z').value = at('z-slide').value;
      this.draw(true);
    });
    at('z-slide').addEventListener('change', () => this.draw());
    at('fit').addEventListener('click', () => this.fit());
    at('stop').addEventListener('click', () => this.stop());
    at('undo').addEventListener('click', () => this.#goBack('undo'));
    at('redo').addEventListener('click', () => this.#goBack('redo'));
    at('save').addEventListener('click', (event) => {
      if (!event.target.dataset.save) return;
      at('saving').open = false;
      this.save(event.target.dataset.save);
    });
    addEventListener('pointerdown', (event) => {
      if (!at('saving').contains(event.target)) at('saving').open = false;
    });
    at('examples').addEventListener('change', () => this.example(at('examples').value));
    addEventListener('keydown', (event) => this.#key(event));
    onFiles({ button: at('open'), input: at('file'), veil: at('drop'), opened: (file) => this.open(file.name, file) });
    for (const { name, title } of this.examples) at('examples').append(new Option(title ? `${name}: ${title}` : name, name));
  }

  #key(event) {
    if (event.key === 'Escape' && at('saving').open) {
      at('saving').open = false;
      at('saving').querySelector('summary').focus();
    } else if (event.key === 'Escape' && this.#runs.busy) {
      this.stop();
    }
    const letter = event.key.toLowerCase();
    if (!(event.ctrlKey || event.metaKey) || event.altKey || !['z', 'y'].includes(letter)) return;
    if (event.target.matches('input:not([type=range])')) return; // a field takes its own letters back
    event.preventDefault();
    this.#goBack(letter === 'y' || event.shiftKey ? 'redo' : 'undo');
  }

  // Where the text and the view come from.

  has(name) {
    return this.examples.some((it) => it.name === name);
  }

  begin(name) {
    at('examples').value = name;
    this.example(name);
  }

  example(name) {
    const found = this.examples.find((it) => it.name === name);
    if (!found) return;
    this.#name = stemOf(found.name);
    this.#put({ ...DEFAULTS, pixels: at('pixels').value, ...found.settings });
    if (!found.settings.z) this.#cutInTheMiddle();
    this.#view = found.view;
    this.tabs.mark(found.view);
    this.#take(found.text);
  }

  async open(name, file) {
    const bytes = new Uint8Array(await file.slice(0, MOST_BYTES + 1).arrayBuffer()); // one too many is enough to be refused
    this.#name = stemOf(name);
    at('examples').value = '';
    const head = new TextDecoder('latin1').decode(bytes.subarray(0, 4));
    if (/^ply\s/.test(head)) return this.check(name, bytes);
    if (bytes.length > MOST_BYTES) return this.#tellOf(await this.#runs.ask({ words: ['text'], input: bytes }), ['text']);
    try {
      this.#take(new TextDecoder('utf-8', { fatal: true }).decode(bytes));
    } catch {
      return this.#refuse({ title: `${name} is no text in UTF-8, so it was not opened.` });
    }
    return this.fit();
  }

  // What the program says of a mesh, which is shown until something else is asked for.
  async check(name, bytes) {
    this.#checked = name;
    this.#clear();
    const answer = await this.#runs.ask({ place: 'draw', words: ['check'], input: bytes, mesh: 'input' });
    if (answer.dropped || answer.stopped || answer.died || answer.status !== 0) return this.#tellOf(answer, ['check'], 'mesh');
    this.tabs.mark('mesh');
    at('cut').hidden = true;
    at('count').textContent = '';
    const found = this.stage.show('mesh', answer, null);
    const said = new TextDecoder().decode(answer.output).trim();
    this.#tell(`${name}: ${checkedIn(said)}`, [this.#measured(found)]);
    this.#warn(said.startsWith('closed') ? [] : ['A slicer may refuse this mesh, or fill it wrongly.']);
    return said;
  }

  #take(text) {
    if (!this.editor.text) this.history = new History(text); // nothing is lost that an undo should bring back
    this.editor.text = text;
    this.#changed('opened', false);
    this.history.settle();
  }

  #typed() {
    this.#changed('typed', false);
  }

  #slid(index, numeral, brief) {
    const number = numbersOf(this.editor.text, this.#kind)[index];
    if (!number) return;
    this.editor.text = withNumber(this.editor.text, number, numeral);
    this.#changed(`slider ${index}`, brief);
  }

  #settle() {
    this.history.settle();
    this.draw();
  }

  #goBack(way) {
    this.editor.text = this.history[way]();
    this.#changed(null, false);
  }

  #changed(from, brief) {
    const { text } = this.editor;
    if (from) this.history.note(text, from, brief);
    at('undo').disabled = !this.history.canUndo;
    at('redo').disabled = !this.history.canRedo;
    this.#checked = null;
    this.#kind = kindOf(text);
    at('kind').textContent = text.trim() ? KINDS[this.#kind] : '';
    this.sliders.show(numbersOf(text, this.#kind), this.#kind);
    this.draw(brief);
  }

  #look(view) {
    this.#view = view;
    this.#checked = null;
    this.draw();
  }

  // Settings

  get settings() {
    return Object.fromEntries(Object.keys(DEFAULTS).map((name) => [name, at(name).value.trim()]));
  }

  #put(settings) {
    for (const name of Object.keys(DEFAULTS)) if (settings[name] !== undefined) at(name).value = settings[name];
    this.#rangeOfZ();
  }

  #set() {
    this.#rangeOfZ();
    this.#checked = null;
    this.draw();
  }

  // A cut at an end, or on the face that a part stands on, shows nothing.
  #cutInTheMiddle() {
    const { z0, z1 } = this.settings;
    this.#put({ z: numeralOf((Number(z0) + Number(z1)) / 2, 3) });
  }

  #rangeOfZ() {
    const { z0, z1, z } = this.settings;
    const [, , depth] = lengthsOf(this.settings);
    Object.assign(at('z-slide'), { min: z0, max: z1, step: depth > 0 ? numeralOf(niceBelow(depth / 100)) : 'any', value: z });
  }

  // Runs

  #job(words, more = {}) {
    return { words, input: new TextEncoder().encode(this.editor.text), solid: this.#kind === 'solid', ...more };
  }

  async draw(brief = false) {
    const { settings } = this;
    const view = this.#view;
    at('cut').hidden = !['render', 'contour'].includes(view);
    at('cells').textContent = cellsIn(settings);
    if (this.#checked) return;
    if (!this.editor.text.trim()) return this.#blank();
    if (this.#kind === 'formulas') return this.#refuse({ title: 'These are formulas.', sentences: [FORMULAS] });
    const words = wordsOf(view, settings, brief);
    const answer = await this.#runs.ask(this.#job(words, { place: 'draw', brief, mesh: view === 'mesh' && 'output' }));
    if (answer.dropped || view !== this.#view || this.#checked) return;
    if (!this.#tellOf(answer, words)) return;
    const cells = words.filter((it) => /^n[xyz]=/.test(it)).map((it) => Number(it.slice(3)));
    const contourCells = Number(words.at(-1).slice(2));
    const found = this.stage.show(view, answer, { ...settings, cells, contourCells });
    this.#tell(`${found.name}: ${found.line}, ${milliseconds(answer.milliseconds)}`, [this.#measured(found)]);
    this.#warn(warningsOf(found, view));
    await this.#count(settings, brief);
  }

  // How much work an image of these ends takes, which the program counts.
  async #count(settings, brief) {
    const answer = await this.#runs.ask(this.#job(wordsOf('count', settings, brief), { place: 'count', brief }));
    if (answer.dropped || answer.status !== 0) return;
    const [points, spans, plain] = new TextDecoder().decode(answer.output).match(/\d+/g).map((it) => Number(it).toLocaleString('en'));
    at('count').textContent = `A cut at z = ${settings.z} of this size takes ${points} evaluations at samples and ${spans} over boxes, in place of ${plain}.`;
  }

  stop() {
    this.#runs.stop();
  }

  async fit() {
    if (this.#kind === 'formulas' || this.#checked || !this.editor.text.trim()) return;
    let refused = null;
    const found = await fitted(async (words) => {
      const answer = await this.#runs.ask(this.#job(['mesh', ...words], { mesh: 'output' }));
      if (answer.status !== 0) refused = answer;
      return answer.drawable ?? null;
    }, this.settings);
    if (refused) return void this.#tellOf(refused, ['mesh']);
    if (found?.empty) return this.#warn(['Nothing of the part was found within 16,384 of the origin.']);
    if (!found?.ends) return this.#warn(['The part has no end along any axis, so the ends stay as they are.']);
    const extent = Math.max(...lengthsOf(found.ends));
    this.#put({ ...found.ends, cell: numeralOf(niceBelow(extent / 80)) });
    const { z0, z } = this.settings;
    const [, , depth] = lengthsOf(this.settings);
    const share = (Number(z) - Number(z0)) / depth;
    if (!(share > 0.05 && share < 0.95)) this.#cutInTheMiddle(); // elsewhere, it was chosen
    await this.draw();
    if (found.unended.length > 0) this.#warn([`The part has no end along ${found.unended.join(' and ')}, so the ends there stay as they are.`]);
  }

  // What is saved is drawn for it, as large as it is set, whatever is shown.
  async save(kind) {
    if (kind === 'text') return save(`${this.#name}.${this.#kind === 'solid' ? 'solid' : 'vm'}`, this.editor.text, 'text/plain');
    const { settings } = this;
    if (kind === 'png' && this.#view === 'mesh') return this.#savePng(null);
    const view = { stl: 'mesh', ply: 'mesh', svg: 'contour' }[kind] ?? (PICTURES.includes(this.#view) ? this.#view : 'shade');
    const words = kind === 'vm' ? ['text'] : wordsOf(view, settings);
    const answer = await this.#runs.ask(this.#job(words));
    if (!this.#tellOf(answer, words)) return undefined;
    if (kind === 'png') return this.#savePng(readPgm(answer.output));
    let content = answer.output;
    if (kind === 'svg') content = svgOf(new TextDecoder().decode(content), mapped(settings, Number));
    if (kind === 'stl') {
      const made = await this.#runs.ask({ stl: content });
      if (made.refused) return this.#warn([made.refused]);
      if (!made.output) return undefined;
      content = made.output;
    }
    const types = { svg: 'image/svg+xml', vm: 'text/plain' };
    return save(`${this.#name}.${kind}`, content, types[kind] ?? 'application/octet-stream');
  }

  #savePng(image) {
    this.stage.canvasToSave(image).toBlob((blob) => save(`${this.#name}.png`, blob, 'image/png'), 'image/png');
  }

  // What is said

  // Says how a run ended where it is not done; whether it is done.
  #tellOf(answer, words, kind = null) {
    this.#clear();
    if (answer.stopped) this.#tell('Stopped.', []);
    if (answer.died) this.#refuse({ title: 'The run broke off, so nothing is drawn. The page goes on.', sentences: [{ text: answer.died }] });
    if (answer.stopped || answer.died || answer.dropped) return false;
    if (answer.status === 0) return true;
    const note = noteOf(answer.note);
    if (note.of === 'word') this.#refuseWord(note, words);
    else if (note.of === 'line') this.#refuseLine(note, kind ?? (answer.of === 'solid' ? 'solid' : 'model'));
    else this.#refuse({ title: `${note.reason}.`, sentences: sentencesOf(this.#reasons, 'fault', note.reason) });
    return false;
  }

  #refuseWord({ number, reason }, words) {
    const [name] = number > 0 ? words[number - 1].split('=') : [''];
    const fields = { '': reason === 'EmptySpan' ? ENDS : ['cell'], w: ['pixels'], h: ['pixels'], d: ['layers'] }[name] ?? [name[0] === 'n' ? 'cell' : name];
    for (const id of fields) at(id)?.setAttribute('aria-invalid', 'true');
    const title = number > 0 ? `The setting ${words[number - 1]} is refused: ${reason}.` : `The view is refused: ${reason}.`;
    this.#refuse({ title, sentences: sentencesOf(this.#reasons, 'word', reason) });
  }

  #refuseLine({ number, reason }, kind) {
    const inText = kind !== 'mesh';
    const title = number > 0 ? `Line ${number} is refused: ${reason}.` : `The ${kind} is refused: ${reason}.`;
    const text = inText && number > 0 ? this.editor.text.split('\n')[number - 1]?.trim() : '';
    this.#refuse({ title, line: inText ? number : 0, text, sentences: sentencesOf(this.#reasons, kind, reason) });
  }

  #refuse({ title, line = 0, text = '', sentences = [] }) {
    const bold = document.createElement('strong');
    bold.textContent = title;
    const parts = [bold];
    const list = document.createElement('ul');
    for (const sentence of sentences) {
      const item = document.createElement('li');
      if (sentence.as) item.append(...nodesOf(`As in \`${sentence.as}\`: `));
      item.append(...nodesOf(sentence.text));
      list.append(item);
    }
    if (sentences.length > 0) parts.push(list);
    if (line > 0) {
      const go = document.createElement('button');
      go.type = 'button';
      go.textContent = `Go to line ${line}`;
      go.addEventListener('click', () => this.editor.goTo(line));
      parts.push(go);
    }
    at('refusal').replaceChildren(...parts);
    at('refusal').dataset.said = 'true';
    this.editor.mark(line);
    at('stage').classList.add('stale');
    this.#say(`${title} ${text}`);
  }

  #clear() {
    at('refusal').replaceChildren();
    delete at('refusal').dataset.said;
    this.editor.mark(0);
    at('stage').classList.remove('stale');
    for (const it of document.querySelectorAll('#panel [aria-invalid], #cut [aria-invalid]')) it.removeAttribute('aria-invalid');
  }

  #blank() {
    this.#clear();
    for (const id of ['picture', 'outline', 'mesh']) at(id).toggleAttribute('hidden', true);
    at('nothing').hidden = false;
    at('nothing').replaceChildren(...nodesOf('Type a solid, as `ball 0.5`, choose an example, or drop a file here.'));
    this.#tell('', []);
    this.#warn([]);
    at('count').textContent = '';
  }

  #tell(line, more) {
    at('status').textContent = [line, ...more].filter(Boolean).join(' · ');
    this.#say(at('status').textContent);
  }

  #measured({ measures }) {
    if (!measures) return '';
    return `it measures ${measures.map((it) => Number(it.toPrecision(5))).join(' × ')}`;
  }

  #warn(sentences) {
    at('warnings').replaceChildren(...sentences.map((it) => {
      const item = document.createElement('li');
      item.textContent = it;
      return item;
    }));
    if (sentences.length > 0) this.#say([at('status').textContent, ...sentences].join(' '));
  }

  // Tells a screen reader, once there is quiet: each keystroke has an answer of its own.
  #say(text) {
    clearTimeout(this.#sayLater);
    this.#sayLater = setTimeout(() => { at('said').textContent = text; }, SETTLED);
  }
}

const FORMULAS = { text: 'The page reads models and solids. `./clauses < part.formulas > part.vm`, of the archive, makes a model of formulas, which can be opened here.' };

function mapped(object, by) {
  return Object.fromEntries(Object.entries(object).map(([key, value]) => [key, by(value)]));
}

function milliseconds(time) {
  return time < 10 ? `${time.toFixed(1)} ms` : time < 2000 ? `${Math.round(time)} ms` : `${(time / 1000).toFixed(1)} s`;
}

function cellsIn(settings) {
  const cells = cellsOf(settings);
  const [nx, ny, nz] = cells;
  const areNumbers = ENDS.every((name) => settings[name] !== '' && Number.isFinite(Number(settings[name])));
  if (!nx || !areNumbers) return '';
  const [x] = lengthsOf(settings);
  const longer = Math.max(...lengthsOf(settings).map((it, axis) => it / cells[axis]));
  const coarser = x > 0 && longer > Number(settings.cell) * 1.001 ? ', the most that there may be' : '';
  return `A mesh has ${nx} × ${ny} × ${nz} cells${coarser}.`;
}

function checkedIn(said) {
  const [first, ...rest] = said.split(' ');
  const [a, b] = rest.map((it) => Number(it).toLocaleString('en'));
  if (first === 'closed') return `the mesh is closed and a manifold, of ${Number(rest[1]).toLocaleString('en')} vertices and ${Number(rest[2]).toLocaleString('en')} faces`;
  if (first === 'face') return `face ${a} has one vertex twice`;
  if (first === 'edge') return `the edge from vertex ${a} to vertex ${b} is not met by exactly one other face`;
  return `the faces at vertex ${a} do not close round it`;
}

function warningsOf({ touched, empty, upright }, view) {
  const found = [];
  if (empty) found.push(EMPTY[view] ?? 'The picture is empty: the part lies elsewhere. Fit the view to the part, or set other ends.');
  if (touched.length > 0) found.push(`The part touches the ${touched.length > 1 ? 'ends' : 'end'} ${touched.join(', ')}, and goes on beyond, perhaps: ${view === 'mesh' || view === 'contour' ? 'it is closed off there' : 'it is cut off there'}.`);
  if (upright && !empty) found.push('No face looks up: a part that goes on beyond z1, as a flat one does, is dark. Its cut shows it.');
  return found;
}

const EMPTY = {
  mesh: 'The mesh is empty: the part lies elsewhere, or is thinner than a cell. Fit the view to the part, or set other ends.',
  render: 'The cut is empty: nothing of the part lies at this height. Move z, or fit the view to the part.',
  contour: 'The outline is empty: nothing of the part lies at this height. Move z, or fit the view to the part.',
};
