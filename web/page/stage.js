// The drawing itself: an image, an outline or a mesh, in the colours of the page, with what is to be said of it.

import { MeshView } from './mesh_view.js';
import { pointsOf, showOutline } from './outlines.js';
import { bordersOf, greyCanvas, paint, readPgm } from './pictures.js';
import { ENDS, lengthsOf } from './views.js';

const NAMES = { shade: 'Shaded height map', height: 'Height map', render: 'Cut', contour: 'Contour', mesh: 'Mesh' };

export class Stage {
  #parts;
  #meshView = null;
  #shown = null;

  constructor({ picture, outline, mesh, nothing }) {
    this.#parts = { picture, outline, mesh };
    this.nothing = nothing;
    matchMedia('(prefers-color-scheme: dark)').addEventListener('change', () => this.#recolour());
  }

  // Shows the answer of a run. Returns what is said of it: a line, its measures, the ends that it touches, and whether
  // it is empty.
  show(view, answer, settings) {
    const found = this.#draw(view, answer, settings);
    this.nothing.hidden = !found.hint;
    this.nothing.textContent = found.hint ?? '';
    return { ...found, name: NAMES[view] };
  }

  #draw(view, answer, settings) {
    if (view === 'mesh') return this.#mesh(answer, settings);
    if (view === 'contour') return this.#contour(answer, settings);
    const image = readPgm(answer.output);
    this.#shown = { view, image };
    this.#only('picture');
    paint(this.#parts.picture, image, this.#colours());
    const line = `${image.width} × ${image.height} pixels`;
    this.#label('picture', `${NAMES[view]}, ${line}`);
    const upright = view === 'shade' && !image.samples.some((it) => it > 1);
    return { line, ...bordersOf(image, view), upright };
  }

  #contour(answer, settings) {
    const paths = new TextDecoder().decode(answer.output);
    const ends = numbersIn(settings);
    this.#shown = { view: 'contour', paths, ends };
    this.#only('outline');
    showOutline(this.#parts.outline, paths, ends);
    const points = pointsOf(paths);
    const count = paths.split('\n').filter(Boolean).length;
    const line = `${counted(count, 'closed path')}, ${counted(points.length / 2, 'vertex', 'vertices')}`;
    this.#label('outline', `Contour, ${line}`);
    const touched = touchedBy(points, 2, ends, [settings.contourCells, settings.contourCells]);
    return { line, touched, empty: count === 0 };
  }

  #mesh(answer, settings) {
    const { drawable } = answer;
    this.#shown = { view: 'mesh', drawable };
    this.#only('mesh');
    this.#meshView ??= new MeshView(this.#parts.mesh);
    this.#meshView.colours = this.#colours();
    this.#meshView.show(drawable);
    if (!drawable) return { line: 'no mesh of triangles', touched: [], empty: false };
    const vertices = drawable.positions.length / 3;
    const line = `${counted(vertices, 'vertex', 'vertices')}, ${counted(drawable.corners.length / 3, 'face')}`;
    const measures = drawable.low.map((it, axis) => drawable.high[axis] - it);
    this.#label('mesh', `Mesh, ${line}`);
    return {
      line,
      measures: vertices > 0 ? measures : null,
      touched: settings ? bordersOfMesh(drawable, numbersIn(settings), settings.cells) : [],
      empty: vertices === 0,
      hint: this.#meshView.works ? null : 'This browser shows no WebGL, so the mesh can be saved and not be turned.',
    };
  }

  // What is saved as a PNG file: the image in greys as the program wrote it, or the mesh as it is turned now.
  canvasToSave(image) {
    if (image) return greyCanvas(image);
    this.#meshView.drawNow(); // a canvas of WebGL keeps its pixels only until the browser has shown them
    return this.#parts.mesh;
  }

  #only(name) {
    for (const [key, part] of Object.entries(this.#parts)) part.toggleAttribute('hidden', key !== name);
  }

  #label(part, text) {
    this.#parts[part].setAttribute('aria-label', text);
  }

  #colours() {
    const style = getComputedStyle(document.documentElement);
    return ['--part-dark', '--part-light'].map((name) => style.getPropertyValue(name).trim().split(/\s+/).map(Number));
  }

  #recolour() {
    if (this.#meshView) this.#meshView.colours = this.#colours();
    if (this.#shown?.image) paint(this.#parts.picture, this.#shown.image, this.#colours());
  }
}

export function counted(number, name, names = `${name}s`) {
  return `${number.toLocaleString('en')} ${number === 1 ? name : names}`;
}

function numbersIn(settings) {
  return Object.fromEntries(ENDS.map((name) => [name, Number(settings[name])]));
}

// The ends that vertices were closed off at: those lie within 1/65536 of a cell of the end.
function touchedBy(values, axes, ends, cells) {
  const lengths = lengthsOf(ends);
  const touched = new Set();
  for (let at = 0; at < values.length; at++) {
    const axis = at % axes;
    const name = 'xyz'[axis];
    const near = (lengths[axis] / cells[axis]) * (2 / 65536) + 1e-9;
    if (values[at] - ends[`${name}0`] < near) touched.add(`${name}0`);
    if (ends[`${name}1`] - values[at] < near) touched.add(`${name}1`);
  }
  return [...touched].sort();
}

function bordersOfMesh({ low, high }, ends, cells) {
  const found = [...touchedBy(low, 3, ends, cells), ...touchedBy(high, 3, ends, cells)];
  return [...new Set(found)].filter((it) => it).sort();
}
