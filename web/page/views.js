// What each view asks of the program: the words of its run, from the ends, the height and the sizes that are set.

export const ENDS = ['x0', 'x1', 'y0', 'y1', 'z0', 'z1'];
export const VIEWS = ['shade', 'height', 'render', 'contour', 'mesh'];

const MOST_CELLS = 16_777_216; // of a mesh, in all
const MOST_PER_AXIS = 512;
const MOST_OF_CONTOUR = 256;
const BRIEF_CELLS = 110_592; // 48 along each axis: a mesh that is made while one drags

// The words of a view. `settings` has the ends, z, the cell and the layers as they were typed, since the program says
// what is wrong with them, and the longer side of a picture in pixels. `brief` asks for one that is made while one drags.
export function wordsOf(view, settings, brief = false) {
  if (view === 'mesh') return ['mesh', ...ENDS.map(told), ...meshWords(settings, brief)];
  if (view === 'contour') return ['contour', ...flatEnds(settings), `n=${contourCells(settings, brief)}`];
  const { w, h } = pixelsOf(settings, brief);
  if (view === 'render' || view === 'count') return [view, ...flatEnds(settings), `w=${w}`, `h=${h}`];
  const limit = 1024; // of a height map
  return [view, ...ENDS.map(told), `w=${Math.min(w, limit)}`, `h=${Math.min(h, limit)}`, `d=${settings.layers}`];

  function told(name) {
    return `${name}=${settings[name]}`;
  }
}

function flatEnds(settings) {
  return ['x0', 'x1', 'y0', 'y1', 'z'].map((name) => `${name}=${settings[name]}`);
}

// How far apart the ends of each axis are; an axis whose ends are no numbers, or the wrong way round, has no length.
export function lengthsOf(settings) {
  const length = (axis) => Math.max(0, Number(settings[`${axis}1`]) - Number(settings[`${axis}0`])) || 0;
  return [length('x'), length('y'), length('z')];
}

// The pixels of a picture, which are square.
export function pixelsOf(settings, brief = false) {
  const longer = Math.max(1, Math.round(Number(settings.pixels) / (brief ? 2 : 1)));
  const [x, y] = lengthsOf(settings);
  const step = Math.max(x, y) / longer;
  if (!(step > 0)) return { w: longer, h: longer };
  return { w: Math.max(1, Math.round(x / step)), h: Math.max(1, Math.round(y / step)) };
}

// The cells of a mesh along each axis, as many as their length wants and as there may be.
export function cellsOf(settings, brief = false) {
  const lengths = lengthsOf(settings);
  let cell = Number(settings.cell);
  if (!(cell > 0)) return [0, 0, 0];
  const counts = () => lengths.map((it) => Math.min(MOST_PER_AXIS, Math.max(1, Math.ceil(it / cell - 1e-9))));
  const most = brief ? BRIEF_CELLS : MOST_CELLS;
  let found = counts();
  while (found[0] * found[1] * found[2] > most) {
    cell *= 1.05;
    found = counts();
  }
  return found;
}

function meshWords(settings, brief) {
  if (!(Number(settings.cell) > 0)) return [`n=${settings.cell}`]; // refused, with a reason
  const [nx, ny, nz] = cellsOf(settings, brief);
  return [`nx=${nx}`, `ny=${ny}`, `nz=${nz}`];
}

function contourCells(settings, brief) {
  const cell = Number(settings.cell);
  if (!(cell > 0)) return settings.cell;
  const [x, y] = lengthsOf(settings);
  const wanted = Math.ceil(Math.max(x, y) / cell - 1e-9);
  return Math.min(brief ? 64 : MOST_OF_CONTOUR, Math.max(1, wanted));
}

// A length of one digit, 1, 2 or 5, that is at most so long.
export function niceBelow(length) {
  const power = 10 ** Math.floor(Math.log10(length));
  return power * ([5, 2, 1].find((it) => it * power <= length * (1 + 1e-9)) ?? 1);
}
