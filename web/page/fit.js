// Ends that the part fits into, found by meshes of few cells: of cubes about the origin, each twice as large as the one
// before, until the part lies within, and then of the box that it was found in. What is thinner than a cell of those may
// be missed.

import { numeralOf } from './texts.js';
import { niceBelow } from './views.js';

const SMALLEST = 0.125;
const LARGEST = 16_384;
const CELLS = 24;
const FINE_CELLS = 64;
const AXES = ['x', 'y', 'z'];

// `meshOf` draws a mesh of words, and answers its drawable form, or null where the run was refused or stopped. The
// answer has the six ends, and the axes along which the part has no end; or it is null, or says that nothing was found.
export async function fitted(meshOf, now) {
  const seen = [];
  let found = null;
  for (let reach = SMALLEST; reach <= LARGEST && !(found && found.unended.length === 0); reach *= 2) {
    const mesh = await meshOf(cube(reach));
    if (!mesh) return null;
    seen.push(spanOf(mesh, reach));
    found = spansOf(seen);
  }
  if (seen.every((it) => it.empty)) return { empty: true };
  if (!found) return { unended: AXES };
  const { spans: rough, unended } = found;
  const box = rough.map((it, axis) => it ?? [Number(now[`${AXES[axis]}0`]), Number(now[`${AXES[axis]}1`])]);
  const fine = await meshOf([...endsOf(box), `n=${FINE_CELLS}`]);
  if (!fine) return null;
  if (!(fine.low[0] <= fine.high[0])) return { empty: true };
  const ends = {};
  AXES.forEach((name, axis) => {
    const [low, high] = rough[axis] ? roomy(fine.low[axis], fine.high[axis]) : box[axis];
    ends[`${name}0`] = numeralOf(low);
    ends[`${name}1`] = numeralOf(high);
  });
  return { ends, unended };
}

function cube(reach) {
  return [...endsOf([[-reach, reach], [-reach, reach], [-reach, reach]]), `n=${CELLS}`];
}

function endsOf(box) {
  return box.flatMap(([low, high], axis) => [`${AXES[axis]}0=${numeralOf(low)}`, `${AXES[axis]}1=${numeralOf(high)}`]);
}

function spanOf({ low, high }, reach) {
  const cell = (2 * reach) / CELLS;
  const empty = !(low[0] <= high[0]);
  return { empty, low, high, cell, touches: AXES.map((_, axis) => !empty && (low[axis] < -reach + cell / 1000 || high[axis] > reach - cell / 1000)) };
}

// The span along each axis, with a cell of room, by the first cube that the part lies within, where the next two agree.
// An axis along which the part leaves every cube has no span.
function spansOf(seen) {
  const endless = (axis) => seen.every((it) => it.empty || it.touches[axis]);
  const ended = AXES.map((_, axis) => axis).filter((axis) => !endless(axis));
  const agree = ({ low, high, cell }, other) => other.empty
    || ended.every((axis) => other.low[axis] >= low[axis] - cell - other.cell && other.high[axis] <= high[axis] + cell + other.cell);
  const at = seen.findIndex((it, index) => !it.empty && index + 2 < seen.length && ended.length > 0
    && ended.every((axis) => !it.touches[axis]) && agree(it, seen[index + 1]) && agree(it, seen[index + 2]));
  if (at < 0) return null;
  const { low, high, cell } = seen[at];
  return {
    spans: AXES.map((_, axis) => (ended.includes(axis) ? [low[axis] - cell, high[axis] + cell] : null)),
    unended: AXES.filter((_, axis) => !ended.includes(axis)),
  };
}

// Ends of few digits, a little further out than the part.
function roomy(low, high) {
  const extent = Math.max(high - low, 1e-6);
  const step = niceBelow(extent / 20);
  return [Math.floor((low - extent / 100) / step) * step, Math.ceil((high + extent / 100) / step) * step];
}
