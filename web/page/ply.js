// Meshes: the ASCII form of PLY is read, and binary STL is written.

const NEWLINE = 10;
const SPACE = 32;
const MINUS = 45;
const PLUS = 43;
const POINT = 46;
const ZERO = 48;

// The places of the vertices and the corners of the faces, or null where the text is no mesh of triangles.
export function readPly(bytes) {
  const header = headerOf(bytes);
  if (!header) return null;
  const reader = new NumberReader(bytes, header.end);
  const places = new Float64Array(3 * header.vertices);
  const row = new Float64Array(header.properties);
  for (let vertex = 0; vertex < header.vertices; vertex++) {
    for (let property = 0; property < row.length; property++) row[property] = reader.next();
    for (let axis = 0; axis < 3; axis++) places[3 * vertex + axis] = row[header.axes[axis]];
  }
  const corners = new Uint32Array(3 * header.faces);
  for (let face = 0; face < header.faces; face++) {
    if (reader.next() !== 3) return null;
    for (let corner = 0; corner < 3; corner++) {
      const vertex = reader.next();
      if (!(vertex >= 0 && vertex < header.vertices)) return null;
      corners[3 * face + corner] = vertex;
    }
  }
  return { places, corners };
}

function headerOf(bytes) {
  const text = new TextDecoder('latin1').decode(bytes.subarray(0, 4096));
  const found = /^ply\s[^]*?\bend_header[ \t\r]*\n/.exec(text);
  if (!found) return null;
  const lines = found[0].split('\n').map((line) => line.trim().split(/\s+/));
  const count = (name) => Number(lines.find((line) => line[0] === 'element' && line[1] === name)?.[2]);
  const names = lines.filter((line) => line[0] === 'property' && line[1] !== 'list').map((line) => line[2]);
  const axes = ['x', 'y', 'z'].map((name) => names.indexOf(name));
  const [vertices, faces] = [count('vertex'), count('face')];
  if (!(vertices >= 0) || !(faces >= 0) || axes.includes(-1)) return null;
  if (2 * vertices + 2 * faces > bytes.length) return null; // before room is made for what can not stand there
  return { vertices, faces, axes, properties: names.length, end: found[0].length };
}

// Numbers of a text of bytes, one after the other. A mesh has millions, too many to make a string of each.
class NumberReader {
  constructor(bytes, at) {
    this.bytes = bytes;
    this.at = at;
  }

  next() {
    const { bytes } = this;
    let at = this.at;
    while (at < bytes.length && bytes[at] <= SPACE) at++;
    const start = at;
    const negative = bytes[at] === MINUS;
    if (negative || bytes[at] === PLUS) at++;
    let digits = 0;
    let scale = 1;
    let behind = false;
    for (; at < bytes.length && bytes[at] > SPACE; at++) {
      const digit = bytes[at] - ZERO;
      if (digit >= 0 && digit <= 9) {
        digits = 10 * digits + digit;
        if (behind) scale *= 10;
      } else if (bytes[at] === POINT && !behind) {
        behind = true;
      } else {
        return this.#other(start); // an exponent, or no number
      }
    }
    this.at = at;
    if (at === start) return NaN;
    return (negative ? -digits : digits) / scale;
  }

  #other(start) {
    let end = start;
    while (end < this.bytes.length && this.bytes[end] > SPACE) end++;
    this.at = end;
    return Number(new TextDecoder('latin1').decode(this.bytes.subarray(start, end)));
  }
}

// A mesh as binary STL, whose numbers have single precision. Only faces two of whose corners became one place there are
// left out; where the rest is not closed, or nothing is left, the answer is a sentence that says so.
export function stlOf({ places, corners }) {
  const rounded = Float32Array.from(places);
  const place = onePlaceEach(rounded);
  const kept = [];
  for (let face = 0; face < corners.length; face += 3) {
    const [a, b, c] = [place[corners[face]], place[corners[face + 1]], place[corners[face + 2]]];
    if (a !== b && b !== c && c !== a) kept.push(a, b, c);
  }
  if (kept.length === 0) return 'The mesh has no face, so there is nothing to save.';
  if (!isClosed(kept, rounded.length / 3)) return 'In single precision the mesh is not closed, so it was not saved.';
  const bytes = new Uint8Array(84 + (50 * kept.length) / 3);
  bytes.set(new TextEncoder().encode('modeller, binary STL'.padEnd(80)));
  const view = new DataView(bytes.buffer);
  view.setUint32(80, kept.length / 3, true);
  for (let at = 84, face = 0; face < kept.length; face += 3, at += 50) {
    const numbers = [0, 1, 2].flatMap((it) => [...rounded.subarray(3 * kept[face + it], 3 * kept[face + it] + 3)]);
    [...normalOf(numbers), ...numbers].forEach((it, index) => view.setFloat32(at + 4 * index, it, true));
  }
  return bytes;
}

// For each vertex the first vertex that lies at its place, by a table of hashed places.
function onePlaceEach(places) {
  const count = places.length / 3;
  const bits = new Uint32Array(places.map((it) => it + 0).buffer); // -0 and 0 are one place
  let size = 16;
  while (size < 2 * count) size *= 2;
  const table = new Int32Array(size).fill(-1);
  const first = new Uint32Array(count);
  for (let vertex = 0; vertex < count; vertex++) {
    const [x, y, z] = [bits[3 * vertex], bits[3 * vertex + 1], bits[3 * vertex + 2]];
    let hash = Math.imul(x, 0x9e3779b1) ^ Math.imul(y, 0x85ebca6b) ^ Math.imul(z, 0xc2b2ae35);
    hash = (hash ^ (hash >>> 15)) & (size - 1);
    for (; table[hash] >= 0; hash = (hash + 1) & (size - 1)) {
      const other = 3 * table[hash];
      if (bits[other] === x && bits[other + 1] === y && bits[other + 2] === z) break;
    }
    if (table[hash] < 0) table[hash] = vertex;
    first[vertex] = table[hash];
  }
  return first;
}

// Whether each edge runs back as often as it runs forth.
function isClosed(corners, count) {
  const forth = new Float64Array(corners.length);
  const back = new Float64Array(corners.length);
  for (let face = 0; face < corners.length; face += 3) {
    for (let it = 0; it < 3; it++) {
      const [from, to] = [corners[face + it], corners[face + ((it + 1) % 3)]];
      forth[face + it] = from * count + to;
      back[face + it] = to * count + from;
    }
  }
  forth.sort();
  back.sort();
  return forth.every((it, index) => it === back[index]);
}

// The unit normal of a triangle of nine numbers, or 0 where its corners lie on one line.
function normalOf([ax, ay, az, bx, by, bz, cx, cy, cz]) {
  const [ux, uy, uz, vx, vy, vz] = [bx - ax, by - ay, bz - az, cx - ax, cy - ay, cz - az];
  const [x, y, z] = [uy * vz - uz * vy, uz * vx - ux * vz, ux * vy - uy * vx];
  const length = Math.hypot(x, y, z);
  return length > 0 ? [x / length, y / length, z / length] : [0, 0, 0];
}

// What the page draws of a mesh: single precision about its middle, a normal for each vertex, and the ends that it fills.
export function drawableOf({ places, corners }) {
  const low = [Infinity, Infinity, Infinity];
  const high = [-Infinity, -Infinity, -Infinity];
  for (let at = 0; at < places.length; at++) {
    low[at % 3] = Math.min(low[at % 3], places[at]);
    high[at % 3] = Math.max(high[at % 3], places[at]);
  }
  const middle = low.map((it, axis) => (it + high[axis]) / 2);
  const positions = new Float32Array(places.length);
  for (let at = 0; at < places.length; at++) positions[at] = places[at] - middle[at % 3];
  return { positions, normals: normalsOf(positions, corners), corners, low, high, middle };
}

// A normal for each vertex: the sum of those of its faces, each as long as its face is large.
function normalsOf(positions, corners) {
  const normals = new Float32Array(positions.length);
  for (let face = 0; face < corners.length; face += 3) {
    const [a, b, c] = [3 * corners[face], 3 * corners[face + 1], 3 * corners[face + 2]];
    const [ux, uy, uz] = [positions[b] - positions[a], positions[b + 1] - positions[a + 1], positions[b + 2] - positions[a + 2]];
    const [vx, vy, vz] = [positions[c] - positions[a], positions[c + 1] - positions[a + 1], positions[c + 2] - positions[a + 2]];
    const [x, y, z] = [uy * vz - uz * vy, uz * vx - ux * vz, ux * vy - uy * vx];
    for (const at of [a, b, c]) {
      normals[at] += x;
      normals[at + 1] += y;
      normals[at + 2] += z;
    }
  }
  return normals;
}
