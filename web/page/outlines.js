// Outlines of the program: the paths of SVG.

const SVG = 'http://www.w3.org/2000/svg';
const PATHS = /^[MLZ0-9. \n-]*$/; // what the program writes of a contour, and nothing else

// The points of the paths, as x and y in turn.
export function pointsOf(paths) {
  return (paths.match(/-?\d+\.\d+/g) ?? []).map(Number);
}

// Shows the paths in an element. y grows upwards, and in SVG downwards, so the outline is turned over.
export function showOutline(svg, paths, { x0, x1, y0, y1 }) {
  if (!PATHS.test(paths)) throw new Error('this is no outline');
  svg.setAttribute('viewBox', [x0, -y1, x1 - x0, y1 - y0].join(' '));
  const path = document.createElementNS(SVG, 'path');
  path.setAttribute('transform', 'scale(1,-1)');
  path.setAttribute('d', paths.split('\n').join(' '));
  path.setAttribute('vector-effect', 'non-scaling-stroke');
  svg.replaceChildren(path);
}

// The outline as a file, of its size in millimetres.
export function svgOf(paths, { x0, x1, y0, y1 }) {
  const [width, height] = [x1 - x0, y1 - y0].map((it) => Number(it.toPrecision(10)));
  return `<svg xmlns="${SVG}" width="${width}mm" height="${height}mm" viewBox="${x0} ${-y1} ${width} ${height}">\n`
    + `<path transform="scale(1,-1)" d="${paths.trim().split('\n').join(' ')}"/>\n</svg>\n`;
}
