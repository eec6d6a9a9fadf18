// Images of the program: PGM is read and painted, and PNG is written by the browser.

export function readPgm(bytes) {
  const head = /^P5\n(\d+) (\d+)\n(\d+)\n/.exec(new TextDecoder('latin1').decode(bytes.subarray(0, 40)));
  if (!head) return null;
  const [width, height, most] = head.slice(1).map(Number);
  return { width, height, most, samples: bytes.subarray(head[0].length) };
}

// The sample at a place, from 0 to `most`.
function sampleOf({ most, samples }, index) {
  return most < 256 ? samples[index] : 256 * samples[2 * index] + samples[2 * index + 1];
}

// Paints an image by two colours, of the least and the greatest sample above 0. What is 0 lies outside, and is left clear.
export function paint(canvas, image, [from, to]) {
  const { width, height, most } = image;
  const pixels = new ImageData(width, height);
  for (let index = 0; index < width * height; index++) {
    const sample = sampleOf(image, index);
    if (sample === 0) continue;
    for (let channel = 0; channel < 3; channel++) {
      pixels.data[4 * index + channel] = from[channel] + ((to[channel] - from[channel]) * sample) / most;
    }
    pixels.data[4 * index + 3] = 255;
  }
  canvas.width = width;
  canvas.height = height;
  canvas.getContext('2d').putImageData(pixels, 0, 0);
}

// The image in greys, black where its sample is 0, as a canvas of its own: what is saved as PNG.
export function greyCanvas(image) {
  const canvas = document.createElement('canvas');
  const { width, height, most } = image;
  const pixels = new ImageData(width, height);
  for (let index = 0; index < width * height; index++) {
    const grey = Math.round((255 * sampleOf(image, index)) / most);
    pixels.data.set([grey, grey, grey, 255], 4 * index);
  }
  [canvas.width, canvas.height] = [width, height];
  canvas.getContext('2d').putImageData(pixels, 0, 0);
  return canvas;
}

// The ends that an image touches, by name, and whether nothing of it is above 0.
export function bordersOf(image, view) {
  const { width, height, most, samples } = image;
  const touched = new Set();
  for (let column = 0; column < width; column++) {
    if (sampleOf(image, column)) touched.add('y1');
    if (sampleOf(image, (height - 1) * width + column)) touched.add('y0');
  }
  for (let row = 0; row < height; row++) {
    if (sampleOf(image, row * width)) touched.add('x0');
    if (sampleOf(image, row * width + width - 1)) touched.add('x1');
  }
  let empty = true;
  for (let index = 0; index < width * height; index++) {
    const sample = sampleOf(image, index);
    if (sample) empty = false;
    if (view === 'height' && sample === most) touched.add('z1');
  }
  return { touched: [...touched].sort(), empty: empty || samples.length === 0 };
}
