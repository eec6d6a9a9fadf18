// The worker: it owns the module, and answers one job after the other. The page stops a run by ending its worker.

import { Engine } from './engine.js';
import { drawableOf, readPly, stlOf } from './ply.js';

let engine = null;
let lastSolid = { text: null, ran: null }; // a slider of the view redraws the same solid many times

self.onmessage = ({ data }) => {
  if (data.module) {
    engine = new Engine(data.module);
    return;
  }
  const [answer, moved] = answerTo(data);
  self.postMessage({ ...answer, id: data.id }, moved);
};

function answerTo(job) {
  try {
    return job.stl ? savedAs(job.stl) : drawn(job);
  } catch (error) {
    return [{ died: String(error) }, []];
  }
}

// A run. Of a solid the model is made first; where that is refused, the refusal is the answer.
function drawn(job) {
  const began = performance.now();
  const { words, refuse } = job;
  let { input } = job;
  if (job.solid) {
    const made = modelOf(input, refuse);
    if (made.status !== 0) return [{ ...made, of: 'solid' }, []];
    input = made.output;
  }
  // a mesh that is only shown is read where the module has it, and not copied
  const shown = job.mesh === 'output';
  const ran = engine.run(words, input, shown ? { refuse, read: drawableIn } : { refuse });
  const milliseconds = performance.now() - began;
  if (shown) return [{ ...ran, output: null, drawable: ran.output, milliseconds }, partsOf(ran.output)];
  const drawable = job.mesh === 'input' && ran.status === 0 ? drawableIn(input) : null;
  return [{ ...ran, drawable, milliseconds }, [ran.output.buffer, ...partsOf(drawable)]];
}

function drawableIn(ply) {
  const mesh = readPly(ply);
  return mesh && drawableOf(mesh);
}

// What of a mesh is handed over to the page, and not copied.
function partsOf(drawable) {
  return drawable ? [drawable.positions.buffer, drawable.normals.buffer, drawable.corners.buffer] : [];
}

function modelOf(bytes, refuse) {
  const text = new TextDecoder().decode(bytes);
  if (lastSolid.text !== text || refuse) {
    const ran = engine.run(['solid'], bytes, { refuse });
    if (ran.status !== 0) return ran;
    lastSolid = { text, ran };
  }
  return lastSolid.ran;
}

function savedAs(ply) {
  const mesh = readPly(ply);
  const made = mesh ? stlOf(mesh) : 'This is no mesh of triangles.';
  return typeof made === 'string' ? [{ refused: made }, []] : [{ status: 0, output: made }, [made.buffer]];
}
