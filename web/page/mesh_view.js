// A mesh that is turned, by WebGL: with the mouse, a finger or the keys.

const VERTEX = `#version 300 es
uniform mat3 turn;
uniform float zoom, depth;
uniform vec2 aspect;
in vec3 position, normal;
out vec3 place, smoothed;
void main() {
  place = turn * position;
  smoothed = turn * normal;
  gl_Position = vec4(place.xy * zoom * aspect, -place.z * depth, 1.0);
}`;

// A vertex has one normal, which is right where the surface is round and wrong at an edge. So the normal of the triangle
// itself is taken where both differ much.
const FRAGMENT = `#version 300 es
precision highp float;
uniform vec3 dark, light;
in vec3 place, smoothed;
out vec4 colour;
void main() {
  vec3 flat_ = normalize(cross(dFdx(place), dFdy(place)));
  if (flat_.z < 0.0) flat_ = -flat_;
  vec3 round_ = smoothed / max(length(smoothed), 1e-30);
  vec3 facing = normalize(mix(flat_, round_, smoothstep(0.75, 0.92, dot(flat_, round_))));
  float lit = 0.62 * max(dot(facing, vec3(-0.40, 0.53, 0.75)), 0.0) + 0.26 * max(dot(facing, vec3(0.7, 0.1, 0.7)), 0.0) + 0.12 * facing.z;
  colour = vec4(mix(dark, light, clamp(lit, 0.0, 1.0)), 1.0);
}`;

const STEP = Math.PI / 24; // of a key
const NEAREST = 40;
const FARTHEST = 0.2;

export class MeshView {
  #canvas;
  #gl;
  #program;
  #corners = 0;
  #reach = 1;
  #yaw = -0.6;
  #pitch = -0.95;
  #zoom = 1;
  #colours = [[0, 0, 0], [1, 1, 1]];
  #pointers = new Map();
  #asked = false;

  constructor(canvas) {
    this.#canvas = canvas;
    this.#begin();
    canvas.addEventListener('webglcontextlost', (event) => event.preventDefault());
    canvas.addEventListener('webglcontextrestored', () => this.#begin());
    canvas.addEventListener('pointerdown', (event) => this.#down(event));
    canvas.addEventListener('pointermove', (event) => this.#move(event));
    for (const name of ['pointerup', 'pointercancel']) canvas.addEventListener(name, (event) => this.#pointers.delete(event.pointerId));
    canvas.addEventListener('wheel', (event) => this.#wheel(event), { passive: false });
    canvas.addEventListener('keydown', (event) => this.#key(event));
    canvas.addEventListener('dblclick', () => this.#home());
    new ResizeObserver(() => this.draw()).observe(canvas);
  }

  // Whether this browser draws at all.
  get works() {
    return Boolean(this.#gl);
  }

  #begin() {
    const gl = this.#canvas.getContext('webgl2', { antialias: true });
    this.#gl = gl;
    if (!gl) return;
    this.#program = gl.createProgram();
    for (const [kind, source] of [[gl.VERTEX_SHADER, VERTEX], [gl.FRAGMENT_SHADER, FRAGMENT]]) {
      const shader = gl.createShader(kind);
      gl.shaderSource(shader, source);
      gl.compileShader(shader);
      gl.attachShader(this.#program, shader);
    }
    gl.linkProgram(this.#program);
    gl.useProgram(this.#program);
    gl.enable(gl.DEPTH_TEST);
    this.buffers = { position: gl.createBuffer(), normal: gl.createBuffer(), corners: gl.createBuffer() };
  }

  // Takes another mesh, or none. The way that it is turned stays.
  show(drawable) {
    const gl = this.#gl;
    this.#corners = drawable ? drawable.corners.length : 0;
    if (!gl || !drawable) return this.draw();
    for (const [name, values] of [['position', drawable.positions], ['normal', drawable.normals]]) {
      const at = gl.getAttribLocation(this.#program, name);
      gl.bindBuffer(gl.ARRAY_BUFFER, this.buffers[name]);
      gl.bufferData(gl.ARRAY_BUFFER, values, gl.STATIC_DRAW);
      if (at >= 0) {
        gl.enableVertexAttribArray(at);
        gl.vertexAttribPointer(at, 3, gl.FLOAT, false, 0, 0);
      }
    }
    gl.bindBuffer(gl.ELEMENT_ARRAY_BUFFER, this.buffers.corners);
    gl.bufferData(gl.ELEMENT_ARRAY_BUFFER, drawable.corners, gl.STATIC_DRAW);
    this.#reach = Math.max(1e-9, Math.hypot(...drawable.high.map((it, axis) => (it - drawable.low[axis]) / 2)));
    return this.draw();
  }

  set colours(colours) {
    this.#colours = colours.map((it) => it.map((channel) => channel / 255));
    this.draw();
  }

  // Draws at the next frame, once for all that changed until then.
  draw() {
    if (this.#asked || !this.#gl) return;
    this.#asked = true;
    requestAnimationFrame(() => {
      this.#asked = false;
      this.drawNow();
    });
  }

  drawNow() {
    const gl = this.#gl;
    const ratio = window.devicePixelRatio || 1;
    const width = Math.max(1, Math.round(this.#canvas.clientWidth * ratio));
    const height = Math.max(1, Math.round(this.#canvas.clientHeight * ratio));
    if (this.#canvas.width !== width) this.#canvas.width = width;
    if (this.#canvas.height !== height) this.#canvas.height = height;
    gl.viewport(0, 0, width, height);
    gl.clearColor(0, 0, 0, 0);
    gl.clear(gl.COLOR_BUFFER_BIT | gl.DEPTH_BUFFER_BIT);
    if (this.#corners === 0) return;
    const at = (name) => gl.getUniformLocation(this.#program, name);
    const shorter = Math.min(width, height);
    gl.uniformMatrix3fv(at('turn'), false, turned(this.#yaw, this.#pitch));
    gl.uniform1f(at('zoom'), (0.95 * this.#zoom) / this.#reach);
    gl.uniform1f(at('depth'), 0.5 / this.#reach);
    gl.uniform2f(at('aspect'), shorter / width, shorter / height);
    gl.uniform3fv(at('dark'), this.#colours[0]);
    gl.uniform3fv(at('light'), this.#colours[1]);
    gl.drawElements(gl.TRIANGLES, this.#corners, gl.UNSIGNED_INT, 0);
  }

  #turn(yaw, pitch) {
    this.#yaw += yaw;
    this.#pitch = Math.min(0.001, Math.max(-Math.PI, this.#pitch + pitch));
    this.draw();
  }

  #zoomBy(factor) {
    this.#zoom = Math.min(NEAREST, Math.max(FARTHEST, this.#zoom * factor));
    this.draw();
  }

  #home() {
    [this.#yaw, this.#pitch, this.#zoom] = [-0.6, -0.95, 1];
    this.draw();
  }

  #down(event) {
    this.#canvas.focus();
    this.#canvas.setPointerCapture(event.pointerId);
    this.#pointers.set(event.pointerId, [event.clientX, event.clientY]);
  }

  // One finger turns, and two that part or close zoom.
  #move(event) {
    const before = this.#pointers.get(event.pointerId);
    if (!before) return;
    const apart = this.#apart();
    this.#pointers.set(event.pointerId, [event.clientX, event.clientY]);
    if (this.#pointers.size === 1) this.#turn((event.clientX - before[0]) * 0.01, (event.clientY - before[1]) * 0.01);
    else if (apart > 0) this.#zoomBy(this.#apart() / apart);
  }

  #apart() {
    const [first, second] = [...this.#pointers.values()];
    return second ? Math.hypot(first[0] - second[0], first[1] - second[1]) : 0;
  }

  #wheel(event) {
    event.preventDefault();
    this.#zoomBy(Math.exp(-event.deltaY * 0.0015));
  }

  #key(event) {
    const acts = {
      ArrowLeft: () => this.#turn(-STEP, 0),
      ArrowRight: () => this.#turn(STEP, 0),
      ArrowUp: () => this.#turn(0, -STEP),
      ArrowDown: () => this.#turn(0, STEP),
      '+': () => this.#zoomBy(1.15),
      '=': () => this.#zoomBy(1.15),
      '-': () => this.#zoomBy(1 / 1.15),
      0: () => this.#home(),
      Home: () => this.#home(),
    };
    if (!(event.key in acts) || event.ctrlKey || event.metaKey || event.altKey) return;
    event.preventDefault();
    acts[event.key]();
  }
}

// The turn about z, and then towards the viewer, by columns.
function turned(yaw, pitch) {
  const [c, s, d, t] = [Math.cos(yaw), Math.sin(yaw), Math.cos(pitch), Math.sin(pitch)];
  return new Float32Array([c, d * s, t * s, -s, d * c, t * c, 0, -t, d]);
}
