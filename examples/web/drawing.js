// Triangles in WebGL 2, shaded by the slope of each, with or without their edges.

const VERTEX = `#version 300 es
in vec3 place; uniform mat4 view; out vec3 at;
void main() { at = place; gl_Position = view * vec4(place, 1.0); }`;
const FRAGMENT = `#version 300 es
precision highp float; in vec3 at; uniform vec2 span; uniform float lift; uniform vec4 line; out vec4 color;
void main() {
  vec3 n = normalize(cross(dFdx(at * vec3(1, 1, lift)), dFdy(at * vec3(1, 1, lift))));
  n = n.z < 0.0 ? -n : n;
  float h = clamp((at.z - span.x) / max(span.y - span.x, 1e-6), 0.0, 1.0);
  vec3 ground = mix(mix(vec3(.25, .44, .25), vec3(.66, .60, .42), smoothstep(0.0, .6, h)), vec3(.93), smoothstep(.6, 1.0, h));
  color = mix(vec4(ground * (.35 + .75 * max(dot(n, normalize(vec3(-.6, .4, .7))), 0.0)), 1), vec4(line.rgb, 1), line.a);
}`;

export class Drawing {
  #edges = new Uint32Array();

  constructor(canvas) {
    const gl = canvas.getContext("webgl2", { antialias: true, preserveDrawingBuffer: true });
    if (!gl) throw new Error("this browser has no WebGL 2");
    this.gl = gl;
    this.program = gl.createProgram();
    for (const [kind, text] of [[gl.VERTEX_SHADER, VERTEX], [gl.FRAGMENT_SHADER, FRAGMENT]]) {
      const shader = gl.createShader(kind);
      gl.shaderSource(shader, text);
      gl.compileShader(shader);
      gl.attachShader(this.program, shader);
    }
    gl.linkProgram(this.program);
    if (!gl.getProgramParameter(this.program, gl.LINK_STATUS)) throw new Error(gl.getProgramInfoLog(this.program));
    gl.useProgram(this.program);
    [this.points, this.triangles, this.lines] = [0, 1, 2].map(() => gl.createBuffer());
    gl.bindBuffer(gl.ARRAY_BUFFER, this.points);
    gl.enableVertexAttribArray(0);
    gl.vertexAttribPointer(0, 3, gl.FLOAT, false, 0, 0);
    gl.enable(gl.DEPTH_TEST);
    gl.enable(gl.POLYGON_OFFSET_FILL);
    gl.polygonOffset(1, 1);
    gl.clearColor(0.867, 0.902, 0.933, 1);
  }

  /** The vertices from now on, and the least and the greatest height among them. */
  setPositions(positions, span) {
    this.span = span;
    this.gl.bindBuffer(this.gl.ARRAY_BUFFER, this.points);
    this.gl.bufferData(this.gl.ARRAY_BUFFER, positions, this.gl.STATIC_DRAW);
  }

  setIndices(indices, withEdges) {
    const { gl } = this;
    this.count = indices.length;
    gl.bindBuffer(gl.ELEMENT_ARRAY_BUFFER, this.triangles);
    gl.bufferData(gl.ELEMENT_ARRAY_BUFFER, indices, gl.STREAM_DRAW);
    if (!withEdges) return;
    if (this.#edges.length < 2 * indices.length) this.#edges = new Uint32Array(2 * indices.length);
    for (let k = 0; k < indices.length; k += 3) {
      const [a, b, c] = indices.subarray(k, k + 3);
      this.#edges.set([a, b, b, c, c, a], 2 * k);
    }
    gl.bindBuffer(gl.ELEMENT_ARRAY_BUFFER, this.lines);
    gl.bufferData(gl.ELEMENT_ARRAY_BUFFER, this.#edges.subarray(0, 2 * indices.length), gl.STREAM_DRAW);
  }

  draw(view, lift, withEdges) {
    const { gl } = this;
    const place = (name) => gl.getUniformLocation(this.program, name);
    const { canvas } = gl;
    [canvas.width, canvas.height] = [canvas.clientWidth, canvas.clientHeight].map((it) => Math.round(it * devicePixelRatio));
    gl.viewport(0, 0, canvas.width, canvas.height);
    gl.clear(gl.COLOR_BUFFER_BIT | gl.DEPTH_BUFFER_BIT);
    gl.uniformMatrix4fv(place("view"), false, view);
    gl.uniform2f(place("span"), ...this.span);
    gl.uniform1f(place("lift"), lift);
    for (const [buffer, mode, count, line] of [
      [this.triangles, gl.TRIANGLES, this.count, [0, 0, 0, 0]], [this.lines, gl.LINES, withEdges ? 2 * this.count : 0, [0.09, 0.14, 0.18, 0.75]],
    ]) {
      gl.uniform4f(place("line"), ...line);
      gl.bindBuffer(gl.ELEMENT_ARRAY_BUFFER, buffer);
      if (count) gl.drawElements(mode, count, gl.UNSIGNED_INT, 0);
    }
  }
}

const minus = (a, b) => a.map((it, k) => it - b[k]);
const dot = (a, b) => a.reduce((sum, it, k) => sum + it * b[k], 0);
const cross = (a, b) => [a[1] * b[2] - a[2] * b[1], a[2] * b[0] - a[0] * b[2], a[0] * b[1] - a[1] * b[0]];
const unit = (a) => a.map((it) => it / Math.hypot(...a));

/** The matrix of a view from a place to another, z up, heights `lift` times as great; degrees from bottom to top. */
export function viewMatrix(from, to, degrees, aspect, near, far, lift) {
  const back = unit(minus(from, to));
  const right = unit(cross([0, 0, 1], back));
  const up = cross(back, right);
  const f = 1 / Math.tan((degrees * Math.PI) / 360);
  const rows = [right.map((it) => (it * f) / aspect), up.map((it) => it * f), back.map((it) => (it * (near + far)) / (near - far))];
  const columns = [0, 1, 2].map((k) => [...rows.map((it) => it[k]), -back[k]].map((it) => (k === 2 ? it * lift : it)));
  const last = [-dot(rows[0], from), -dot(rows[1], from), -dot(rows[2], from) + (2 * near * far) / (near - far), dot(back, from)];
  return new Float32Array([...columns.flat(), ...last]);
}
