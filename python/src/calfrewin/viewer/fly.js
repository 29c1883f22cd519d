// The page of a flight: asks the server for each frame's mesh, draws it, and moves the camera. WebGL 2 alone.
//
// The page keeps the heights of pages of the ground, of which a small ground is one; a frame is the names of its triangles, which
// say where their corners are. The next frame is asked while this one is drawn, so a mesh is drawn with the camera that it was asked for.

const WORDS = ["triangles", "vertices", "splits", "merges", "blocking", "need", "inside", "cut", "outside", "frameUs", "listUs", "edits"];
const HEAD = 64, SKY = [0.58, 0.69, 0.82], NEAR = 0.35, REACH = 700; // nearest and, at least, farthest that is drawn, in grid steps
const $ = (id) => document.getElementById(id);
const asked = new URLSearchParams(location.search), STOP = +(asked.get("frames") ?? 0); // ?frames=10 stops after ten

const VERTEX = `#version 300 es
  precision highp float; precision highp int;
  in uvec3 corners, tall; in float fresh;
  uniform mat4 view; uniform vec4 planes[4]; uniform ivec2 origin; // a grid point near the eye, from which all is counted here
  uniform int side, count; uniform float spacing, lift;
  out vec3 here, rim; flat out vec3 normal; flat out float changed; flat out int kind;
  vec3 place(uint p, uint height) {
    ivec2 at = ivec2(int(p) % side, side - 1 - int(p) / side) - origin;
    return vec3(vec2(at) * spacing, float(height) * lift);
  }
  void main() {
    vec3 at[3] = vec3[3](place(corners.x, tall.x), place(corners.y, tall.y), place(corners.z, tall.z));
    kind = 0; // 0 inside all planes, 1 cut, 2 outside of one
    for (int k = 0; k < count; k++) {
      int behind = 0;
      for (int c = 0; c < 3; c++) if (dot(planes[k].xyz, at[c]) + planes[k].w < 0.0) behind++;
      kind = max(kind, behind == 3 ? 2 : behind > 0 ? 1 : 0);
    }
    normal = normalize(cross(at[1] - at[0], at[2] - at[0]));
    here = at[gl_VertexID]; rim = vec3(gl_VertexID == 0, gl_VertexID == 1, gl_VertexID == 2); changed = fresh;
    gl_Position = view * vec4(here, 1.0);
  }`;
const FRAGMENT = `#version 300 es
  precision highp float; precision highp int;
  in vec3 here, rim; flat in vec3 normal; flat in float changed; flat in int kind;
  uniform vec3 eye, sky; uniform vec2 span, limit; uniform float far; uniform bool edges, showChanged, mark; out vec4 color;
  void main() {
    if (here.x > limit.x || here.y < limit.y) discard; // what fills the raster up to a square
    float h = clamp((here.z - span.x) / (span.y - span.x), 0.0, 1.0), flatness = abs(normal.z);
    vec3 low = mix(vec3(0.27, 0.46, 0.24), vec3(0.56, 0.58, 0.34), smoothstep(0.0, 0.45, h));
    vec3 high = mix(vec3(0.62, 0.55, 0.44), vec3(0.93, 0.93, 0.95), smoothstep(0.75, 0.95, h));
    vec3 ground = mix(vec3(0.50, 0.45, 0.40), mix(low, high, smoothstep(0.4, 0.7, h)), smoothstep(0.45, 0.85, flatness));
    if (mark) ground = kind == 0 ? vec3(0.40, 0.80, 0.40) : kind == 1 ? vec3(1.0, 0.83, 0.27) : vec3(0.53, 0.60, 0.67);
    vec3 lit = ground * (0.40 + 0.65 * max(dot(normal, normalize(vec3(0.5, 0.35, 0.75))), 0.0));
    if (showChanged && changed > 0.0) lit = mix(lit, vec3(1.0, 0.5, 0.0), 0.75);
    if (edges) {
      vec3 step = fwidth(rim), wide = rim / step; // the rim in pixels; small triangles get pale edges
      float strong = clamp(0.09 / max(step.x, max(step.y, step.z)), 0.12, 0.8);
      lit = mix(lit, vec3(0.07, 0.09, 0.12), strong * clamp(1.2 - min(wide.x, min(wide.y, wide.z)), 0.0, 1.0));
    }
    float haze = clamp(distance(here, eye) / far, 0.0, 1.0);
    color = vec4(mix(lit, sky, far > 0.0 ? haze * haze * 0.9 : 0.0), 1.0);
  }`;

// Calls of the server: whole numbers of 64 bits go there, bytes come back, or an error with what it says.
async function call(name, numbers) {
  const reply = await fetch(name, { method: "POST", body: BigInt64Array.from(numbers, (v) => BigInt(Math.round(v))) });
  if (!reply.ok) throw new Error(await reply.text());
  return reply.arrayBuffer();
}

const canvas = $("view"), gl = canvas.getContext("webgl2", { antialias: true, preserveDrawingBuffer: STOP > 0 });
if (!gl) throw ($("told").textContent = "this browser has no WebGL 2");

function shader(kind, text) {
  const it = gl.createShader(kind);
  gl.shaderSource(it, text);
  gl.compileShader(it);
  if (!gl.getShaderParameter(it, gl.COMPILE_STATUS)) throw new Error(gl.getShaderInfoLog(it));
  return it;
}
const program = gl.createProgram();
gl.attachShader(program, shader(gl.VERTEX_SHADER, VERTEX));
gl.attachShader(program, shader(gl.FRAGMENT_SHADER, FRAGMENT));
gl.linkProgram(program);
if (!gl.getProgramParameter(program, gl.LINK_STATUS)) throw new Error(gl.getProgramInfoLog(program));
gl.useProgram(program);
const uniform = new Proxy({}, { get: (kept, name) => (kept[name] ??= gl.getUniformLocation(program, name)) });

// The ground, as the server has it now: its pages, of which some have changed. The page draws it, walks above it and finds what a
// click meets. The raster has its columns from the left side of a square and its rows from the far side.
let side, spacing, most, edits = -1, columns, rows, pageSide, coarsest, wide, span;
const pages = new Map(), keyOf = (q, column, row) => (q * 16384 + row) * 16384 + column;
async function fetchGround() {
  const bytes = await call("ground", [edits]), known = edits, there = new Set();
  let count;
  [side, spacing, most, edits, columns, rows, pageSide, count] = new Uint32Array(bytes, 0, 8);
  wide = (side - 1) * spacing;
  coarsest = Math.log2((side - 1) / (pageSide - 1));
  const heads = new Uint32Array(bytes, 32, 4 * count);
  for (let k = 0, at = 32 + 16 * count; k < count; k++) {
    const [q, column, row, edit] = heads.subarray(4 * k, 4 * k + 4), key = keyOf(q, column, row), steps = (pageSide - 1) * 2 ** q;
    there.add(key);
    if (edit <= known) continue;
    pages.set(key, { q, x: column * steps, y: row * steps, heights: new Uint16Array(bytes, at, pageSide * pageSide) });
    at += 2 * pageSide * pageSide;
  }
  for (const key of pages.keys()) if (!there.has(key)) pages.delete(key);
  span ??= pages.get(keyOf(coarsest, 0, 0)).heights.reduce(([low, high], h) => [Math.min(low, h), Math.max(high, h)], [65535, 1]);
}
await fetchGround();
const clamped = (v, low, high) => Math.min(high, Math.max(low, v));
// The height that a page has at a point of the terrain, or of the one of its own before that.
const heightIn = (page, x, y) => page.heights[(pageSide - 1 - ((y - page.y) >> page.q)) * pageSide + ((x - page.x) >> page.q)];
function groundAt(x, y) { // drawn height of the nearest grid point, as the finest page has it
  const [across, up] = [x, y].map((v) => clamped(Math.round(v / spacing), 0, side - 1));
  let found;
  for (let q = 0, steps = pageSide - 1; !found; q++, steps *= 2) {
    found = pages.get(keyOf(q, ...[across, up].map((v) => Math.floor(Math.min(v, side - 2) / steps))));
  }
  return heightIn(found, across, up) * +$("lift").value;
}

$("set").open = innerWidth > 700;
$("budget").max = most;
$("budget").value = +(asked.get("triangles") ?? most);

// The corners of triangles, as places among the points of the terrain, and their heights, by the names of triangles, which come
// depth first: 2 and 3 are the halves of the square, those of a are 2a and 2a + 1. A triangle is its apex and the ends of its base,
// which is cut at its middle. Every second level it is half of a square that may have a finer page.
function cornersOf(names) {
  const corners = new Uint32Array(3 * names.length), tall = new Uint16Array(3 * names.length), last = side - 1;
  let k = 0;
  const put = (page, x, y) => { corners[k] = (last - y) * side + x; tall[k++] = heightIn(page, x, y); };
  const walk = (name, level, page, x, y, vx, vy, wx, wy) => {
    const mx = (vx + wx) / 2, my = (vy + wy) / 2, q = coarsest - level / 2;
    if (q >= 0 && Number.isInteger(q)) page = pages.get(keyOf(q, ...[mx, my].map((v) => Math.floor(v / (pageSide - 1) / 2 ** q)))) ?? page;
    if (names[k / 3] === name) return put(page, x, y), put(page, vx, vy), put(page, wx, wy);
    walk(2 * name, level + 1, page, mx, my, x, y, vx, vy);
    walk(2 * name + 1, level + 1, page, mx, my, wx, wy, x, y);
  };
  walk(2, 0, null, 0, 0, last, 0, 0, last);
  walk(3, 0, null, last, last, 0, last, last, 0);
  return { corners, tall };
}

const buffers = ["corners", "tall", "fresh"].map(() => gl.createBuffer()), fresh = new Uint8Array(most);
[["corners", 12, 3, gl.UNSIGNED_INT], ["tall", 6, 3, gl.UNSIGNED_SHORT], ["fresh", 1, 1, gl.UNSIGNED_BYTE]].forEach(([name, bytes, count, kind], k) => {
  const at = gl.getAttribLocation(program, name);
  gl.bindBuffer(gl.ARRAY_BUFFER, buffers[k]);
  gl.bufferData(gl.ARRAY_BUFFER, bytes * most, gl.DYNAMIC_DRAW);
  gl.enableVertexAttribArray(at);
  gl.vertexAttribDivisor(at, 1);
  if (count === 3) gl.vertexAttribIPointer(at, 3, kind, 0, 0);
  else gl.vertexAttribPointer(at, 1, kind, false, 0, 0);
});
gl.enable(gl.DEPTH_TEST);
gl.depthFunc(gl.LEQUAL); // from above the depth of height 0 is exactly 1, that of an empty picture

// A pose is x, y, z as drawn, the way that it looks (0 is north) and how far down it looks, in radians.
const ahead = (p) => [Math.sin(p.turn) * Math.cos(p.dip), Math.cos(p.turn) * Math.cos(p.dip), -Math.sin(p.dip)];
const dot = (a, b) => a.reduce((sum, v, k) => sum + v * b[k], 0);
const matrix = (rows) => Float32Array.from({ length: 16 }, (_, k) => rows[k % 4][k >> 2]);

// The rows of a view's matrix, its four sides as planes of whole numbers over the ground as drawn, and its corners' rays.
const HALF = 0.5, WIDER = 0.62, BACK = 6; // half the view's height in radians; planes are of a wider view, so many steps behind
function looking(p, ratio, half = HALF) {
  const f = ahead(p), r = [Math.cos(p.turn), -Math.sin(p.turn), 0], t = 1 / Math.tan(half);
  const u = [r[1] * f[2] - r[2] * f[1], r[2] * f[0] - r[0] * f[2], r[0] * f[1] - r[1] * f[0]];
  const row = (v, by) => [...v, -dot(v, [p.x, p.y, p.z])].map((w) => w * by);
  const near = NEAR * spacing, far = Math.max(REACH * spacing, 1.5 * wide), deep = row(f, (far + near) / (far - near));
  deep[3] -= (2 * far * near) / (far - near);
  const rows = [row(r, t / ratio), row(u, t), deep, row(f, 1)];
  const planes = [[0, 1], [0, -1], [1, 1], [1, -1]].map(([k, sign]) => {
    const plane = rows[3].map((v, j) => v + sign * rows[k][j]), long = Math.hypot(...plane.slice(0, 3));
    return plane.map((v) => Math.round((v / long) * 100000));
  });
  const ray = (h, v) => f.map((c, k) => c + (h * ratio * r[k] + v * u[k]) / t);
  return { rows, planes, ray };
}

// The planes for a view. They stay while they hold it, since a change of planes costs the engine what enters or leaves them.
let held = null;
function planesFor(p, view, ratio) {
  const at = [p.x, p.y, p.z], f = ahead(p), corners = [[-1, -1], [-1, 1], [1, -1], [1, 1]].map((c) => view.ray(...c));
  const holds = (plane) => dot(plane, [...at, 1]) >= 0 && corners.every((ray) => dot(plane.slice(0, 3), ray) >= 0);
  const near = held && Math.hypot(...at.map((v, k) => v - held.at[k])) < 3 * BACK * spacing;
  if (held && ($("hold").checked || (near && held.planes.every(holds)))) return held.planes;
  const [x, y, z] = at.map((v, k) => v - BACK * spacing * f[k]);
  held = { at, planes: looking({ ...p, x, y, z }, ratio, WIDER).planes };
  return held.planes;
}

// The recorded path: places in parts of the raster's width and depth, heights above the ground in grid steps. It closes.
const PATH = [[0.12, 0.15, 12], [0.34, 0.30, 8], [0.52, 0.46, 8], [0.70, 0.44, 9], [0.82, 0.62, 12], [0.62, 0.80, 15], [0.36, 0.72, 10], [0.18, 0.46, 14]];
const STEPS = 150 * Math.max(1, (side - 1) / 2048); // frames of 1/60 s from one place of the path to the next
let recorded = null, recording = false, clock = 0;
function onPath(time) {
  if (recorded?.length && !recording) return { ...recorded[Math.floor(time) % recorded.length] };
  const curve = (s) => { // a spline through four neighbours
    const k = Math.floor(s), t = s - k, [a, b, c, d] = [-1, 0, 1, 2].map((j) => PATH[(((k + j) % PATH.length) + PATH.length) % PATH.length]);
    return b.map((v, i) => v + 0.5 * t * (c[i] - a[i] + t * (2 * a[i] - 5 * v + 4 * c[i] - d[i] + t * (3 * (v - c[i]) + d[i] - a[i]))));
  };
  const place = (p) => [p[0] * (columns - 1) * spacing, wide - (1 - p[1]) * (rows - 1) * spacing];
  const s = time / STEPS, at = curve(s), next = curve(s + 0.35);
  const level = [-0.3, -0.15, 0, 0.15, 0.3].map((d) => curve(s + d)).reduce((sum, p) => sum + groundAt(...place(p)), 0) / 5;
  const [x, y] = place(at), [nextX, nextY] = place(next), z = Math.max(level, groundAt(x, y)) + at[2] * spacing * Math.sqrt((side - 1) / 256);
  return { x, y, z, turn: Math.atan2(nextX - x, nextY - y), dip: 0.22 };
}

let pose = onPath(0);
const keys = new Set(), fingers = new Map();
function fly(seconds) {
  if ($("play").checked) {
    clock += STOP ? 1 : seconds * 60;
    pose = onPath(clock);
    return;
  }
  const has = (...names) => names.some((name) => keys.has(name)), f = ahead(pose);
  const pace = (has("ShiftLeft", "ShiftRight") ? 90 : 25) * spacing * seconds;
  const on = has("KeyW", "ArrowUp") - has("KeyS", "ArrowDown") + (fingers.size > 1), across = has("KeyD", "ArrowRight") - has("KeyA", "ArrowLeft");
  pose.x = clamped(pose.x + pace * (on * f[0] + across * Math.cos(pose.turn)), -wide, 2 * wide);
  pose.y = clamped(pose.y + pace * (on * f[1] - across * Math.sin(pose.turn)), -wide, 2 * wide);
  pose.z = clamped(pose.z + pace * (on * f[2] + has("KeyE") - has("KeyQ")), groundAt(pose.x, pose.y) + spacing / 2, 4 * wide + 65535 * 8);
  if (recording) recorded.push({ ...pose });
}

// The grid point that a click meets: along the line of sight until it is under the ground.
function met(event) {
  const way = looking(pose, innerWidth / innerHeight).ray((2 * event.clientX) / innerWidth - 1, 1 - (2 * event.clientY) / innerHeight);
  for (let far = spacing; far < 3 * wide; far += spacing / 4) {
    const [x, y, z] = [pose.x + far * way[0], pose.y + far * way[1], pose.z + far * way[2]];
    if (x >= 0 && y >= 0 && x <= wide && y <= wide && z < groundAt(x, y)) return [x / spacing, y / spacing].map(Math.round);
  }
  return null;
}
const worry = (why) => console.error(($("told").textContent = String(why?.message ?? why)));
function click(event) {
  const point = met(event), down = $("lower").checked !== event.shiftKey;
  if (point) call("raise", [...point, 8, (down ? -1 : 1) * clamped((span[1] - span[0]) / 6, 8, 4000)]).catch(worry);
}

let dragged = 0; // how far, in pixels; two fingers are no click
canvas.onpointerdown = (e) => { canvas.setPointerCapture(e.pointerId); fingers.set(e.pointerId, [e.clientX, e.clientY]); dragged = fingers.size > 1 ? 5 : 0; };
canvas.onpointermove = (e) => {
  const last = fingers.get(e.pointerId);
  if (!last) return;
  const [dx, dy] = [e.clientX - last[0], e.clientY - last[1]];
  if ((dragged += Math.abs(dx) + Math.abs(dy)) < 5) return;
  $("play").checked = false;
  pose.turn -= dx * 0.003;
  pose.dip = clamped(pose.dip - dy * 0.003, -1.5, 1.5);
  fingers.set(e.pointerId, [e.clientX, e.clientY]);
};
canvas.onpointerup = (e) => { if (fingers.delete(e.pointerId) && dragged < 5 && fingers.size === 0) click(e); };
canvas.onpointercancel = (e) => fingers.delete(e.pointerId);
canvas.onwheel = (e) => { $("play").checked = false; const f = ahead(pose); ["x", "y", "z"].forEach((k, i) => { pose[k] -= f[i] * e.deltaY * spacing * 0.02; }); };
addEventListener("blur", () => keys.clear());
addEventListener("keyup", (e) => keys.delete(e.code));
addEventListener("keydown", (e) => {
  if (e.ctrlKey || e.metaKey || e.altKey || e.target.type === "range") return;
  keys.add(e.code);
  if (/^(Key[WASDQE]|Arrow)/.test(e.code)) { $("play").checked = false; e.preventDefault(); }
  if (e.code === "KeyP" && !e.repeat) $("play").checked = !$("play").checked;
  if (e.code === "KeyR" && !e.repeat) {
    recording = !recording;
    if (recording) recorded = [];
    else clock = 0;
    $("play").checked = !recording;
  }
});

// How many pixels high an error is seen from a ratio: a priority is 65,536 times twice the greatest error below a triangle over
// its distance.
const pixelsOf = (ratio, lift) => ((ratio / 65536 / 2) * lift * (innerHeight / 2)) / Math.tan(HALF);

// Asks for the mesh of a pose, with the fewest triangles that are good enough. Heights are drawn `lift` times as high: the engine's camera and planes are over the true ones.
let transferMs = 0; // a request's time without the server's own part
new PerformanceObserver((list) => list.getEntriesByType("resource").forEach((e) => {
  if (e.name.endsWith("/frame")) transferMs = e.duration - (e.serverTiming[0]?.duration ?? 0);
})).observe({ type: "resource" });
async function ask(p) {
  const lift = +$("lift").value, budget = +$("budget").value, ratio = innerWidth / innerHeight, view = looking(p, ratio);
  const pixels = +$("pixels").value, threshold = Math.floor(pixels / pixelsOf(1, lift));
  const planes = $("planes").checked ? planesFor(p, view, ratio) : [];
  const bytes = await call("frame", [budget, threshold, p.x, p.y, p.z / lift, ...planes.flatMap(([a, b, c, d]) => [a, b, c * lift, d])]);
  const words = new Uint32Array(bytes, 0, HEAD / 4), note = { worst: words[0] + words[1] * 2 ** 32 };
  WORDS.forEach((name, k) => { note[name] = words[2 + k]; });
  return { p, lift, budget, pixels, planes, note, rows: view.rows, bytes, count: (bytes.byteLength - HEAD) / 4 };
}

// Which triangles were not in the mesh that was drawn before: both lists come depth first, in which these keys rise.
let before = new Uint32Array(0);
const depthFirst = (name) => (name << Math.clz32(name)) >>> 0;
function upload(f) {
  const names = new Uint32Array(f.bytes, HEAD, f.count);
  Object.assign(f, cornersOf(names));
  let changed = 0, k = 0;
  names.forEach((name, at) => {
    while (k < before.length && depthFirst(before[k]) < depthFirst(name)) k++;
    changed += fresh[at] = +(before.length > 0 && before[k] !== name);
  });
  before = names;
  [f.corners, f.tall, fresh.subarray(0, f.count)].forEach((values, at) => {
    gl.bindBuffer(gl.ARRAY_BUFFER, buffers[at]);
    gl.bufferSubData(gl.ARRAY_BUFFER, 0, values);
  });
  return changed;
}

// Places count from a grid point near the eye, since 32-bit floats step by whole units far away: a row or a plane moved there.
const movedTo = (o, row) => [...row.slice(0, 3), row[3] + row[0] * o[0] + row[1] * o[1]];
function paint(f, view, far, mark) {
  const { p, lift } = f, steps = [p.x, p.y].map((v) => clamped(Math.round(v / spacing), 0, side - 1)), [ox, oy] = steps.map((v) => v * spacing);
  const moved = (row) => movedTo([ox, oy], row);
  gl.uniform2i(uniform.origin, ...steps);
  gl.uniformMatrix4fv(uniform.view, false, matrix(view.map(moved)));
  gl.uniform3f(uniform.eye, p.x - ox, p.y - oy, p.z);
  gl.uniform2f(uniform.limit, (columns - 0.99) * spacing - ox, wide - (rows - 0.99) * spacing - oy);
  gl.uniform1f(uniform.far, far);
  gl.uniform1f(uniform.lift, lift);
  gl.uniform2f(uniform.span, span[0] * lift, span[1] * lift);
  gl.uniform1i(uniform.count, f.planes.length);
  if (f.planes.length) gl.uniform4fv(uniform.planes, new Float32Array(f.planes.flatMap(moved)));
  for (const [name, on] of [["mark", mark], ["edges", $("edges").checked], ["showChanged", $("changed").checked]]) gl.uniform1i(uniform[name], +on);
  gl.drawArraysInstanced(gl.TRIANGLES, 0, 3, f.count);
}

// Both views: the flight over the whole canvas, and the map from above in its corner.
function draw(f) {
  const dense = Math.min(devicePixelRatio, 2), [w, h] = [innerWidth, innerHeight].map((v) => Math.round(v * dense));
  if (canvas.width !== w || canvas.height !== h) [canvas.width, canvas.height] = [w, h];
  gl.uniform1i(uniform.side, side);
  gl.uniform1f(uniform.spacing, spacing);
  gl.uniform3f(uniform.sky, ...SKY);
  gl.clearColor(...SKY, 1);
  gl.viewport(0, 0, w, h);
  gl.clear(gl.COLOR_BUFFER_BIT | gl.DEPTH_BUFFER_BIT);
  paint(f, f.rows, 1.3 * wide, $("mark").checked);
  if (!$("map").checked) return;
  const room = Math.round(Math.min(w, h) * 0.4), gap = Math.round(10 * dense), at = [w - room - gap, gap, room, room];
  gl.enable(gl.SCISSOR_TEST);
  gl.scissor(...at);
  gl.viewport(...at);
  gl.clear(gl.COLOR_BUFFER_BIT | gl.DEPTH_BUFFER_BIT);
  const by = 2 / wide, deep = 2 / (65535 * f.lift);
  paint(f, [[by, 0, 0, -1], [0, by, 0, -1], [0, 0, -deep, 1], [0, 0, 0, 1]], 0, true);
  const [x, y] = [f.p.x, f.p.y].map((v, k) => at[k] + (v / wide) * room), dotted = 4 * dense;
  gl.scissor(clamped(x - dotted, at[0], w - gap - dotted), clamped(y - dotted, gap, gap + room - dotted), 2 * dotted, 2 * dotted);
  gl.clearColor(0.9, 0.1, 0.2, 1);
  gl.clear(gl.COLOR_BUFFER_BIT);
  gl.disable(gl.SCISSOR_TEST);
}

const pixel = new Uint8Array(4), whole = (n) => n.toLocaleString("en"), ms = (v) => v.toFixed(1).padStart(5);
let rate = 0, drawMs = 0, lowered = "";
function tell({ note, budget, pixels: wanted, lift }, changed) {
  const pixels = note.worst ? pixelsOf(note.worst, lift) : wanted;
  $("told").textContent = [
    `${whole(note.triangles)} triangles of at most ${whole(budget)}, ${note.vertices ? `${whole(note.vertices)} vertices` : `${pages.size} pages`}`,
    `off by at most ${pixels < 10 ? pixels.toFixed(1) : whole(Math.round(pixels))} pixels on this screen`,
    note.blocking ? `refining the worst place would take ${whole(note.need)} triangles` : "nothing is left to refine",
    `split ${note.splits}, merged ${note.merges}, new ${whole(changed)}`,
    ...(note.vertices ? [`in view ${whole(note.inside)}, at its edge ${whole(note.cut)}, outside ${whole(note.outside)}`] : []),
    `engine   ${ms(note.frameUs / 1000)} ms, lists ${ms(note.listUs / 1000)} ms`,
    `transfer ${ms(transferMs)} ms`,
    `drawing  ${ms(drawMs)} ms`,
    `${rate.toFixed(0).padStart(3)} frames a second${recording ? ", recording" : ""}${lowered}`,
  ].join("\n");
}

// Where drawing takes too long, as in software, a quarter of the triangles is given up, again until it does not.
const SLOW_MS = 100, FEWEST = 1000;
let slow = 0; // frames in a row
function easeOff() {
  slow = drawMs > SLOW_MS ? slow + 1 : 0;
  const fewer = Math.max(FEWEST, Math.round((+$("budget").value * 3) / 4));
  if (slow < 3 || STOP || fewer >= +$("budget").value) return;
  $("budget").value = fewer;
  lowered = `\ndrawing took over ${SLOW_MS} ms: lowered to ${whole(+$("budget").value)} triangles`;
  slow = 0;
}
$("budget").addEventListener("input", () => { lowered = ""; });

// A number that any other corner, or height of one, would make another; the server reckons it too.
function sumOf({ corners, tall }) {
  let sum = 0;
  for (let k = 0; k < corners.length; k += 3) {
    sum += Math.imul(corners[k] + 3 * corners[k + 1] + 5 * corners[k + 2], 1 + tall[k] + 7 * tall[k + 1] + 11 * tall[k + 2]);
  }
  return ((sum % 2 ** 32) + 2 ** 32) % 2 ** 32;
}
let last = performance.now(), frame = 0, pending = ask(pose);
async function turn() {
  try {
    const f = await pending, now = performance.now(), seconds = Math.max(0.001, (now - last) / 1000);
    last = now;
    rate += 0.1 * (1 / seconds - rate);
    fly(Math.min(0.1, seconds));
    if (f.note.edits !== edits) await fetchGround();
    pending = ask(pose);
    const changed = upload(f);
    frame++;
    draw(f);
    gl.readPixels(0, 0, 1, 1, gl.RGBA, gl.UNSIGNED_BYTE, pixel); // waits until all is drawn
    drawMs = performance.now() - now;
    easeOff();
    tell(f, changed);
    const line = `frame ${frame} triangles ${f.count} vertices ${f.note.vertices} worst ${f.note.worst}`;
    if (STOP) console.log(`${line} corners ${sumOf(f)}`);
    if (frame === STOP) { await pending; document.title = "done"; return; }
  } catch (why) {
    worry(why);
    await new Promise((go) => setTimeout(go, 1000));
    pending = ask(pose);
    pending.catch(() => {});
  }
  requestAnimationFrame(turn);
}
turn();
