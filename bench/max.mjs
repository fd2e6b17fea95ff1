// The job of a vertex program in V8: `node max.mjs MODULE.wasm GRAPH` prints what `pregel run` prints but for the end line.
// Vertices are numbered from 0 on without a gap; the program sends along its edges alone and uses no slot. The last line on standard
// error has the seconds of reading and of running.
import { readFileSync } from "node:fs";

const now = () => performance.now() / 1000;
const [modulePath, graphPath] = process.argv.slice(2);
const start = now();

// ---- the graph: lines `v ID VALUE` and `e FROM TO VALUE`, as bytes
const text = readFileSync(graphPath);
const NEWLINE = 10, MINUS = 45, ZERO = 48, SPACE = 32, V = 118;
let at = 0;

function number() {
  while (text[at] === SPACE) at++;
  const negative = text[at] === MINUS;
  if (negative) at++;
  let value = 0;
  // (exact to 2 ^ 53; this benchmark has no greater number)
  while (text[at] >= ZERO) value = value * 10 + text[at++] - ZERO;
  return negative ? -value : value;
}

let vertexCount = 0, edgeCount = 0;
for (at = 0; at < text.length; at++) {
  if (text[at] === V) vertexCount++;
  else edgeCount++;
  at = text.indexOf(NEWLINE, at);
  if (at < 0) break;
}
const values = new BigInt64Array(vertexCount);
const firstEdge = new Uint32Array(vertexCount + 2);
const from = new Uint32Array(edgeCount), to = new Uint32Array(edgeCount), along = new BigInt64Array(edgeCount);
let edge = 0;
for (at = 0; at < text.length; at++) {
  const isVertex = text[at++] === V;
  const a = number(), b = number();
  if (isVertex) values[a] = BigInt(b);
  else {
    from[edge] = a;
    to[edge] = b;
    along[edge++] = BigInt(number());
    firstEdge[a + 2]++;
  }
  at = text.indexOf(NEWLINE, at);
  if (at < 0) break;
}
for (let v = 0; v < vertexCount; v++) firstEdge[v + 2] += firstEdge[v + 1];
const targets = new Uint32Array(edgeCount), edgeValues = new BigInt64Array(edgeCount);
for (let i = 0; i < edgeCount; i++) {
  const place = firstEdge[from[i] + 1]++;
  targets[place] = to[i];
  edgeValues[place] = along[i];
}
const read = now();

// ---- the host's functions, over the vertex that is called
let superstep = 0, vertex = 0, message = 0, arc = 0, count = 0;
let letters = new Uint32Array(edgeCount), sent = new BigInt64Array(edgeCount);
let messages = new BigInt64Array(0);
const firstMessage = new Uint32Array(vertexCount + 2);
const active = new Uint8Array(vertexCount).fill(1);

const host = {
  superstep: () => BigInt(superstep),
  num_vertices: () => BigInt(vertexCount),
  vertex_id: () => BigInt(vertex),
  get_value: () => values[vertex],
  set_value: (value) => { values[vertex] = value; },
  next_message: () => (++message < firstMessage[vertex + 1] ? 1 : 0),
  message_value: () => messages[message],
  next_edge: () => (++arc < firstEdge[vertex + 1] ? 1 : 0),
  edge_target: () => BigInt(targets[arc]),
  edge_value: () => edgeValues[arc],
  send: (target, value) => {
    if (count === letters.length) grow();
    letters[count] = Number(target);
    sent[count++] = value;
  },
  vote_to_halt: () => { active[vertex] = 0; },
};

function grow() {
  const [oldLetters, oldSent] = [letters, sent];
  letters = new Uint32Array(2 * oldLetters.length + 16);
  letters.set(oldLetters);
  sent = new BigInt64Array(letters.length);
  sent.set(oldSent);
}

const module = new WebAssembly.Module(readFileSync(modulePath));
const { compute } = new WebAssembly.Instance(module, { pregel: host }).exports;

// ---- supersteps
let total = 0;
for (; ; superstep++) {
  count = 0;
  let called = 0;
  for (vertex = 0; vertex < vertexCount; vertex++) {
    if (!active[vertex] && firstMessage[vertex] === firstMessage[vertex + 1]) continue;
    called++;
    active[vertex] = 1;
    message = firstMessage[vertex] - 1;
    arc = firstEdge[vertex] - 1;
    compute();
  }
  if (!called) break;
  total += count;
  if (messages.length < count) messages = new BigInt64Array(count);
  firstMessage.fill(0);
  for (let i = 0; i < count; i++) firstMessage[letters[i] + 2]++;
  for (let v = 0; v < vertexCount; v++) firstMessage[v + 2] += firstMessage[v + 1];
  for (let i = 0; i < count; i++) messages[firstMessage[letters[i] + 1]++] = sent[i];
}
const ran = now();
let lines = [];
for (let v = 0; v < vertexCount; v++) {
  lines.push(`v ${v} ${values[v]}\n`);
  if (lines.length === 10000) {
    process.stdout.write(lines.join(""));
    lines = [];
  }
}
process.stdout.write(lines.join(""));
process.stderr.write(`read ${(read - start).toFixed(3)} run ${(ran - read).toFixed(3)} messages ${total}\n`);
