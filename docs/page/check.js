"use strict";
// Reads the rows of a report, and judges each beside its graph and its shot, in the words of `fusion check`. It decodes nothing.
// Weights and the values of cuts are whole numbers of any size.

const HEADS = ["fusion-report 1", "fusion-report 2"];
const NUMBER = /^[0-9]+$/, SIGNED = /^(0|-?[1-9][0-9]*)$/;

// The rows of a report: edges, base, weight and cuts, or the vertex of an odd row. Version 1 has no lines of a base,
// which is 0. Throws where the text is no whole report.
function readReport(text) {
  const lines = text.split("\n"), version = HEADS.indexOf(lines.shift()) + 1;
  if (!version || lines.pop() !== "") throw new Error("not a whole report of version 1 or 2");
  const rows = [];
  let before = "row";
  for (const line of lines) {
    const [word, ...rest] = line.split(" ");
    const number = version === 2 && ["base", "weight"].includes(word) ? SIGNED : NUMBER;
    if (rest.some((each) => each !== "odd" && !number.test(each)) && word !== "done") throw new Error(beginOf(line));
    const row = rows[rows.length - 1];
    if (word === "shot" && before === "row" && Number(rest[0]) === rows.length) {
      const odd = rest[1] === "odd" ? Number(rest[2]) : null;
      rows.push({ odd, edges: [], base: 0n, weight: 0n, cuts: [] });
      before = odd === null ? "shot" : "row";
    } else if (word === "edges" && before === "shot") {
      row.edges = rest.map(Number);
      before = version === 2 ? "edges" : "base";
    } else if (word === "base" && before === "edges") {
      row.base = BigInt(rest[0]);
      before = "base";
    } else if (word === "weight" && before === "base") {
      row.weight = BigInt(rest[0]);
      before = "row";
    } else if (word === "cut" && before === "row" && row && row.odd === null) {
      row.cuts.push({ value: BigInt(rest[0]), vertices: rest.slice(1).map(Number) });
    } else if (word === "done" && before === "row" && Number(rest[0]) === rows.length) {
      return rows;
    } else {
      throw new Error(beginOf(line));
    }
  }
  throw new Error("the report has no done line");
}

function beginOf(line) {
  return `a line that begins with "${line.slice(0, 40)}"`;
}

// The verdict on a row: "good", or the first rule that it breaks. Defects are vertices.
function verdictOf(graph, defects, row) {
  if (row.odd !== null) {
    return row.odd === firstOdd(graph, new Set(defects)) ? "good" : `OddWrong ${row.odd}`;
  }
  const fault = edgesFault(graph, new Set(defects), row) || baseFault(graph, row.base);
  return fault || cutsFault(graph, shiftedDefects(graph, defects), row.cuts) || loadsFault(graph, row) || "good";
}

// The edges that weigh less than 0.
function negativeEdges(graph) {
  return graph.weighted_edges.filter(([, , weight]) => weight < 0);
}

// Whether the base isn't the sum of the negative weights.
function baseFault(graph, base) {
  const sum = negativeEdges(graph).reduce((total, [, , weight]) => total + BigInt(weight), 0n);
  return base === sum ? null : `BaseDiffers ${base} ${sum}`;
}

// The vertices at which the negative edges and the defect are together odd in number: where they ask for a correction
// that weighs without sign, and in which the negative edges are then exchanged.
function shiftedDefects(graph, defects) {
  const shifted = new Set(defects);
  for (const [u, v] of negativeEdges(graph)) for (const end of [u, v]) if (!shifted.delete(end)) shifted.add(end);
  return shifted;
}

// What is wrong with a row's edges as a correction, or with their weight.
function edgesFault(graph, defects, row) {
  const all = graph.weighted_edges;
  for (const edge of row.edges) if (!(edge < all.length)) return `EdgeOutOfRange ${edge}`;
  for (let k = 1; k < row.edges.length; k++) if (row.edges[k] <= row.edges[k - 1]) return `EdgesNotRising ${row.edges[k]}`;
  const wrong = new Set(defects);
  let sum = 0n;
  for (const edge of row.edges) {
    const [u, v, weight] = all[edge];
    for (const end of [u, v]) if (!wrong.delete(end)) wrong.add(end);
    sum += BigInt(weight);
  }
  for (const virtual of graph.virtual_vertices) wrong.delete(virtual);
  if (wrong.size) return `WrongParity ${Math.min(...wrong)}`;
  return sum === row.weight ? null : `WeightNotSum ${row.weight} ${sum}`;
}

// What is wrong with the first cut that isn't one: by the shifted defects each is odd.
function cutsFault(graph, shifted, cuts) {
  const virtuals = new Set(graph.virtual_vertices);
  for (let j = 0; j < cuts.length; j++) {
    const { vertices } = cuts[j];
    if (!vertices.length) return `CutEmpty ${j}`;
    const beyond = vertices.find((vertex) => !(vertex < graph.vertex_num));
    if (beyond !== undefined) return `VertexOutOfRange ${beyond}`;
    const rises = vertices.every((vertex, k) => k === 0 || vertex > vertices[k - 1]);
    if (!rises || (j > 0 && !isBelow(cuts[j - 1].vertices, vertices))) return `CutsNotRising ${j}`;
    const held = vertices.find((vertex) => virtuals.has(vertex));
    if (held !== undefined) return `CutHoldsVirtual ${held}`;
    if (vertices.filter((vertex) => shifted.has(vertex)).length % 2 === 0) return `CutEven ${j}`;
  }
  return null;
}

// Whether a list comes before another one, entry by entry.
function isBelow(one, other) {
  for (let k = 0; k < one.length && k < other.length; k++) if (one[k] !== other[k]) return one[k] < other[k];
  return one.length < other.length;
}

// What the cuts that an edge crosses add up to, for each edge.
function loadsOf(graph, cuts) {
  const loads = graph.weighted_edges.map(() => 0n);
  for (const { value, vertices } of cuts) {
    const inside = new Set(vertices);
    graph.weighted_edges.forEach(([u, v], edge) => {
      if (inside.has(u) !== inside.has(v)) loads[edge] += value;
    });
  }
  return loads;
}

// Whether the cuts load an edge with more than it weighs without its sign, or don't add up with the base to the row's
// weight. If neither, nothing is lighter.
function loadsFault(graph, row) {
  const loads = loadsOf(graph, row.cuts);
  const edge = loads.findIndex((load, k) => load > BigInt(Math.abs(graph.weighted_edges[k][2])));
  if (edge >= 0) return `Overloaded ${edge}`;
  const sum = row.cuts.reduce((total, cut) => total + cut.value, row.base);
  return sum === row.weight ? null : `SumDiffers ${row.weight} ${sum}`;
}

// The least vertex of the first component without a virtual vertex that has an odd number of defects; null if there is none.
function firstOdd(graph, defects) {
  const virtuals = new Set(graph.virtual_vertices);
  const neighbours = Array.from({ length: graph.vertex_num }, () => []);
  for (const [u, v] of graph.weighted_edges) {
    neighbours[u].push(v);
    neighbours[v].push(u);
  }
  const seen = new Set();
  for (let start = 0; start < graph.vertex_num; start++) {
    if (seen.has(start)) continue;
    const component = [start];
    seen.add(start);
    for (const vertex of component) {
      for (const other of neighbours[vertex]) {
        if (!seen.has(other)) {
          seen.add(other);
          component.push(other);
        }
      }
    }
    const count = component.filter((vertex) => defects.has(vertex)).length;
    if (count % 2 === 1 && !component.some((vertex) => virtuals.has(vertex))) return start;
  }
  return null;
}

if (typeof module !== "undefined") module.exports = { readReport, verdictOf, loadsOf };
