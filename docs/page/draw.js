"use strict";
// Draws a shot of a lattice as SVG: its defects, the correction, and how much of each edge the cuts cover.

const COLUMN = [64, 0], ROW = [30, 22], SHEET = [0, 150], MARGIN = 40;

// Where each vertex is drawn, by its column, its row and its sheet; the last sheet is on top.
function placesOf(positions) {
  const top = Math.max(...positions.map(([, , sheet]) => sheet));
  const at = (column, row, sheet, k) => MARGIN + COLUMN[k] * column + ROW[k] * row + SHEET[k] * (top - sheet);
  return positions.map(([column, row, sheet]) => [at(column, row, sheet, 0), at(column, row, sheet, 1)]);
}

function line([x1, y1], [x2, y2], kind) {
  return `<line class="${kind}" x1="${x1}" y1="${y1}" x2="${x2}" y2="${y2}"/>`;
}

// The pieces that cuts cover, each from an edge's end inside, after those of the cuts within it. Where an edge is loaded with more
// than it weighs the piece goes beyond its other end.
function coveredPieces(graph, cuts) {
  const pieces = [], used = new Map();
  for (const { value, vertices } of [...cuts].sort((a, b) => a.vertices.length - b.vertices.length)) {
    const inside = new Set(vertices);
    graph.weighted_edges.forEach(([u, v, weight], edge) => {
      if (inside.has(u) === inside.has(v)) return;
      const [end, other] = inside.has(u) ? [u, v] : [v, u];
      const first = used.get(`${edge} ${end}`) || 0, length = Math.abs(weight);
      used.set(`${edge} ${end}`, first + Number(value));
      const last = (first + Number(value)) / length;
      pieces.push({ end, other, first: first / length, last, isBlossom: vertices.length > 1 });
    });
  }
  return pieces;
}

// The picture of a shot and its row, as the text of an SVG.
function picture(graph, positions, defects, row) {
  const places = placesOf(positions), edges = graph.weighted_edges, known = (vertex) => places[vertex] !== undefined;
  const between = (a, b, share) => a.map((from, k) => from + (b[k] - from) * share);
  const parts = edges.map(([u, v]) => line(places[u], places[v], "edge"));
  for (const edge of row.edges) {
    if (edges[edge]) parts.push(line(places[edges[edge][0]], places[edges[edge][1]], "correction"));
  }
  for (const { end, other, first, last, isBlossom } of coveredPieces(graph, row.cuts)) {
    const [a, b] = [places[end], places[other]];
    parts.push(line(between(a, b, first), between(a, b, last), isBlossom ? "cut large" : "cut"));
  }
  const kinds = new Map([...graph.virtual_vertices.map((v) => [v, "virtual"]), ...defects.filter(known).map((v) => [v, "defect"])]);
  places.forEach(([x, y], v) => parts.push(`<circle class="${kinds.get(v) || "real"}" cx="${x}" cy="${y}" r="4"/>`));
  const [width, height] = [0, 1].map((k) => Math.max(...places.map((place) => place[k])) + MARGIN);
  return `<svg xmlns="http://www.w3.org/2000/svg" viewBox="0 0 ${width} ${height}" width="${width}">${parts.join("")}</svg>`;
}

if (typeof module !== "undefined") module.exports = { picture, coveredPieces };
