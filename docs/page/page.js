"use strict";
// Shows each shot of RECORDED with its row, which may be edited, and what the check says of it. Needs check.js and draw.js.

// The text of each row of a report, from its line `shot` on.
function rowTexts(report) {
  return report.split(/^(?=shot )/m).slice(1).map((text) => text.replace(/^done .*\n/m, ""));
}

// A row by its text, as the only one of a report.
function rowOf(text) {
  const [, ...lines] = text.trim().split("\n");
  const first = text.split("\n")[0].replace(/^shot \d+/, "shot 0").trim();
  const odd = first.includes(" odd ") ? 1 : 0;
  return readReport(["fusion-report 2", first, ...lines, `done 1 odd ${odd} units 1 fusions 0`, ""].join("\n"))[0];
}

// What the check says of a row's text, and its picture.
function judged(graph, positions, defects, text) {
  try {
    const row = rowOf(text);
    return { verdict: verdictOf(graph, defects, row), picture: picture(graph, positions, defects, row) };
  } catch (error) {
    return { verdict: `not a row: ${error.message}`, picture: "" };
  }
}

function show(parent, { graph, positions, shots, report }) {
  rowTexts(report).forEach((text, shot) => {
    const part = document.createElement("section");
    part.innerHTML = `<h2>shot ${shot}: <output></output></h2><textarea spellcheck="false"></textarea><div></div>`;
    const [verdict, field, drawing] = ["output", "textarea", "div"].map((name) => part.querySelector(name));
    const judge = () => {
      const found = judged(graph, positions, shots[shot], field.value);
      verdict.textContent = found.verdict;
      verdict.className = found.verdict === "good" ? "good" : "bad";
      drawing.innerHTML = found.picture;
    };
    field.value = text;
    field.rows = text.split("\n").length;
    field.addEventListener("input", judge);
    judge();
    parent.append(part);
  });
}

if (typeof module !== "undefined") {
  Object.assign(globalThis, require("./check.js"), require("./draw.js"));
  module.exports = { rowTexts, rowOf, judged };
}
