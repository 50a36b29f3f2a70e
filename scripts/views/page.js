"use strict";
const data = JSON.parse(document.getElementById("data").textContent);
const signs = { hit: ["✓", "reached"], missed: ["✗", "missed"], half: ["◐", "reached, a branch in one way alone"] };

function sideText([, offset, names], sides) {
  if (!sides) return "";
  if (sides[0] === null) return `branch at ${offset}: recorded once, sides not known`;
  const ways = names.map((name, side) => `${name} ${sides[side] ? "×" + sides[side] : "never"}`);
  return `${sides.includes(0) ? "◐ " : ""}branch at ${offset}: ${ways.join(", ")}`;
}

function stateOf(line, lines, sides) {
  if (!lines[line]) return "missed";
  const isHalf = data.branches.some((branch, at) => branch[0] === line && sides[at] && sides[at].includes(0));
  return isHalf ? "half" : "hit";
}

function showLine(line, lines, sides) {
  const row = document.getElementById("L" + line);
  const state = stateOf(line, lines, sides);
  row.className = state;
  [row.cells[0].textContent, row.cells[0].title] = signs[state];
  row.cells[2].textContent = lines[line] || 0;
}

function showSums(lines, sides) {
  const hit = data.executable.filter((line) => lines[line]).length;
  const taken = sides.flatMap((counts) => counts || []).filter((count) => count > 0).length;
  const branches = data.branches.length ? `, ${taken} of ${2 * data.branches.length} sides of branches taken` : "";
  document.getElementById("sums").textContent = `${hit} of ${data.executable.length} lines reached${branches}`;
}

function showMissed(lines) {
  const missed = data.executable.filter((line) => !lines[line]);
  const place = document.getElementById("missed");
  place.textContent = missed.length ? "Missed: " : "No line was missed.";
  missed.forEach((line, at) => {
    const link = document.createElement("a");
    link.href = "#L" + line;
    link.textContent = line;
    place.append(at ? ", " : "", link);
  });
}

function show() {
  const choice = document.getElementById("tool").value + "|" + document.getElementById("place").value;
  const [lines, sides] = data.views[choice];
  data.executable.forEach((line) => showLine(line, lines, sides));
  document.querySelectorAll(".side").forEach((note) => {
    const at = note.dataset.branch;
    note.textContent = sideText(data.branches[at], sides[at]);
  });
  showSums(lines, sides);
  showMissed(lines);
}

document.querySelectorAll("select").forEach((select) => select.addEventListener("change", show));
show();
