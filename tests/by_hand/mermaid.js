// Mermaid's own parser behind a pipe, for tests/by_hand/mermaid.py.
//
//     node tests/by_hand/mermaid.js MERMAID
//
// MERMAID is Mermaid's file dist/mermaid.js. Standard input has a text a line, as a JSON string. For each text a line is
// written: `refused` with Mermaid's words, or what Mermaid read: its actors in order, and its messages and notes.
//
// A text goes two ways, and is refused where one of them refuses it. `mermaidAPI.parse`, which anyone can call, takes it as it
// is. `mermaidAPI.render` would need a browser, so its first steps are done here: it puts other characters for entity codes,
// parses, and puts entities for these characters where it draws. What a parse has read stays inside Mermaid's file. So the
// file is run with one more statement before its end, which gives what these steps need.
"use strict";
const fs = require("fs");

const END = "return mermaid;";
const INNER = "Object.assign(mermaid, { inner: { addDiagrams, Diagram, encodeEntities, decodeEntities } });\n";

function load(path) {
  const text = fs.readFileSync(path, "utf8");
  const at = text.lastIndexOf(END);
  if (at < 0) {
    throw new Error(`no \`${END}\` is in ${path}`);
  }
  const module = { exports: {} };
  new Function("module", "exports", text.slice(0, at) + INNER + text.slice(at))(module, module.exports);
  return module.exports;
}

const mermaid = load(process.argv[2]);
const { addDiagrams, Diagram, encodeEntities, decodeEntities } = mermaid.inner;

function parsed(text) {
  mermaid.mermaidAPI.parse(text);
  addDiagrams();
  return new Diagram(encodeEntities(text));
}

function shown({ type, db }) {
  if (type !== "sequence") {
    return { type };
  }
  const words = Object.fromEntries(Object.entries(db.LINETYPE).map(([word, number]) => [number, word]));
  const decoded = (some) => (typeof some === "string" ? decodeEntities(some) : some);
  return {
    actors: Object.entries(db.getActors()).map(([id, actor]) => [id, decoded(actor.description)]),
    messages: db.getMessages().map((one) => [words[one.type], one.from, one.to, decoded(one.message)]),
  };
}

for (const line of fs.readFileSync(0, "utf8").split("\n").slice(0, -1)) {
  const text = JSON.parse(line);
  let diagram;
  let said;
  try {
    diagram = parsed(text);
  } catch (fault) {
    said = { refused: String(fault.message || fault.str || fault) };
  }
  process.stdout.write(JSON.stringify(said || shown(diagram)) + "\n");
}
