// Runs the script of a page of `b show` over its rows and facts, with no browser, and prints what it makes of them.
//
//   node tools/try_page.js PAGE
//
// It prints the visits of lines, where each move leads from each step, and the words as they are told at each visit.
"use strict";
const { readFileSync } = require("node:fs");

// As much of a document as the script needs: what is put into a box, and nothing of how it looks.
class Box {
  constructor(tag) {
    this.tag = tag;
    this.children = [];
    this.dataset = {};
    this.attributes = {};
    this.classList = { add() {}, remove() {}, toggle() {} };
  }
  get textContent() {
    return this.children.map(it => it.textContent ?? String(it)).join("");
  }
  set textContent(text) {
    this.children = [text];
  }
  get firstChild() {
    return this.children[0];
  }
  get lastChild() {
    return this.children.at(-1);
  }
  append(...boxes) {
    this.children.push(...boxes);
  }
  prepend(...boxes) {
    this.children.unshift(...boxes);
  }
  replaceChildren(...boxes) {
    this.children = boxes;
  }
  insertRow() {
    const row = new Box("tr");
    row.insertCell = () => {
      row.append(new Box("td"));
      return row.children.at(-1);
    };
    this.append(row);
    return row;
  }
  get cells() {
    return this.children;
  }
  setAttribute(name, value) {
    this.attributes[name] = value;
  }
  removeAttribute(name) {
    delete this.attributes[name];
  }
  addEventListener() {}
  after() {}
  focus() {}
}

function made(page) {
  const between = (start, end) => page.split(start)[1].split(end)[0];
  const rows = between("<tbody>\n", "</tbody>").split("</tr>\n").filter(Boolean)
    .map(row => ({ cells: row.replace("<tr><td>", "").split("<td>").map(textContent => ({ textContent })) }));
  const end = new Box("p");
  end.textContent = between('<p id="end">', "</p>");
  const boxes = new Map([
    ["steps", { tBodies: [{ rows }] }],
    ["facts", { textContent: between('id="facts">', "</script>") }],
    ["end", end],
  ]);
  const document = {
    getElementById: id => boxes.get(id) ?? boxes.set(id, new Box(id)).get(id),
    createElement: tag => new Box(tag),
    querySelectorAll: () => [],
    addEventListener() {},
  };
  const script = page.split("<script>")[1].split("</script>")[0];
  const asks = "return { rows, made, visits, go, seek, show, stops, gloss, questionAt, isRight, move, shown, box: $ };";
  const place = { hash: "", protocol: "file:" };
  return new Function("document", "location", "addEventListener", script + asks)(document, place, () => {});
}

// All boxes within a box for which something holds.
function within(box, is) {
  return is(box) ? [box] : (box.children ?? []).flatMap(it => within(it, is));
}
// Each word that a box has, with what stands before and after it. Of a row of words also what stands below each.
function told(box) {
  const row = within(box, it => it.className === "cells").flatMap(it => it.children);
  const below = row.map(it => it.children.map(part => part.textContent).filter(Boolean).join(" | "));
  return within(box, it => it.dataset?.word !== undefined).map(it => it.textContent).concat(below);
}
// The addresses of the words that are marked, and of those that are told as unset.
function marks(boxes) {
  const addressed = boxes.flatMap(box => within(box, it => it.dataset?.address !== undefined));
  const those = is => addressed.filter(is).map(it => it.dataset.address);
  return [those(it => it.children.some(part => part.tag === "mark")), those(it => "unset" in it.dataset)];
}

const page = made(readFileSync(process.argv[2], "latin1"));
const moves = {};
for (const stop of page.rows.slice(0, 1)) page.stops.add(stop.line);
for (const [name, move] of Object.entries(page.go)) {
  moves[name] = page.rows.slice(0, page.made).map((_, at) => {
    page.seek(at);
    return Math.min(page.made, Math.max(0, move()));
  });
}
const text = id => page.box(id).textContent;
const marked = box => within(box, it => it.tag === "mark").map(it => it.textContent).join("");
const seen = page.visits.map(at => {
  page.show(at);
  const [calls, memory] = ["calls", "memory"].map(page.box), [fresh, unset] = marks([calls, memory]);
  const gave = within(calls, it => it.className === "gave").map(it => it.textContent);
  const looked = within(memory, it => it.tag === "div" && it.className !== "words" && it.className !== "cells");
  return {
    step: text("step"), output: text("output"), wrote: marked(page.box("output")), legend: text("legend"),
    hasEnded: !page.box("end").hidden, words: told(calls).concat(told(memory)), fresh, unset, gave,
    looked: looked.map(marked).join(""), calls: within(calls, it => it.tag === "code").map(it => it.textContent),
  };
});
// What the page asks at each visit, how an answer is judged, and where it goes on with a question open.
page.box("asks").checked = true;
page.stops.clear();
const asked = page.visits.slice(0, -1).map(at => {
  page.show(at);
  const question = page.questionAt(at);
  if (!question) return null;
  const { text, word, output } = question, answer = output === undefined ? String(word) : page.shown(output);
  page.move(page.made);
  return { at, text, answer, stays: page.box("visit").value, isRight: page.isRight(question, answer),
    isWrong: !page.isRight(question, `${answer}1`) };
});
console.log(JSON.stringify({ visits: page.visits, moves, seen, asked, glosses: page.rows.map(page.gloss) }));
