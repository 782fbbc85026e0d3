// Cards: what each register that was looked at showed last, in hexadecimal, decimal and bits, with its fields.

import { bars } from "./plot.js";
import { bits, button, clock, element, hexadecimal } from "./registers.js";

// What a failed read is called, beside its colour.
const WORDS = {
  TimedOut: "timed out", Unsent: "not sent: the board is silent", LinkLost: "link lost", BusError: "refused by the bus",
  Skipped: "skipped", LaneFull: "the hub takes no more", Garbled: "garbled: another hub at this board?",
  NotConnected: "no hub", NotSent: "not sent", ConnectionEnded: "the connection ended", NoAnswerInTime: "no answer in time",
};

function shownFields(register, word) {
  const list = element("dl");
  for (const field of register.fields) {
    const value = ((word & field.mask) >>> 0) >>> field.shift;
    list.append(element("dt", field.name.slice(register.name.length + 1)), element("dd", `${value} (0x${value.toString(16)})`));
  }
  return list;
}

function shownWords(words) {
  const box = element("div", "", { className: "words" });
  const canvas = element("canvas", "", { width: 600, height: 90 });
  canvas.setAttribute("role", "img");
  canvas.setAttribute("aria-label", `${words.length} words by their index`);
  bars(canvas, words);
  const table = element("table");
  words.forEach((word, index) => {
    const row = element("tr");
    row.append(element("th", String(index)), element("td", hexadecimal(word)), element("td", String(word)));
    table.append(row);
  });
  box.append(canvas, table);
  return box;
}

export class Cards {
  constructor(box, acts) {
    Object.assign(this, { box, acts, shown: new Map() });
  }

  // Shows what a read of a register came to.
  show(register, [at, value, error, told]) {
    const card = this.shown.get(register.path) || this.made(register);
    const body = card.querySelector(".body");
    body.replaceChildren();
    if (error) {
      body.append(element("p", WORDS[error] || error, { className: "wrong" }), element("p", told));
    } else if (Array.isArray(value)) {
      body.append(shownWords(value));
    } else {
      body.append(element("div", `${hexadecimal(value)}  ${value}`, { className: "number" }));
      body.append(element("div", bits(value), { className: "number bits" }), shownFields(register, value));
    }
    body.append(element("p", `${clock(at)}${error ? "" : " read"}`));
  }

  made(register) {
    const card = element("article", "", { className: register.isBlock ? "card wide" : "card" });
    card.append(element("h3", register.path), element("div", "", { className: "body" }));
    const row = element("div", "", { className: "buttons" });
    row.append(button("Read", `Read ${register.path} again`, () => this.acts.read([register])));
    if (register.isWatchable) {
      const watch = button("Watch", `Watch ${register.path}`, () => this.acts.toggle(register));
      watch.className = "watch";
      row.append(watch);
    }
    if (register.isWritable && this.acts.mayWrite) row.append(button("Write", `Write ${register.path}`, () => this.acts.write(register)));
    row.append(button("Close", `Close ${register.path}`, () => this.close(register)));
    card.append(row);
    this.shown.set(register.path, card);
    this.box.append(card);
    return card;
  }

  close(register) {
    this.acts.unwatch(register);
    this.shown.get(register.path)?.remove();
    this.shown.delete(register.path);
  }

  press(path, isWatched) {
    this.shown.get(path)?.querySelector(".watch")?.setAttribute("aria-pressed", String(isWatched));
  }
}
