// The tree of registers: folds for boards and groups, and a search over full names.

import { button, element } from "./registers.js";

// Rows that a search shows at most, and registers of a group that are read at once.
const MOST_FOUND = 200;
const MOST_OF_GROUP = 200;

// The words below a fold that can be read.
function readable(node) {
  const own = node.register && node.register.isReadable && !node.register.isBlock ? [node.register] : [];
  return [...own, ...[...node.children.values()].flatMap(readable)];
}

function nested(registers) {
  const tops = new Map();
  for (const register of registers.values()) {
    if (!tops.has(register.board)) tops.set(register.board, { children: new Map(), register: null });
    let at = tops.get(register.board);
    for (const id of register.name.split(".")) {
      if (!at.children.has(id)) at.children.set(id, { children: new Map(), register: null });
      at = at.children.get(id);
    }
    at.register = register;
  }
  return tops;
}

export class Tree {
  constructor(box, count, registers, acts) {
    Object.assign(this, { box, count, registers, acts });
    this.tops = nested(registers);
    this.show("");
  }

  // Shows all names, folded, or those that have all words of a text.
  show(text) {
    const words = text.toLowerCase().split(/\s+/).filter(Boolean);
    if (!words.length) {
      this.box.replaceChildren(...[...this.tops].map(([name, node]) => this.fold(name, node)));
      this.count.textContent = `${this.registers.size} registers`;
      return;
    }
    const has = (register) => words.every((word) => register.path.toLowerCase().includes(word));
    const found = [...this.registers.values()].filter(has);
    this.box.replaceChildren(...found.slice(0, MOST_FOUND).map((register) => this.row(register, register.path)));
    this.count.textContent = found.length > MOST_FOUND ? `${found.length} found, ${MOST_FOUND} shown` : `${found.length} found`;
  }

  // A board or a group; its rows are made when it is opened.
  fold(name, node) {
    const made = element("details");
    made.append(element("summary", name));
    const fill = () => {
      const words = readable(node);
      const isSome = words.length > 0 && words.length <= MOST_OF_GROUP;
      if (isSome) made.append(button(`Read all ${words.length}`, `Read all of ${name}`, () => this.acts.read(words)));
      if (node.register && node.register.mode !== "hierarchical") made.append(this.row(node.register, `${name} (whole word)`));
      for (const [id, child] of node.children) made.append(child.children.size ? this.fold(id, child) : this.row(child.register, id));
    };
    made.addEventListener("toggle", fill, { once: true });
    return made;
  }

  row(register, name) {
    const made = element("div", "", { className: "register", title: register.description });
    made.append(element("code", name));
    if (register.isReadable) made.append(button("Read", `Read ${register.path}`, () => this.acts.read([register])));
    if (register.isWatchable) made.append(button("Watch", `Watch ${register.path}`, () => this.acts.watch(register)));
    if (register.isWritable && this.acts.mayWrite) made.append(button("Write", `Write ${register.path}`, () => this.acts.write(register)));
    return made;
  }
}
