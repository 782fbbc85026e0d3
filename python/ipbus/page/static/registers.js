// Registers of the document, and how their values are written.

export class Register {
  constructor(board, [name, address, mask, permission, mode, size, description]) {
    Object.assign(this, { board, name, address, mask, permission, mode, size, description });
    this.path = `${board}:${name}`;
    this.shift = 0;
    while (this.shift < 31 && !((mask >>> this.shift) & 1)) this.shift += 1;
    this.most = mask >>> this.shift;
    this.fields = [];
  }

  get isBlock() { return this.mode === "block" || this.mode === "port"; }
  get isReadable() { return this.permission.includes("r") && this.mode !== "hierarchical"; }
  get isWritable() { return this.permission.includes("w") && this.mode !== "hierarchical"; }
  get isWatchable() { return this.isReadable && !this.isBlock; }
}

export function registersOf(document) {
  const found = new Map();
  for (const board of document.boards) {
    const rows = board.registers.map((row) => new Register(board.name, row));
    const byName = new Map(rows.map((register) => [register.name, register]));
    for (const register of rows) {
      const above = byName.get(register.name.slice(0, Math.max(0, register.name.lastIndexOf("."))));
      const isField = above && above.address === register.address && register.mask !== 0xffffffff;
      if (isField) above.fields.push(register);
      found.set(register.path, register);
    }
  }
  return found;
}

export const hexadecimal = (word) => `0x${word.toString(16).padStart(8, "0")}`;

export const bits = (word) => word.toString(2).padStart(32, "0").replace(/(.{4})(?=.)/g, "$1 ");

export const clock = (seconds) => new Date(seconds * 1000).toLocaleTimeString([], { hour12: false });

// A number as people write one, or null.
export function numberOf(text) {
  const plain = text.trim().replace(/_/g, "");
  if (!/^(\d+|0x[0-9a-f]+|0b[01]+)$/i.test(plain)) return null;
  const value = Number(plain);
  return Number.isSafeInteger(value) && value <= 0xffffffff ? value : null;
}

// An element with a text, which is never read as HTML.
export function element(name, text = "", properties = {}) {
  const made = document.createElement(name);
  if (text) made.textContent = text;
  Object.assign(made, properties);
  return made;
}

export function button(text, label, act) {
  const made = element("button", text, { type: "button", onclick: act });
  made.setAttribute("aria-label", label);
  return made;
}
