// The question before a write: the range of the mask, the present value, and the new one.

import { post } from "./api.js";
import { hexadecimal, numberOf } from "./registers.js";

const part = (name) => document.getElementById(name);

function wordsOf(register, text) {
  const words = (register.isBlock ? text.trim().split(/[\s,]+/) : [text]).map(numberOf);
  if (words.some((word) => word === null)) return "A number is decimal, or hexadecimal after 0x, or binary after 0b.";
  if (!register.isBlock && words[0] > register.most) return `${words[0]} does not fit: 0 to ${register.most}.`;
  if (register.mode === "block" && words.length > register.size) return `The block has ${register.size} words.`;
  return words;
}

// Asks for the new value. Answers the words, or null.
function asked(register, now) {
  const dialog = part("writing");
  part("writing-title").textContent = `Write ${register.path}`;
  part("writing-range").textContent = register.isBlock
    ? "Words of 32 bits, with spaces between them."
    : `0 to ${register.most} (0x${register.most.toString(16)}), mask ${hexadecimal(register.mask)}`;
  part("writing-now").textContent = now;
  part("writing-value").value = "";
  part("writing-wrong").textContent = "";
  return new Promise((done) => {
    part("writing-go").onclick = (event) => {
      const words = wordsOf(register, part("writing-value").value);
      if (Array.isArray(words)) return;
      event.preventDefault();
      part("writing-wrong").textContent = words;
    };
    part("writing-cancel").onclick = () => dialog.close("cancel");
    dialog.onclose = () => done(dialog.returnValue === "go" ? wordsOf(register, part("writing-value").value) : null);
    dialog.returnValue = "";
    dialog.showModal();
    part("writing-value").focus();
  });
}

// Writes a register once, after a question. The log is told what came of it.
export async function write(register, present, log) {
  const words = await asked(register, present);
  if (words === null) return false;
  const told = `write ${register.path} ${words.map((word) => `0x${word.toString(16)}`).join(" ")}`;
  try {
    const came = await post("api/write", { path: register.path, words });
    if (came.done) log(`${told}: done`);
    else log(`${told}: ${came.error}${came.uncertain ? ", may have been executed" : ", not executed"}: ${came.told}`, true);
  } catch (error) {
    const isCut = error instanceof TypeError || error.name === "AbortError";
    log(`${told}: ${isCut ? "the server went away: may have been executed" : error.message}`, true);
  }
  return true;
}
