// The page: it asks the server for the state twice a second, and shows what came.

import { BROWSER, get, post } from "./api.js";
import { Cards } from "./cards.js";
import { plot } from "./plot.js";
import { clock, element, hexadecimal, registersOf } from "./registers.js";
import { Tree } from "./tree.js";
import { write } from "./writing.js";

const EVERY = 500;
const KEPT = 600;
const KINDS = { answers: "good", "not asked yet": "idle", silent: "bad", "timing out": "slow" };
const part = (name) => document.getElementById(name);

const watched = new Map();
let registers = new Map();
let cards;
let last = 0;
// Whether the server refused the watches: they are then told again only when they change.
let isRefused = false;

function log(text) {
  part("log").append(element("li", `${clock(Date.now() / 1000)} ${text}`));
  part("log").scrollTop = part("log").scrollHeight;
}

const acts = {
  mayWrite: false,

  async read(these) {
    try {
      const { samples } = await post("api/read", { paths: these.map((register) => register.path) });
      for (const register of these) acts.came(register, samples[register.path]);
    } catch (error) {
      log(`read ${these.map((register) => register.path).join(" ")}: ${error.message}`);
    }
  },

  came(register, sample) {
    cards.show(register, sample);
    part("empty").hidden = true;
    const [, value, error, told] = sample;
    const shown = Array.isArray(value) ? `${value.length} words` : value === null ? `${error}: ${told}` : hexadecimal(value);
    log(`read ${register.path}: ${shown}`);
  },

  watch(register) {
    if (!watched.has(register.path)) watched.set(register.path, []);
    acts.read([register]);
    acts.tell();
    cards.press(register.path, true);
  },

  unwatch(register) {
    if (watched.delete(register.path)) acts.tell();
    cards.press(register.path, false);
  },

  toggle(register) {
    if (watched.has(register.path)) acts.unwatch(register);
    else acts.watch(register);
  },

  async tell() {
    const rates = Object.fromEntries([...watched.keys()].map((path) => [path, Number(part("rate").value)]));
    try {
      await post("api/watch", { browser: BROWSER, rates });
      isRefused = false;
    } catch (error) {
      isRefused = true;
      log(`watch: ${error.message}`);
    }
    for (const path of watched.keys()) cards.press(path, true);
  },

  async write(register) {
    let present = "The present value cannot be read.";
    if (register.isReadable && !register.isBlock) {
      const { samples } = await post("api/read", { paths: [register.path] }).catch(() => ({ samples: {} }));
      const [, value, error] = samples[register.path] || [0, null, "no server"];
      present = value === null ? `The present value was not read: ${error}.` : `Now ${hexadecimal(value)} (${value}).`;
    }
    if ((await write(register, present, log)) && register.isReadable && register.mode !== "port") acts.read([register]);
  },
};

function showLamps(boards) {
  const lamps = Object.entries(boards).map(([name, { state, since, told }]) => {
    const lamp = element("li", "", { title: told });
    lamp.dataset.kind = KINDS[state] || "bad";
    lamp.append(element("strong", name), ` ${state} `, element("small", state === "not asked yet" ? "" : `since ${clock(since)}`));
    return lamp;
  });
  part("lamps").replaceChildren(...lamps);
}

function showSamples(samples, now) {
  for (const [path, came] of Object.entries(samples)) {
    const kept = watched.get(path);
    if (!kept) continue;
    kept.push(...came);
    while (kept.length && kept[0][0] < now - KEPT) kept.shift();
    cards.show(registers.get(path), came[came.length - 1]);
    cards.press(path, true);
  }
  const curves = [...watched].map(([path, kept]) => ({ path, samples: kept }));
  part("plot-box").hidden = !curves.length;
  if (curves.length) plot(part("plot"), part("legend"), curves, now);
}

async function look() {
  try {
    const state = await get(`api/state?browser=${encodeURIComponent(BROWSER)}&since=${last}`);
    last = state.last;
    // a window that slept is forgotten by the server, with its watches
    const isForgotten = watched.size > 0 && !state.isKnown && !isRefused;
    if (document.body.classList.contains("old") || isForgotten) acts.tell();
    document.body.classList.remove("old");
    part("lost").hidden = true;
    showLamps(state.boards);
    showSamples(state.samples, state.now);
  } catch {
    document.body.classList.add("old");
    part("lost").hidden = false;
  }
  setTimeout(look, EVERY);
}

// A browser lends its clipboard to pages of its own machine alone. Elsewhere the log is marked and copied.
function copy() {
  const text = [...part("log").children].map((line) => line.textContent).join("\n");
  if (navigator.clipboard) return navigator.clipboard.writeText(text);
  getSelection().selectAllChildren(part("log"));
  return document.execCommand("copy");
}

async function begin() {
  const shown = await get("api/document", 30_000);
  part("title").textContent = document.title = `${shown.title}${shown.mayWrite ? "" : ", read-only"}`;
  acts.mayWrite = shown.mayWrite;
  registers = registersOf(shown);
  cards = new Cards(part("cards"), acts);
  const tree = new Tree(part("tree"), part("count"), registers, acts);
  part("search").addEventListener("input", () => tree.show(part("search").value));
  part("rate").onchange = () => acts.tell();
  part("copy").onclick = copy;
  look();
}

begin().catch((error) => {
  part("lost").textContent = `The page cannot begin: ${error.message}`;
  part("lost").hidden = false;
});
