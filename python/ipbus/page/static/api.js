// The calls of the server. Nothing is sent twice: a call that fails is told, and never tried again by itself.

// How long the state is waited for, in milliseconds.
const PATIENCE = 1500;

async function answered(response) {
  const given = await response.json();
  if (!response.ok) throw new Error(given.refused || `the server answered ${response.status}`);
  return given;
}

export async function get(path, patience = PATIENCE) {
  return answered(await fetch(path, { signal: AbortSignal.timeout(patience), cache: "no-store" }));
}

export async function post(path, given) {
  const body = JSON.stringify(given);
  return answered(await fetch(path, { method: "POST", headers: { "Content-Type": "application/json" }, body }));
}

// A browser has a number of its own, so that each has its own watches.
export const BROWSER = crypto.randomUUID ? crypto.randomUUID() : String(Math.random());
