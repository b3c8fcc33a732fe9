/*
 * The worker, and the questions that it is asked. Its progress comes as an event, `progress`.
 */
export const worker = new Worker("worker.js", { type: "module" });

const waiting = new Map(); // what waits for an answer, by the number of its question
let count = 0;
let fault = null;

export function ask(name, ...words) {
  if (fault !== null) return Promise.reject(fault);
  const id = ++count;
  worker.postMessage({ id, name, words });
  return new Promise((done, failed) => waiting.set(id, { done, failed }));
}

worker.addEventListener("message", ({ data: { id, value, fault: said, ...progress } }) => {
  if (id === undefined) {
    worker.dispatchEvent(new CustomEvent("progress", { detail: progress }));
    return;
  }
  const { done, failed } = waiting.get(id);
  waiting.delete(id);
  if (said === undefined) done(value);
  else failed(new Error(said));
});

/* The worker can't run. */
worker.addEventListener("error", ({ message }) => {
  fault = new Error(message);
  for (const { failed } of waiting.values()) failed(fault);
  waiting.clear();
});
