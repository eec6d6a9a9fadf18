// Starts the page: the module is compiled once, and goes to each worker.

import { at, Page } from './page.js';
import { Runs } from './runs.js';

const FIRST = 'enclosure.solid';
const SHOW_WORK_AFTER = 250; // milliseconds: shorter runs would make it flicker

function dataOf(name) {
  return JSON.parse(at(`data-${name}`).textContent);
}

// Shows that a run works, and for how long.
function workShown() {
  let timer = 0;
  return (job) => {
    clearInterval(timer);
    at('stage').setAttribute('aria-busy', String(Boolean(job)));
    if (!job) {
      at('working').hidden = true;
      return;
    }
    const began = performance.now();
    timer = setInterval(() => {
      const seconds = (performance.now() - began) / 1000;
      if (seconds * 1000 < SHOW_WORK_AFTER) return;
      at('working').hidden = false;
      at('working-for').textContent = `Working, ${seconds.toFixed(1)} s`;
    }, 100);
  };
}

async function start() {
  const bytes = Uint8Array.from(atob(dataOf('module')), (it) => it.charCodeAt(0));
  const module = await WebAssembly.compile(bytes);
  const worker = URL.createObjectURL(new Blob([dataOf('worker')], { type: 'text/javascript' }));
  const runs = new Runs(worker, module, workShown());
  const page = new Page(runs, dataOf('reasons'), dataOf('examples'));
  at('older').hidden = true;
  for (const it of document.querySelectorAll('header, main')) it.hidden = false;
  const wanted = location.hash.slice(1); // modeller.html#bowl.vm begins with that example
  page.begin(page.has(wanted) ? wanted : FIRST);
  // For the tests, and for whoever wants a run from the console: words and bytes in, the whole answer out.
  globalThis.modeller = { run: (words, input, more = {}) => runs.ask({ words, input, ...more }), page, stop: () => runs.stop() };
}

start();
