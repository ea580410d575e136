// A worker that searches until it is ended, and tells each better plan.
import { Search } from './search.js';

const SLICE = 60;

self.addEventListener('message', ({ data: { timed, seed, given, below } }) => {
  const search = new Search(timed, seed, given);
  const tell = () => self.postMessage({ tried: search.tried, best: search.best.cost < below ? search.best : null });
  tell();
  const go = () => {
    const until = performance.now() + SLICE;
    let better = false;
    while (performance.now() < until) better = search.step() || better;
    if (better) tell();
    else self.postMessage({ tried: search.tried, best: null });
    setTimeout(go, 0);
  };
  if (timed.release.length > 1) go();
});
