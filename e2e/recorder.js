// Notes which modules start and end, and in which order, from the moment the loading runtime is made. A page loads it
// before the chunks, in node:vm and in a browser alike. The chunks are left as they were emitted.
(function () {
  const saw = { started: [], ended: [], problems: [] };
  let runtime;

  function recorded(id, run) {
    return function (...given) {
      saw.started.push(Number(id));
      run.apply(this, given);
      saw.ended.push(Number(id));
    };
  }

  function watchedTable(table) {
    return new Proxy(table, {
      set(modules, id, run) {
        modules[id] = recorded(id, run);
        return true;
      },
    });
  }

  function watch(made) {
    let modules;
    runtime = made;
    Object.defineProperty(made, 'm', {
      get: () => modules,
      set(table) { modules = watchedTable(table); },
    });
  }

  Object.defineProperty(self, '__chunkpack', { get: () => runtime, set: watch });

  // What a page saw, as plain values: each instantiated module's exports by id are their own keys and whether they are
  // marked as those of an ES module.
  self.whatPageSaw = () => ({
    ...saw,
    instances: Object.keys(runtime.c).map((id) => ({
      id: Number(id),
      marked: runtime.c[id].exports.__esModule === true,
      names: Object.keys(runtime.c[id].exports),
    })),
    chunks: Object.keys(runtime.w).map(Number),
  });
  self.addEventListener('error', (event) => saw.problems.push(String(event.message)));
  self.addEventListener('unhandledrejection', (event) => saw.problems.push(String(event.reason)));
})();
