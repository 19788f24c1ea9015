// Starts the watch, and ends it at a signal with status 0.
import { Watch } from './watch.mjs';

const watch = new Watch(process.argv.slice(2), {
  print: (text) => process.stdout.write(text),
  complain: (text) => process.stderr.write(text),
  end: (status) => process.exit(status),
});
for (const signal of ['SIGINT', 'SIGTERM', 'SIGHUP']) process.on(signal, () => watch.end());
// Nobody reads what it prints any more.
process.stdout.on('error', () => watch.end());
await watch.start();
