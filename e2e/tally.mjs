// Counts of what passed, failed and was skipped, each with its line.
export class Tally {
  passed = 0;
  failed = 0;
  skipped = 0;

  async check(name, body) {
    try {
      await body();
      this.passed++;
      console.log(`ok: ${name}`);
    } catch (error) {
      this.failed++;
      console.log(`FAILED: ${name}\n${error.stack ?? error}`);
    }
  }

  skip(name, why) {
    this.skipped++;
    console.log(`skipped: ${name}: ${why}`);
  }

  // The last lines, and the exit status.
  finish() {
    if (this.skipped > 0) console.log(`${this.skipped} skipped`);
    console.log(`${this.passed} passed, ${this.failed} failed`);
    return this.failed > 0 ? 1 : 0;
  }
}
