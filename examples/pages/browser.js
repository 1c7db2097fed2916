"use strict";
// A headless Chromium, spoken to by the DevTools protocol over file descriptors 3 and 4; and what trials found.
const { spawn } = require("child_process");
const fs = require("fs");
const os = require("os");
const path = require("path");

// Which trials held: each that failed is printed. Where one fault is enough, the first ends the trial.
class Tally {
  constructor(endsAtFault) {
    this.endsAtFault = endsAtFault;
    this.passed = 0;
    this.failed = 0;
  }
  check(name, holds, more) {
    if (holds) {
      this.passed += 1;
      return;
    }
    this.failed += 1;
    if (this.endsAtFault) throw new Error(name);
    console.log(`${name}: failed${more === undefined ? "" : ": " + more}`);
  }
}

class Browser {
  constructor(program) {
    this.folder = fs.mkdtempSync(path.join(os.tmpdir(), "pages-"));
    this.process = spawn(program, ["--headless", "--no-sandbox", "--disable-gpu", "--remote-debugging-pipe",
      "--user-data-dir=" + this.folder], { stdio: ["ignore", "ignore", "ignore", "pipe", "pipe"] });
    this.waiting = new Map();
    this.faults = [];
    this.last = 0;
    const parts = [];
    this.process.stdio[4].on("data", (bytes) => {
      const texts = bytes.toString("latin1").split("\0");
      for (const text of texts.slice(0, -1)) {
        parts.push(text);
        this.take(JSON.parse(Buffer.from(parts.join(""), "latin1").toString("utf8")));
        parts.length = 0;
      }
      parts.push(texts[texts.length - 1]);
    });
  }
  take(message) {
    if (message.id) {
      const { keep, refuse } = this.waiting.get(message.id);
      this.waiting.delete(message.id);
      if (message.error) refuse(new Error(message.error.message));
      else keep(message.result);
    } else if (message.method === "Runtime.exceptionThrown"
      || (message.method === "Log.entryAdded" && message.params.entry.level === "error")) {
      this.faults.push(JSON.stringify(message.params));
    } else if (message.method === "Page.loadEventFired") this.loaded();
  }
  call(method, params) {
    this.last += 1;
    const message = { id: this.last, method, params: params || {} };
    if (this.session) message.sessionId = this.session;
    this.process.stdio[3].write(JSON.stringify(message) + "\0");
    return new Promise((keep, refuse) => { this.waiting.set(message.id, { keep, refuse }); });
  }
  async open() {
    const { targetId } = await this.call("Target.createTarget", { url: "about:blank" });
    this.session = (await this.call("Target.attachToTarget", { targetId, flatten: true })).sessionId;
    for (const domain of ["Page", "Runtime", "Log"]) await this.call(domain + ".enable");
    await this.call("Performance.enable", { timeDomain: "threadTicks" });
    await this.size(1366, 768);
  }
  // The processor time that the page's thread has taken, in milliseconds.
  async busy() {
    const { metrics } = await this.call("Performance.getMetrics");
    return 1000 * metrics.find((one) => one.name === "TaskDuration").value;
  }
  size(width, height) {
    return this.call("Emulation.setDeviceMetricsOverride", { width, height, deviceScaleFactor: 1, mobile: false });
  }
  async go(url) {
    for (const one of ["about:blank", url]) {
      const loaded = new Promise((keep) => { this.loaded = keep; });
      await this.call("Page.navigate", { url: one });
      await loaded;
    }
  }
  async ask(expression) {
    const { result, exceptionDetails } = await this.call("Runtime.evaluate", { expression, returnByValue: true });
    if (exceptionDetails) throw new Error(exceptionDetails.exception.description);
    return result.value;
  }
  async key(key) {
    const more = key === "Enter" ? { text: "\r", windowsVirtualKeyCode: 13 } : {};
    await this.call("Input.dispatchKeyEvent", { type: "keyDown", key, ...more });
    await this.call("Input.dispatchKeyEvent", { type: "keyUp", key });
  }
  type(text) { return this.call("Input.insertText", { text }); }
  scheme(value) {
    return this.call("Emulation.setEmulatedMedia", { features: [{ name: "prefers-color-scheme", value }] });
  }
  async shot(file) {
    const { data } = await this.call("Page.captureScreenshot", { format: "png" });
    fs.writeFileSync(file, Buffer.from(data, "base64"));
  }
  async close() {
    const ended = new Promise((keep) => { this.process.on("exit", keep); });
    this.session = undefined;
    await this.call("Browser.close").catch(() => undefined);
    await ended;
    fs.rmSync(this.folder, { recursive: true, force: true });
  }
}

module.exports = { Browser, Tally };
