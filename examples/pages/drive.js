"use strict";
// drive.js BROWSER [--pages FOLDER] [--tlcache PROGRAM] [--tlchart PROGRAM --tlgen PROGRAM] [--plants] [--shots FOLDER]: opens
// the pages of the example traces and records in a headless Chromium, and tries what a reader does; with tlcache it
// compares the steps that a page calls permitted, with tlchart and tlgen it opens large pages, and with --plants it
// tries pages whose script has a fault. Each trial that fails prints a line; the last line is 'N passed, M failed'.
const fs = require("fs");
const path = require("path");
const { finds, plant, runs } = require("./shared.js");
const { large } = require("./large.js");
const { permits } = require("./permits.js");
const { PLANTS } = require("./plants.js");
const { RECORDS, records, verdicts } = require("./records.js");
const trials = require("./trials.js");

const { PAGES, links, schemes, top } = trials;
const TRIALS = { ...trials.TRIALS, records, verdicts };
const golden = path.join(top, "crates/golden/data");
const urlIn = (folder) => (name, hash) => `file://${path.join(folder, name + ".html")}${hash || ""}`;

// Each fault, planted into a copy of the pages, is found by its trial.
async function plants(browser, tally, pages) {
  const folder = path.join(browser.folder, "plants");
  fs.mkdirSync(folder);
  for (const [name, trial, old, planted] of PLANTS) {
    for (const page of PAGES.concat(RECORDS)) {
      const text = fs.readFileSync(path.join(pages, page + ".html"), "utf8");
      fs.writeFileSync(path.join(folder, page + ".html"), plant(tally, name, text, old, planted));
    }
    const isFound = await finds((once) => TRIALS[trial](browser, once, urlIn(folder)));
    tally.check(`the plant '${name}' is found by ${trial}`, isFound);
  }
}

const [program, ...options] = process.argv.slice(2);
const option = (name) => (options.includes(name) ? options[options.indexOf(name) + 1] : undefined);
const pages = option("--pages") || golden;
const url = urlIn(pages);
runs(program, async (browser, tally) => {
  for (const trial of Object.values(TRIALS)) await trial(browser, tally, url);
  await links(browser, tally);
  await schemes(browser, tally, url, option("--shots"));
  if (options.includes("--plants")) await plants(browser, tally, pages);
  if (option("--tlchart")) await large(browser, tally, option("--tlchart"), option("--tlgen"));
  for (const name of PAGES) await permits(browser, tally, url, name, option("--tlcache"));
});
