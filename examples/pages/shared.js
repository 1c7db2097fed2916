"use strict";
// What drive.js and coverage.js share: a run of trials in a browser, and faults that are planted into a page.
const { Browser, Tally } = require("./browser.js");

// Runs trials in a browser, and ends the process: the last line is 'N passed, M failed', and the status 1 where one failed.
async function runs(program, trials) {
  const tally = new Tally(false);
  const browser = new Browser(program);
  try {
    await browser.open();
    await trials(browser, tally);
  } catch (fault) {
    tally.check("the browser", false, fault.stack);
  }
  await browser.close();
  console.log(`${tally.passed} passed, ${tally.failed} failed`);
  process.exitCode = tally.failed ? 1 : 0;
}

// A page with a fault in place of a text that stands in it once.
function plant(tally, name, text, old, planted) {
  if (text.split(old).length !== 2) tally.check(`the plant '${name}' has one place`, false, old);
  return text.replace(old, () => planted);
}

// Whether a trial finds a fault: it is given a tally that ends it at the first one.
async function finds(trial) {
  try {
    await trial(new Tally(true));
    return false;
  } catch (fault) {
    return true;
  }
}

module.exports = { finds, plant, runs };
