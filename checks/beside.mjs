// Checks a page of `cellctl show --html --beside OTHER` in a headless browser.
// Usage: node checks/beside.mjs PAGE PICTURES     checks/page.sh calls it.
import { writeFileSync } from "node:fs";
import { pathToFileURL } from "node:url";
import { ask, check, finish, key, resize, sleep, tell } from "./browser.mjs";

const [page, pictures] = process.argv.slice(2);
const address = pathToFileURL(page).href;

// In each frame: a value by a function of its document.
const each = (read) => ask(`[...document.querySelectorAll("iframe")].map((frame) => (${read})(frame.contentDocument))`);
const entries = () => each('(inner) => Number(inner.getElementById("number").value)');
const lasts = () => each('(inner) => Number(inner.getElementById("slider").max)');
const firsts = () => each('(inner) => Number(inner.getElementById("slider").min)');
const press = (frame, id) => ask(`document.querySelectorAll("iframe")[${frame}].contentDocument.getElementById("${id}").click()`);
const open = async (hash) => {
  await tell("Page.navigate", { url: "about:blank" });
  await tell("Page.navigate", { url: address + hash });
  for (let i = 0; i < 600; i += 1) {
    const ready = await each("(inner) => inner?.documentElement?.classList.contains('ready') === true");
    if (ready.length === 2 && ready.every((is) => is)) break;
    await sleep(10);
  }
  await sleep(200);
};
const picture = async (name) => {
  const { data } = await tell("Page.captureScreenshot", { format: "png" });
  writeFileSync(`${pictures}/${name}.png`, Buffer.from(data, "base64"));
};

let ends = [];
let begin = 0;
// Both pages after so many entries, each one at its end where it has fewer.
const both = (i) => ends.map((end) => Math.min(end, Math.max(begin, i)));
// Waits until both pages are there, for two seconds at most, since a step goes from page to page by messages.
const settle = async (wanted) => {
  await sleep(100);
  for (let k = 0; k < 40 && String(await entries()) !== String(wanted); k += 1) await sleep(50);
  return entries();
};
const go = async (what, act, wanted) => { await act(); check(what, await settle(wanted), wanted); };
const checkTogether = async () => {
  await open("#entry=" + (begin + 2));
  check("the address opens both", await settle(both(begin + 2)), both(begin + 2));
  await go("right", () => key("ArrowRight", 39), both(begin + 3));
  await go("page up", () => key("PageUp", 33), both(begin + 2));
  await go("left", () => key("ArrowLeft", 37), both(begin + 1));
  await go("end", () => key("End", 35), both(Math.max(...ends)));
  await go("right at the end", () => key("ArrowRight", 39), both(Math.max(...ends)));
  await go("home", () => key("Home", 36), both(0));
  for (const [move, i] of [["ArrowRight", begin + 1], ["End", Math.max(...ends)], ["ArrowLeft", Math.max(...ends) - 1], ["Home", 0]]) {
    await go(`the button ${move}`, () => ask(`document.querySelector("[data-move=${move}]").click()`), both(i));
  }
  await go("a step in the first page", () => press(0, "forward"), both(begin + 1));
  await go("a step in the second page", () => press(1, "forward"), both(begin + 2));
  await go("the end of the first page", () => press(0, "end"), both(ends[0]));
  check("the address tells the entry", await ask("location.hash"), "#entry=" + ends[0]);
};
const checkAlone = async () => {
  await open("");
  await ask("document.getElementById('together').click()");
  const step = both(begin + 1)[0];
  await go("a step in the first page alone", () => press(0, "forward"), [step, both(0)[1]]);
  await go("the end of the second page alone", () => press(1, "end"), [step, ends[1]]);
};
// Both play by one clock, and the first difference is told and marked.
const checkDifferences = async () => {
  await open("");
  const records = await each('(inner) => JSON.parse(inner.getElementById("journal").textContent).rows.map((row) => row[12])');
  const counts = await each('(inner) => JSON.parse(inner.getElementById("journal").textContent).entries');
  const longest = Math.max(...records.map((list) => list.length));
  const place = Array.from({ length: longest }, (_, i) => i).find((i) => begin + i > 0 && records[0][i] !== records[1][i]);
  const first = place === undefined ? undefined : begin + place;
  const isPart = begin > 0 || records.some((list, k) => list.length <= counts[k]);
  check("the first difference", await ask("document.getElementById('difference').textContent"),
    first === undefined ? "No difference in their good entries" + (isPart ? " that are shown" : "") : "First difference: entry " + first);
  if (first !== undefined) {
    await go("to the first difference", () => ask("document.getElementById('to-difference').click()"), both(first));
    const marked = await each('(inner) => inner.querySelectorAll("#cell .differs").length > 0');
    check("what differs is marked", marked, [true, true]);
  }
  await go("home", () => key("Home", 36), both(0));
  await each('(inner) => { inner.getElementById("speed").value = "100"; }');
  await ask("document.getElementById('play-both').click()");
  for (let k = 0; k < 5; k += 1) {
    await sleep(130);
    const [one, two] = await entries();
    check("both play in step", Math.abs(Math.min(one, ends[1]) - Math.min(two, ends[0])) <= 1, true);
  }
  await ask("document.getElementById('play-both').click()");
  const paused = await entries();
  await sleep(300);
  check("both pause", await entries(), paused);
  check("both played", paused.some((entry) => entry > begin), true);
  await go("home again", () => key("Home", 36), both(0));
  await press(0, "play");
  await sleep(400);
  check("play in one page plays both", (await entries()).every((entry) => entry > begin), true);
  await press(1, "play");
  console.log("the first difference, its marks and play were tried");
};
const checkSizes = async () => {
  for (const [name, width, height, dark] of [["wide", 1100, 900, false], ["narrow", 390, 844, false], ["dark", 1100, 900, true]]) {
    await resize(width, height);
    await tell("Emulation.setEmulatedMedia", { features: [{ name: "prefers-color-scheme", value: dark ? "dark" : "light" }] });
    await open("#entry=" + Math.max(...ends));
    check(`${name}: nothing is wider than the window`, await ask("document.documentElement.scrollWidth <= innerWidth"), true);
    const inner = await each("(inner) => inner.documentElement.scrollWidth <= inner.defaultView.innerWidth");
    check(`${name}: nothing is wider than its frame`, inner, [true, true]);
    await picture("beside-" + name);
  }
};
const checkWithoutScripts = async () => {
  await tell("Emulation.setScriptExecutionDisabled", { value: true });
  await tell("Page.navigate", { url: address });
  await sleep(1000);
  await tell("Emulation.setScriptExecutionDisabled", { value: false });
  check("without scripts each frame has its picture", await each("(inner) => inner.querySelector('.still svg').getClientRects().length"), [1, 1]);
  await picture("beside-without-scripts");
};
await finish(address, async () => {
  await open("");
  ends = await lasts();
  begin = Math.max(...(await firsts()));
  check("there are two pages, which begin at the start", await entries(), both(0));
  // The names of the files, where they are told (NAMES, as "one|other").
  const heads = await ask("[...document.querySelectorAll('main > h2')].map((head) => head.textContent)");
  const names = process.env.NAMES?.split("|") ?? heads.map((head) => head.split(": ").slice(1).join(": "));
  check("the heads have the files' names", heads, ["The journal: " + names[0], "The other one, of --beside: " + names[1]]);
  await checkTogether();
  await checkAlone();
  await checkDifferences();
  await checkSizes();
  await checkWithoutScripts();
  console.log(`two journals of ${ends.join(" and ")} steps: keys, buttons, the switch, sizes and no scripts were tried`);
});
