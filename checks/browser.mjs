// A headless browser, driven by the protocol of its developer tools over a pipe: what checks/page.mjs and checks/beside.mjs ask of it.
import { spawn } from "node:child_process";

const browser = spawn(
  process.env.CHROMIUM ?? "chromium",
  ["--headless=new", "--no-sandbox", "--disable-gpu", "--hide-scrollbars", "--disable-ipc-flooding-protection", "--remote-debugging-pipe", "about:blank"],
  { stdio: ["ignore", "ignore", "ignore", "pipe", "pipe"] },
);
const waiting = new Map();
const requests = [];
const faults = [];
let session;
let count = 0;
let rest = "";
browser.stdio[4].setEncoding("utf8");
browser.stdio[4].on("data", (data) => {
  const messages = (rest + data).split("\0");
  rest = messages.pop();
  messages.map((message) => JSON.parse(message)).forEach(hear);
});
const hear = (message) => {
  if (message.id !== undefined) {
    const { resolve, reject } = waiting.get(message.id);
    waiting.delete(message.id);
    if (message.error === undefined) resolve(message.result);
    else reject(new Error(message.error.message));
  }
  if (message.method === "Network.requestWillBeSent") requests.push(message.params.request.url);
  if (message.method === "Runtime.exceptionThrown") faults.push(message.params.exceptionDetails.exception?.description ?? "an exception");
  if (message.method === "Log.entryAdded") faults.push(message.params.entry.text);
};
export const tell = (method, params = {}) => new Promise((resolve, reject) => {
  count += 1;
  waiting.set(count, { resolve, reject });
  browser.stdio[3].write(JSON.stringify({ id: count, method, params, sessionId: session }) + "\0");
});
export const ask = async (expression) => {
  const { result, exceptionDetails } = await tell("Runtime.evaluate", { expression, returnByValue: true, awaitPromise: true });
  if (exceptionDetails !== undefined) throw new Error(exceptionDetails.exception?.description ?? exceptionDetails.text);
  return result.value;
};
export const sleep = (milliseconds) => new Promise((resolve) => setTimeout(resolve, milliseconds));

let failed = 0;
export const check = (what, found, wanted) => {
  if (JSON.stringify(found) === JSON.stringify(wanted)) return;
  failed += 1;
  console.log(`  ${what}: found ${JSON.stringify(found)}, wanted ${JSON.stringify(wanted)}`);
};

export const resize = (width, height, factor = 1) => tell("Emulation.setDeviceMetricsOverride", { width, height, deviceScaleFactor: factor, mobile: false });
export const key = async (name, code) => {
  const press = { key: name, code: name === " " ? "Space" : name, windowsVirtualKeyCode: code };
  await tell("Input.dispatchKeyEvent", { type: "keyDown", ...press, text: name.length === 1 ? name : undefined });
  await tell("Input.dispatchKeyEvent", { type: "keyUp", ...press });
};
export const click = async (x, y) => {
  const point = { x, y, button: "left", clickCount: 1 };
  await tell("Input.dispatchMouseEvent", { type: "mousePressed", ...point });
  await tell("Input.dispatchMouseEvent", { type: "mouseReleased", ...point });
};
// Opens an empty page, in which all is asked from then on.
const begin = async () => {
  const { targetId } = await tell("Target.createTarget", { url: "about:blank" });
  session = (await tell("Target.attachToTarget", { targetId, flatten: true })).sessionId;
  for (const part of ["Page", "Runtime", "Network", "Log"]) await tell(part + ".enable");
  await resize(1200, 1000);
};
// Runs what is to be checked, looks for errors and for requests to elsewhere, says how it went, and ends the program.
export const finish = async (address, run) => {
  const end = setTimeout(() => { console.log("  the browser didn't answer in 300 seconds"); browser.kill(); process.exit(1); }, 300000);
  try {
    await begin();
    await run();
    const outside = requests.filter((url) => !url.startsWith(address) && !url.startsWith("data:") && !url.startsWith("about:"));
    check("requests to elsewhere", outside, []);
    check("errors that the browser tells", faults, []);
  } catch (error) {
    failed += 1;
    console.log("  " + error.stack);
  }
  clearTimeout(end);
  browser.kill();
  console.log(failed === 0 ? "the page is in order" : `${failed} checks failed`);
  process.exit(failed === 0 ? 0 : 1);
};
