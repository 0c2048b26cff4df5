// Clicks on the page of examples/live.sh in a headless browser.
// Usage: node checks/live.mjs ADDRESS CONTROLLER [PICTURES]     checks/live.py calls it, with the controller's process.
import { spawn } from "node:child_process";
import { writeFileSync } from "node:fs";
import { ask, check, click, finish, key, resize, sleep, tell } from "./browser.mjs";

const [address, controller, pictures] = process.argv.slice(2);
const state = async () => (await fetch(address + "state")).json();
const until = async (what, holds, seconds = 60) => {
  for (let i = 0; i < seconds * 20; i += 1) {
    if (await holds()) return;
    await sleep(50);
  }
  check(`${what}, within ${seconds} seconds`, false, true);
};
const words = (id) => ask(`document.getElementById(${JSON.stringify(id)}).textContent`);
const isShown = (id) => ask(`document.getElementById(${JSON.stringify(id)}).getClientRects().length > 0`);
const press = async (id, across = 0.5, down = 0.5) => {
  const place = await ask(`(() => { const part = document.getElementById(${JSON.stringify(id)});
    part.scrollIntoView({ block: "center" });
    const box = part.getBoundingClientRect(); return [box.left + box.width * ${across}, box.top + box.height * ${down}]; })()`);
  await click(...place);
  await sleep(80);
};
const picture = async (name) => {
  if (!pictures) return;
  await ask("window.scrollTo(0, 0)");
  await sleep(200);
  const { data } = await tell("Page.captureScreenshot", { format: "png" });
  writeFileSync(`${pictures}/live-${name}.png`, Buffer.from(data, "base64"));
};
const dark = (is) => tell("Emulation.setEmulatedMedia",
  { features: [{ name: "prefers-color-scheme", value: is ? "dark" : "light" }] });
const open = async () => {
  await tell("Page.navigate", { url: address });
  await until("the page", () => ask("document.documentElement?.classList.contains('ready') === true"), 20);
};

// Press 2 is chosen by a click on its body, and breaks at its next motion.
const breakPress = async () => {
  const body = await ask(`(() => { const box = document.querySelector("#machine-4 .body").getBoundingClientRect();
    return [box.left + 6, box.top + 6]; })()`);
  await click(...body);
  await until("press 2 is chosen", async () => (await words("hand-name")) === "By hand: press 2", 5);
  check("its button is pressed", await ask("document.getElementById('choose-4').getAttribute('aria-pressed')"), "true");
  await ask("document.getElementById('when').focus()");
  await key("ArrowDown", 40);
  check("the time that is chosen by the keyboard", await ask("document.getElementById('when').value"), "next");
  await press("kind-no_motion");
  await until("press 2 is broken", async () => (await state()).faults.some(({ axis }) => axis === "press_two"), 5);
  await until("the drawing tells it", async () => (await words("stop-4")).endsWith(": doesn't move"), 5);
};
// What is drawn is what the plant says.
const checkDrawing = async () => {
  await press("pause");
  await until("a pause", async () => (await state()).paused, 5);
  await sleep(700);
  const { world } = await state();
  const drawn = await ask(`[...Array(9).keys()].map((s) => { const plate = document.getElementById("plate-" + s);
    return getComputedStyle(plate).visibility === "visible" ? plate.lastChild.textContent : ""; })`);
  check("plates drawn", drawn, world.plates.map((plate, s) => (plate === 0 ? "" : plate + (world.forged[s] === "1" ? "*" : ""))));
  const hand = await ask(`["hand-0", "hand-1"].map((id) => document.getElementById(id))
    .map((disc) => Math.round(Math.hypot(disc.getAttribute("cx") - 400, disc.getAttribute("cy") - 250)))`);
  const reach = (axis) => { const [a, b, share] = world.axes[axis]; const of = (letter) => (letter === "o" ? 150 : 58);
    return Math.round(of(a) + (of(b) - of(a)) * share); };
  check("how far the arms are out", hand.map((found, arm) => Math.abs(found - reach(4 + arm)) <= 2), [true, true]);
  check("the pause is told", [await words("pause"), (await words("status")).startsWith("paused")], ["Go on", true]);
  await press("pause");
};
const checkSizes = async () => {
  const sizes = [["wide", 1440, 900, false], ["dark", 1280, 800, true], ["narrow", 390, 844, false]];
  const controls = `[...document.querySelectorAll("button, select, input, [tabindex='0']")]
    .filter((node) => node.getClientRects().length > 0)`;
  for (const [name, width, height, isDark] of sizes) {
    await resize(width, height);
    await dark(isDark);
    await sleep(400);
    check(`${name}: nothing is wider than the window`, await ask("document.documentElement.scrollWidth <= innerWidth"), true);
    const small = await ask(`${controls}.filter((node) => node.closest("svg, ul, ol") === null)
      .map((node) => [node.id, node.getBoundingClientRect()])
      .filter(([, box]) => box.width < 24 || box.height < 24).map(([id]) => id)`);
    check(`${name}: controls smaller than 24 pixels`, small, []);
    const silent = await ask(`${controls}.map((node) =>
      [node.id, node.getAttribute("aria-label") ?? node.labels?.[0]?.textContent ?? node.textContent])
      .filter(([, label]) => label.trim() === "").map(([id]) => id)`);
    check(`${name}: controls without a name`, silent, []);
    await picture(name);
  }
  await dark(false);
  await resize(1280, 900);
};
// A press is chosen, left and broken by the keyboard alone.
const checkKeys = async () => {
  await ask("document.activeElement.blur()");
  await key("Escape", 27);
  check("Escape lets go", await isShown("hand"), false);
  await ask("document.getElementById('machine-3').focus()");
  await key("Enter", 13);
  check("Enter chooses", await words("hand-name"), "By hand: press 1");
  check("the focus is at its name", await ask("document.activeElement.id"), "hand-name");
  await key("2", 50);
  check("2 chooses", await words("hand-name"), "By hand: table");
  await key("+", 187);
  await until("+ is faster", async () => (await words("pace")).startsWith("8 ") && (await state()).pace === 8, 5);
  await key("-", 189);
  await until("- is slower", async () => (await state()).pace === 4, 5);
};
const wish = (body) => fetch(address + "do",
  { method: "POST", headers: { "Content-Type": "application/json" }, body: JSON.stringify(body) });
// The controller is killed; the page has the command, and tells when it is back.
const checkResume = async () => {
  // Killed while nothing moves but what is booked failed: a motion that ends meanwhile is a fault for the controller that goes on.
  await until("nothing moves", async () => {
    await wish({ do: "pause", on: true });
    await sleep(300);
    const { world, book } = await state();
    if (world.going === "---------" && book[3].replace("-------q-", "---------") === "---------") return true;
    await wish({ do: "pause", on: false });
    await sleep(20);
    return false;
  });
  process.kill(Number(controller), "SIGKILL");
  await wish({ do: "pause", on: false });
  await until("the page tells that the controller is gone", () => isShown("gone"), 10);
  const command = await words("command");
  check("the command", command, (await state()).resume);
  await press("copy");
  await until("it is copied, or marked", async () => (await words("copied")) !== "", 5);
  await picture("gone");
  spawn("sh", ["-c", "exec " + command], { stdio: "ignore" });
  await until("the page tells that it is back", () => isShown("back"), 10);
  check("the command is gone", await isShown("gone"), false);
};
const run = async () => {
  await resize(1280, 900);
  await open();
  await breakPress();
  await checkKeys();
  await checkDrawing();
  await until("press 2 is booked failed", async () => (await state()).book[5] === "000010");
  await until("the page says so", async () => (await words("sign-4")) === "FAILED", 5);
  await until("what differs is told", async () => (await words("differs")).includes("press 2: the book has"), 10);
  await press("choose-4");
  await checkSizes();
  await checkResume();
  await press("choose-4");
  await press("choose-4");
  await ask("document.getElementById('faster').click()");
  await until("five are delivered", async () => (await state()).book[10][4] === 5, 120);
  await until("the page says so", async () => (await words("delivered-count")) === "5", 5);
  const counted = await ask(`["admitted", "forged", "delivered", "quarantine"].map((id) => document.getElementById(id + "-count"))
    .map((node) => node.textContent)`);
  check("admitted, forged, delivered and in quarantine by the page", counted, ["6", "5", "5", "0"]);
  await picture("five");
  await press("desk-repair");
  check("a repair isn't offered", await words("said"), "Not now: a plate is booked there: clear it first");
  await press("desk-serve");
  await until("the end", async () => (await state()).controller === "ended", 20);
  await until("the page tells it", async () => (await words("over")).includes("has finished"), 10);
  await until("the plate is in quarantine", async () => (await words("quarantine-count")) === "1", 10);
  await picture("end");
};
await finish(address, run);
