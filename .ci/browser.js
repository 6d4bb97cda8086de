// Runs in a page after the page's own script (.ci/browser adds it): acts as a reader does, and compares the attributes of the body with WANTED,
// which .ci/browser computed from the rows of the payload. The result is the attribute data-test.

const faults = [];
const shown = (name) => document.body.dataset[name];

function expect(what, got, wanted) {
  if (String(got) !== String(wanted)) faults.push(`${what}: ${got} instead of ${wanted}`);
}

function press(key, target = document.body) {
  target.dispatchEvent(new KeyboardEvent("keydown", { key, bubbles: true, cancelable: true }));
}

function set(id, value) {
  const control = document.getElementById(id);
  if (control.type === "checkbox") control.checked = value;
  else control.value = value;
  control.dispatchEvent(new Event("change", { bubbles: true }));
}

function openFragment(text) {
  history.replaceState(null, "", `#${text}`);
  window.dispatchEvent(new HashChangeEvent("hashchange"));
}

function expectCounts(what, wanted) {
  for (const [name, count] of Object.entries(wanted)) expect(`${what}: ${name}`, shown(name), count);
}

/** Texts of the chart that cover each other. */
function expectFreeTexts(what) {
  const boxes = [...document.querySelectorAll("#chart text")].map((it) => [it.getBBox(), it]).sort((one, other) => one[0].y - other[0].y);
  boxes.forEach(([box, text], place) => {
    for (let next = place + 1; next < boxes.length && boxes[next][0].y < box.y + box.height - 1; next++) {
      const other = boxes[next][0];
      const covers = box.x < other.x + other.width && other.x < box.x + box.width && other.y + 3 < box.y + box.height;
      if (covers) faults.push(`${what}: '${text.textContent}' and '${boxes[next][1].textContent}' cover each other`);
    }
  });
}

/** The words of the labels agree with the rows. */
function testLabels() {
  const { whole, again } = WANTED;
  const labels = [...document.querySelectorAll("#chart text[data-packet]")].map((it) => it.textContent);
  const count = (pattern) => labels.filter((text) => pattern.test(text)).length;
  expect("labels with lost", count(/, lost$/), whole.crosses);
  expect("labels with again", count(/, again(,|$)/), again);
  expect("labels of drops", count(/, (too big|no station|no route|ttl used up)$/), whole.drops);
  expect("red labels", document.querySelectorAll("#chart .label.lost").length, whole.crosses + whole.drops);
}

function testKeys() {
  const { entries, times } = WANTED;
  press("Home");
  expect("Home", shown("now"), 0);
  press("ArrowRight");
  expect("Right", shown("now"), Math.min(1, entries));
  press("ArrowLeft");
  press("ArrowLeft");
  expect("Left", shown("now"), 0);
  press("PageDown");
  expect("Page Down", shown("now"), times.filter((time) => time === times[0]).length);
  press("PageUp", document.getElementById("slider"));
  expect("Page Up on the slider", shown("now"), 0);
  press("End");
  expect("End", shown("now"), entries);
  expect("slider", document.getElementById("slider").value, entries);
  press("PageUp");
  expect("Page Up", shown("now"), times.indexOf(times[entries - 1]) < 0 ? 0 : times.indexOf(times[entries - 1]));
}

function testPackets() {
  const { packets, stamps, keys } = WANTED;
  if (packets === 0) return;
  press("Home");
  press("n");
  expect("N", shown("now"), stamps[0] + 1);
  press("N");
  press("p");
  expect("N, P", shown("now"), stamps[0] + 1);
  press("Escape");
  expect("Escape", shown("packet"), "");
  const key = keys[keys.length >> 1];
  openFragment(`n=5&k=${key}`);
  expect("fragment", `${shown("now")} ${shown("packet")}`, `5 ${key}`);
  const title = key.startsWith("e") ? "Packet on no link" : `Packet ${key.split(".").pop()} of `;
  expect("title of the packet", document.getElementById("packet-title").textContent.startsWith(title), true);
  const arrow = document.querySelector("g[data-packet]");
  expect("name of an arrow", /^\w+( to \w+)?, packet /.test(arrow.getAttribute("aria-label")), true);
  press("Escape");
  press("Enter", arrow);
  expect("Enter on an arrow", shown("packet") !== "", true);
}

function testFilters() {
  const { host0, whole, packets } = WANTED;
  openFragment("");
  set("host", "0");
  expectCounts("filter of a host", host0);
  set("host", "");
  set("steps", false);
  expectCounts("without steps", { ...whole, steps: 0 });
  set("steps", true);
  set("as-table", true);
  expect("rows of the table", document.querySelectorAll("#table tbody tr").length, packets);
  set("as-table", false);
  press("Home");
  set("hide", true);
  const later = document.querySelector("#chart .packet.later");
  if (later) expect("hides what comes later", getComputedStyle(later).display, "none");
  set("hide", false);
}

function testPrint() {
  window.dispatchEvent(new Event("beforeprint"));
  expect("sheets", document.querySelectorAll("#sheets svg svg").length > 0, true);
  window.dispatchEvent(new Event("afterprint"));
  expect("sheets after print", document.querySelectorAll("#sheets svg").length, 0);
}

/** In a long run, a far jump draws the entries near the current one alone. */
function testJump() {
  const { entries, near } = WANTED;
  openFragment("n=2");
  expect("far jump", shown("from") === "0" && Math.abs(Number(shown("to")) - near) <= 2, true);
  for (let n = 0; n < near; n += 100) moveTo(n);
  expect("drawn around", Number(shown("from")) <= Number(shown("now")) && Number(shown("now")) <= Number(shown("to")), true);
  expectFreeTexts("after a jump");
  press("End");
  expect("end of a long run", shown("to"), entries);
}

function test() {
  expect("entries", shown("entries"), WANTED.entries);
  expect("current entry", shown("now"), WANTED.entries);
  expectFreeTexts("at first");
  testKeys();
  testPackets();
  testPrint();
  if (WANTED.entries > WANTED.near) {
    testJump();
    return;
  }
  openFragment("");
  expectCounts("chart", WANTED.whole);
  testLabels();
  testFilters();
  set("host", "0");
  expectFreeTexts("filter");
}

try {
  test();
} catch (error) {
  document.body.dataset.failure = error.message;
  throw error;
}
document.body.dataset.test = JSON.stringify({ faults });
