// Tests of the page in headless Chromium or Firefox: each opens a state of its fragment.
//
//     node --experimental-websocket bindings/web/page.mjs BROWSER MODULE [FOLDER FOR SCREENSHOTS]        (bindings/web/run does this)
import assert from "node:assert/strict";
import { spawn } from "node:child_process";
import { mkdtemp, readFile, rm, writeFile } from "node:fs/promises";
import { createServer } from "node:http";
import { tmpdir } from "node:os";
import { basename, join } from "node:path";

const [browser, module, shots] = process.argv.slice(2);

const FILES = {
  "/index.html": ["text/html", new URL("index.html", import.meta.url)],
  "/uriparse.mjs": ["text/javascript", new URL("uriparse.mjs", import.meta.url)],
  "/uriparse.wasm": ["application/wasm", module],
};
const server = createServer(async (request, response) => {
  const [type, file] = FILES[new URL(request.url, "http://h").pathname] ?? [];
  response.writeHead(file ? 200 : 404, { "content-type": type ?? "text/plain" });
  response.end(file && await readFile(file));
});
await new Promise((resolve) => server.listen(0, "127.0.0.1", resolve));
const page = `http://127.0.0.1:${server.address().port}/index.html`;

// The messages of JSON that go to a browser, and their results.
class Messages {
  #waiting = new Map();
  #write;
  #last = 0;

  constructor(write) {
    this.#write = write;
  }

  send(method, params = {}, more = {}) {
    this.#last += 1;
    const sent = new Promise((resolve, reject) => { this.#waiting.set(this.#last, { resolve, reject }); });
    this.#write(JSON.stringify({ id: this.#last, method, params, ...more }));
    return sent;
  }

  hear(text) {
    const { id, result, error, message } = JSON.parse(text);
    const { resolve, reject } = this.#waiting.get(id) ?? {};
    if (error) {
      reject?.(new Error(error.message ?? `${error}: ${message}`));
    } else {
      resolve?.(result);
    }
  }
}

// Starts a browser, which ends with this process: its processes are a group.
let child;
function start(path, words, options) {
  child = spawn(path, words, { detached: true, ...options });
  return child;
}
function endBrowser() {
  try {
    process.kill(-child.pid, "SIGKILL");
  } catch (error) {
    assert.equal(error.code, "ESRCH");
  }
}
process.on("exit", endBrowser);
process.on("SIGTERM", () => process.exit(1));

// Chromium takes and gives messages that end with a zero byte, over pipes.
async function chromium(path, profile) {
  start(path, ["--headless", "--no-sandbox", "--disable-gpu", "--window-size=500,900", "--remote-debugging-pipe", `--user-data-dir=${profile}`],
    { stdio: ["ignore", "ignore", "ignore", "pipe", "pipe"] });
  const messages = new Messages((text) => child.stdio[3].write(`${text}\0`));
  let rest = "";
  child.stdio[4].setEncoding("utf8").on("data", (some) => {
    const texts = (rest + some).split("\0");
    rest = texts.pop();
    texts.forEach((text) => messages.hear(text));
  });
  const { targetId } = await messages.send("Target.createTarget", { url: "about:blank" });
  const session = await messages.send("Target.attachToTarget", { targetId, flatten: true });
  const send = (method, params) => messages.send(method, params, session);
  return {
    navigate: (url) => send("Page.navigate", { url }),
    async valueOf(expression) {
      const { result, exceptionDetails } = await send("Runtime.evaluate", { expression, awaitPromise: true, returnByValue: true });
      assert(!exceptionDetails, exceptionDetails?.exception?.description);
      return result.value;
    },
    insert: (text) => send("Input.insertText", { text }),
    async key(key) {
      const [text, windowsVirtualKeyCode] = { Enter: ["\r", 13], Tab: [undefined, 9] }[key];
      for (const type of ["keyDown", "keyUp"]) {
        await send("Input.dispatchKeyEvent", { type, key, code: key, text: type === "keyDown" ? text : undefined, windowsVirtualKeyCode });
      }
    },
    dark: (isDark) => send("Emulation.setEmulatedMedia", { features: [{ name: "prefers-color-scheme", value: isDark ? "dark" : "light" }] }),
    shot: async () => (await send("Page.captureScreenshot", { format: "png" })).data,
    close: () => messages.send("Browser.close"),
  };
}

// One process for pages, none before it is needed, and no requests of its own.
const FIREFOX_PREFERENCES = [["fission.autostart", false], ["dom.ipc.processCount", 1], ["dom.ipc.processPrelaunch.enabled", false],
  ["browser.shell.checkDefaultBrowser", false], ["browser.startup.page", 0], ["app.normandy.enabled", false], ["app.update.disabledForTesting", true],
  ["datareporting.policy.dataSubmissionEnabled", false], ["network.captive-portal-service.enabled", false], ["network.connectivity-service.enabled", false],
  ["services.settings.server", "data:,"], ["extensions.update.enabled", false], ["browser.safebrowsing.update.enabled", false]];

// Firefox takes and gives messages over a WebSocket (WebDriver BiDi), whose address it prints.
async function firefox(path, profile) {
  await writeFile(join(profile, "user.js"), FIREFOX_PREFERENCES.map((pair) => `user_pref(${JSON.stringify(pair).slice(1, -1)});\n`).join(""));
  start(path, ["--headless", "--no-remote", "--profile", profile, "--width", "500", "--height", "900", "--remote-debugging-port", "0", "about:blank"],
    { stdio: ["ignore", "ignore", "pipe"], env: { ...process.env, HOME: profile } });
  const address = await new Promise((resolve, reject) => {
    let printed = "";
    child.stderr.setEncoding("utf8").on("data", (some) => {
      printed += some;
      const found = /WebDriver BiDi listening on (ws:\S+)/.exec(printed);
      if (found) { resolve(found[1]); }
    });
    child.on("exit", () => reject(new Error(`Firefox ended: ${printed}`)));
  });
  const socket = new WebSocket(`${address}/session`);
  await new Promise((resolve, reject) => {
    socket.addEventListener("open", resolve);
    socket.addEventListener("error", () => reject(new Error(`no connection to ${address}`)));
  });
  const messages = new Messages((text) => socket.send(text));
  socket.addEventListener("message", ({ data }) => messages.hear(data));
  const send = (method, params) => messages.send(method, params);
  await send("session.new", { capabilities: {} });
  const { contexts: [{ context }] } = await send("browsingContext.getTree");
  await send("browsingContext.setViewport", { context, viewport: { width: 500, height: 900 } });
  const valueOf = async (expression) => {
    const { result, exceptionDetails } = await send("script.evaluate", { expression: `(async () => JSON.stringify(await (${expression}) ?? null))()`,
      target: { context }, awaitPromise: true, resultOwnership: "none" });
    assert(!exceptionDetails, exceptionDetails?.text);
    return JSON.parse(result.value);
  };
  return {
    valueOf,
    navigate: (url) => send("browsingContext.navigate", { context, url, wait: "complete" }),
    insert: (text) => valueOf(`document.execCommand("insertText", false, ${JSON.stringify(text)})`),
    key(key) {
      const value = { Enter: "\uE006", Tab: "\uE004" }[key];
      return send("input.performActions", { context, actions: [{ type: "key", id: "keys", actions: [{ type: "keyDown", value }, { type: "keyUp", value }] }] });
    },
    dark: null,
    shot: async () => (await send("browsingContext.captureScreenshot", { context })).data,
    async close() {
      await send("browser.close");
      socket.close();
    },
  };
}

const browserName = basename(browser).startsWith("firefox") ? "Firefox" : "Chromium";
const profile = await mkdtemp(join(tmpdir(), "uriparse-"));
const tab = await (browserName === "Firefox" ? firefox : chromium)(browser, profile);
const { valueOf } = tab;

const READY = `new Promise((resolve) => {
  const look = () => document.readyState === "complete" && (document.documentElement.dataset.ready || document.querySelector("#status.bad"))
    ? resolve(document.documentElement.dataset.ready ?? document.querySelector("#status").textContent) : setTimeout(look, 20);
  look();
})`;
let opening = 0;

// Opens the page with this fragment, and returns what it shows.
async function opened(state) {
  opening += 1;
  await tab.navigate(`${page}?${opening}#${state}`);
  const ready = await valueOf(READY);
  assert.equal(ready, "true", ready);
  return shown();
}

// Changes the fragment of the open page, which takes less time.
async function moved(state) {
  await valueOf(`new Promise((resolve) => {
    addEventListener("hashchange", () => setTimeout(resolve), { once: true });
    location.hash = ${JSON.stringify(`#${state}`)};
  })`);
  return shown();
}

function shown() {
  return valueOf(`(() => {
    const at = (id) => document.getElementById(id);
    const fields = ["text", "base", "other"];
    const texts = Object.fromEntries(["text-mirror", "text-spelled", "verdict", "call", "browser", "normal", "base-mirror", "base-spelled", "target", "other-mirror", "other-spelled", "equal"].map((id) => [id, at(id).textContent]));
    const differs = [...document.querySelectorAll("td.differs")].map((cell) => [cell.parentNode.querySelector("th").textContent, cell.textContent,
      cell.parentNode.nextSibling.textContent]);
    const html = Object.fromEntries(fields.map((id) => [id, at(id + "-mirror").innerHTML]));
    return { ...texts, html, differs, values: fields.map((id) => at(id).value), invalid: fields.filter((id) => at(id).ariaInvalid === "true"),
      link: at("state").hash, focus: document.activeElement.id };
  })()`);
}

let passed = 0;
let failed = 0;
async function test(name, body) {
  try {
    await body();
    passed += 1;
  } catch (error) {
    failed += 1;
    console.log(`page in ${browserName}: ${name}: ${error.message}`);
  }
}

// Writes a picture of the page to the folder for these.
async function shoot(picture) {
  if (shots) {
    await writeFile(join(shots, `${browserName}, ${picture}.png`), Buffer.from(await tab.shot(), "base64"));
  }
}

// rows: the state, and some of what is shown in it.
const ROWS = [
  ["text=http://u@h:8/a?q%23f", { verdict: "A URI.", invalid: [], normal: "http://u@h:8/a?q#f", "text-mirror": "http://u@h:8/a?q#f", "text-spelled": "" }],
  ["text=HTTP://h/a/../%257Eb", { normal: "http://h/~b" }],
  ["text=http://h/a%20b", { verdict: "Rejected at byte 10: invalid path character, a space (U+0020).", "text-mirror": "http://h/a b", "text-spelled": "http://h/a␣^b", invalid: ["text"] }],
  ["text=%20", { verdict: "Rejected at byte 0: invalid path character, a space (U+0020)." }],
  ["text=1:2", { verdict: "Rejected at byte 0: schemeless path URI reference starts with colon segment." }],
  ["text=http://h/a%0Ab", { values: ["http://h/a\nb", "", ""], verdict: "Rejected at byte 10: invalid path character, a newline (U+000A).", "text-spelled": "http://h/aU+000A^b" }],
  ["text=http://h/a%09b", { verdict: "Rejected at byte 10: invalid path character, a tab (U+0009).", "text-spelled": "http://h/aU+0009^b" }],
  ["text=http://h/%E2%80%AEb", { verdict: "Rejected at byte 9: invalid path character, U+202E.", "text-spelled": "http://h/U+202E^b" }],
  ["text=http://h/b%E2%80%8B", { verdict: "Rejected at byte 10: invalid path character, a zero-width space (U+200B)." }],
  ["text=http://h/e%CC%81%F0%9F%98%80", { "text-spelled": "http://h/eU+0301^😀" }],
  [`text=http://h/${"a".repeat(100)}{${"b".repeat(100)}`, { "text-spelled": `…${"a".repeat(16)}{^${"b".repeat(15)}…` }],
  ["text=../g&base=http://a/b/c/d", { target: "→ http://a/b/g", invalid: [] }],
  ["text=g&base=/a", { target: "Rejected: the base has no scheme.", invalid: ["base"] }],
  ["text=g&base=s:a%20b", { target: "Rejected at byte 3: invalid path character, a space (U+0020).", "base-spelled": "s:a␣^b", invalid: ["base"] }],
  ["text=a%20b&base=s:a&other=a", { target: "No target: the text is rejected.", equal: "No comparison: the text is rejected.", invalid: ["text"] }],
  ["text=a", { target: "No target: the base is empty.", equal: "No comparison: the other text is empty." }],
  ["text=http://h/~&other=HTTP://H/%257e", { equal: "equal" }],
  ["text=a&other=b", { equal: "different" }],
  ["text=/b&other=/a/../b", { equal: "different: the normal forms are the same text, but dot segments count" }],
  ["text=//1.2.3.4&other=//%2531.2.3.4", { equal: "different: the normal forms are the same text, but a name is no address" }],
  ["text=a&other=b%5B", { equal: "Rejected at byte 1: invalid path character.", "other-spelled": "b[^", invalid: ["other"] }],
  ["text=", { values: ["", "", ""], link: "#text=", verdict: "A relative reference.", normal: "Empty, as the text is." }],
  ["text=a?b+c%2B&base=%zz", { values: ["a?b+c+", "%zz", ""], link: "#text=a%3Fb%2Bc%2B&base=%25zz" }],
  ["", { values: ["HTTP://user@Example.com:80/a/../%7Eb?q=1#top", "http://example.com/docs/", "http://user@example.com:80/~b?q=1#top"],
    normal: "http://user@example.com:80/~b?q=1#top", equal: "different: the normal forms are the same text, but dot segments count", call: "new URL(text, base)",
    browser: "new URL of this browser differs from the normal form of the target in 2 components." }],
];

// The state, the differences between the normal form and URL, and what is said of URL.
const KNOWN = "http, https, ws, wss, ftp and file";
const differsIn = (count) => `new URL of this browser differs from the normal form in ${count}.`;
const DIFFERENCES = [
  ["text=HTTP://H/a/../b?c%23d", [], differsIn("no components")],
  ["text=http://h:80/", [["port", "absent", "80 in the normal form. It leaves out the default port of the scheme."]], differsIn("one component")],
  ["text=http://h:8080/", [], differsIn("no components")],
  ["text=http://@h/", [["username", "absent", "Empty in the normal form. It drops empty user information."]], differsIn("one component")],
  ["text=http://u:@h/", [["password", "absent", "Empty in the normal form. It drops an empty password."]], differsIn("one component")],
  ["text=http://u;x@h/", [["username", "u%3Bx", "u;x in the normal form. It percent-encodes more characters."]], differsIn("one component")],
  ["text=http://h/%257e", [["path", "/%7e", "/~ in the normal form. It keeps percent-encoded octets as they are."]], differsIn("one component")],
  ["text=http://h/?'", [["query", "%27", "' in the normal form. It percent-encodes more characters."]], differsIn("one component")],
  ["text=x:a/../b", [["path", "a/../b", "/b in the normal form. It keeps dot segments in a path that begins with no slash if it doesn't know the scheme."]], differsIn("one component")],
  ["text=x:/a/../b", [], differsIn("no components")],
  ["text=http://2130706433/", [["host", "127.0.0.1", "2130706433 in the normal form. It reads numbers as an IPv4 address."]], differsIn("one component")],
  ["text=http:///a/b", [["host", "a", `Empty in the normal form. In ${KNOWN} it finds the host after any number of slashes.`],
    ["path", "/b", "/a/b in the normal form. It took the host out of the path."]], differsIn("2 components")],
  ["text=file://localhost/a", ...(browserName === "Chromium" ? [[], differsIn("no components")]
    : [[["host", "empty", "localhost in the normal form. In a file URL it takes the host localhost for an empty one."]], differsIn("one component")])],
  ["text=http:a&base=http://h/b/", [["host", "h", `Absent in the normal form. In ${KNOWN} it ignores a scheme that is that of the base.`],
    ["path", "/b/a", "a in the normal form. It resolves the path against the base."]], differsIn("2 components").replace("normal form", "normal form of the target")],
  ["text=../a&base=http://h/b/c/d", [], differsIn("no components").replace("normal form", "normal form of the target")],
  ["text=../a", [], "new URL of this browser rejects it. It takes no relative reference without a base."],
  ["text=../a&base=x:b", [], "new URL of this browser rejects it. It can't resolve the reference against this base."],
  ["text=http:", [], "new URL of this browser rejects it. It needs a host in http, https, ws, wss and ftp."],
  ["text=http://[v1.a]/", [], "new URL of this browser rejects it. It knows no address of a later version than IPv6."],
  ["text=http://a%252fb/", [], "new URL of this browser rejects it. It takes this host for an IPv4 address or a domain name, and it is neither."],
  ["text=http://good.example%5C@evil.example/", [], `new URL of this browser accepts it. In ${KNOWN} it reads a backslash as a slash.`],
  ["text=http://a@b@c/", [], "new URL of this browser accepts it. It reads all that precedes the last @ as user information."],
  ["text=ht%09tp://h/", [], "new URL of this browser accepts it. It removes tabs and newlines."],
  ["text=http://h/%20", [], "new URL of this browser accepts it. It removes spaces and control characters at both ends."],
  ["text=http://h/%25", [], "new URL of this browser accepts it. It keeps a % that is followed by no two hexadecimal digits."],
  ["text=http://%C3%A9.example/", [], "new URL of this browser accepts it. It writes a host in Unicode as a name in ASCII (IDNA)."],
  ["text=http://h/a%20b", [], "new URL of this browser accepts it. It keeps or percent-encodes what RFC 3986 rejects."],
  ["text=http://h:70000/", [], "new URL of this browser rejects it too."],
];
for (const [state, expected] of ROWS) {
  await test(state, async () => {
    const all = await opened(state);
    assert.deepEqual(Object.fromEntries(Object.keys(expected).map((name) => [name, all[name]])), expected);
  });
}

for (const [state, differs, browser] of DIFFERENCES) {
  await test(`new URL: ${state}`, async () => {
    const all = await moved(state);
    assert.deepEqual([all.differs, all.browser], [differs, browser]);
  });
}

await test("no table of components that both reject", async () => {
  for (const [text, isHidden] of [["http://h:70000/", true], ["http://h/a%20b", false], ["../a", false]]) {
    await opened(`text=${text}`);
    assert.equal(await valueOf('document.getElementById("table").hidden'), isHidden);
  }
});

await test("each component is marked in its field", async () => {
  const { html } = await opened("text=http://u:p@h:8/a?q%23f&base=s:a&other=//h");
  assert.deepEqual(html, {
    text: '<b class="scheme">http</b>://<b class="username">u</b>:<b class="password">p</b>@<b class="host">h</b>:<b class="port">8</b><b class="path">/a</b>?<b class="query">q</b>#<b class="fragment">f</b>',
    base: '<b class="scheme">s</b>:<b class="path">a</b>', other: '//<b class="host">h</b>' });
  assert.equal((await opened("text=http://h/a%20b")).html.text, 'http://h/a<b class="fault"> </b>b');
});

// The colours stand where the field's own text is, however long it is.
for (const [kind, text] of [["short", "http://h/a"], ["long", `http://h/${"a-b/".repeat(100)}`], ["right-to-left", "http://h/%D7%90%D7%91%D7%92/x/".repeat(9)], ["last line", "a%0A"]]) {
  await test(`a field and its colours: ${kind}`, async () => {
    await opened(`text=${text}`);
    const [field, mirror] = await valueOf(`["text", "text-mirror"].map((id) => {
      const { clientWidth, clientHeight, scrollHeight } = document.getElementById(id);
      const { fontFamily, fontSize, lineHeight, letterSpacing, padding, borderWidth, whiteSpace } = getComputedStyle(document.getElementById(id));
      return [clientWidth, clientHeight, scrollHeight, fontFamily, fontSize, lineHeight, letterSpacing, padding, borderWidth, whiteSpace];
    })`);
    assert.deepEqual(field, mirror);
    assert.equal(field[1], field[2]);
    await shoot(`${kind} field`);
  });
}

// The contrast of two colours by WCAG: that of each coloured text to what is behind it.
const CONTRASTS = `(() => {
  const light = (colour) => {
    const [red, green, blue] = colour.match(/[\\d.]+/g).map(Number).map((value) => value / 255).map((value) => (value <= 0.03928 ? value / 12.92 : ((value + 0.055) / 1.055) ** 2.4));
    return 0.2126 * red + 0.7152 * green + 0.0722 * blue;
  };
  const behind = (node) => {
    const { backgroundColor } = getComputedStyle(node);
    return backgroundColor !== "rgba(0, 0, 0, 0)" ? backgroundColor : node === document.documentElement ? "rgb(255, 255, 255)" : behind(node.parentNode);
  };
  const field = getComputedStyle(document.getElementById("text")).backgroundColor;
  return [...document.querySelectorAll(".mirror b, td, th, td small, code, p, .wrong")].filter((node) => node.checkVisibility()).map((node) => {
    const [one, other] = [light(getComputedStyle(node).color), light(node.closest(".mirror") ? field : behind(node))].sort((a, b) => b - a);
    return [node.className || node.nodeName, (one + 0.05) / (other + 0.05)];
  });
})()`;
for (const isDark of tab.dark ? [false, true] : [false]) {
  for (const state of ["", "text=http://u:p@h:80/a?q%23f", "text=http://h/a%20b&base=s:%20&other=%5B"]) {
    await test(`contrast ${isDark ? "dark" : "light"}: ${state}`, async () => {
      await tab.dark?.(isDark);
      await opened(state);
      const found = await valueOf(CONTRASTS);
      await shoot(`${isDark ? "dark" : "light"} ${state.length}`);
      await tab.dark?.(false);
      assert(found.length > 20);
      assert.deepEqual(found.filter(([, contrast]) => contrast < 4.5), []);
    });
  }
}

await test("the Tab key leads from field to field", async () => {
  await opened("text=a");
  const order = [];
  await valueOf('document.getElementById("text").focus()');
  for (let step = 0; step < 4; step += 1) {
    order.push((await shown()).focus);
    await tab.key("Tab");
  }
  assert.deepEqual(order, ["text", "base", "other", ""]);
  assert.equal(await valueOf("document.activeElement.nodeName"), "BUTTON");
});

await test("a long text stands once", async () => {
  const run = "a".repeat(1000);
  const { values, normal, target } = await opened(`text=http://h/${run}&base=s:`);
  assert.deepEqual([values[0], normal, target], [`http://h/${run}`, "the text itself", "→ the text itself"]);
  assert.equal(await valueOf(`document.body.innerText.split("${run}").length`), 2);
  const path = await valueOf('document.querySelector("#components td.path").textContent');
  assert.equal(path, `/${run.slice(0, 47)}…${run.slice(0, 24)} (1,001 characters)`);
  assert.equal((await opened(`text=HTTP://h/${run}`)).normal, `http://h/${run}`);
});

// The caret is below the middle of the first wrong character, whose neighbours in the text stand on both sides of it.
const BOXES = `(() => {
  const wrong = document.querySelector("#text-spelled .wrong");
  const [before, character, caret, after] = [wrong.previousSibling, wrong, wrong.querySelector("i"), wrong.nextSibling].map((node) => {
    if (node.getBoundingClientRect) { return node.getBoundingClientRect(); }
    const range = document.createRange();
    range.selectNode(node);
    return range.getBoundingClientRect();
  });
  return { width: character.width, off: caret.x + caret.width / 2 - character.x - character.width / 2, below: caret.y - character.bottom,
    before: character.x - before.right, after: after.x - character.right };
})()`;
const DRAWN = [["right-to-left", "http://h/%D7%90%D7%91%D7%92/x"], ["invisible", "http://h/%E2%80%AEtxt.exe"], ["wide", "http://h/%E6%BC%A2%E5%AD%97"], ["none", "http://h/a%20b"]];
for (const [kind, text] of DRAWN) {
  await test(`the caret of a ${kind} character`, async () => {
    await opened(`text=${text}`);
    const { width, ...distances } = await valueOf(BOXES);
    assert(width > 4 && Object.values(distances).every((distance) => Math.abs(distance) < 2), JSON.stringify({ width, ...distances }));
    await shoot(`${kind} character`);
  });
}

await test("what is typed and pasted", async () => {
  await opened("text=");
  await valueOf('document.getElementById("text").focus()');
  await tab.insert("a");
  await tab.key("Enter");
  assert.equal((await shown()).values[0], "a");
  await tab.insert("\nb");
  assert.equal((await shown()).verdict, "Rejected at byte 1: invalid path character, a newline (U+000A).");
});

await test("an example gets the focus", async () => {
  await opened("text=");
  await valueOf('document.querySelectorAll("#examples button")[2].click()');
  const { values, focus, target } = await shown();
  assert.deepEqual([values[1], focus, target], ["http://a/b/c/d;p?q", "text", "→ http://a/g?y#s"]);
});

console.log(`page in ${browserName}: ${passed} passed, ${failed} failed`);
// A browser that doesn't end is ended, with its processes.
const ended = new Promise((resolve) => { child.on("exit", resolve); });
await tab.close();
const timer = setTimeout(endBrowser, 10_000);
await ended;
clearTimeout(timer);
await rm(profile, { recursive: true, force: true, maxRetries: 5 });
process.exit(failed ? 1 : 0);
