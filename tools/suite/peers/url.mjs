// Answers of Node's URL, a line for a line. It reads no relative reference without a base.
import {readFileSync} from "node:fs";

const textOf = (field) => field.replace(/(\\x[0-9a-f]{2})+/g, (found) => Buffer.from(found.replaceAll("\\x", ""), "hex").toString());
const fieldOf = (text) => text === null ? "\\-" : Array.from(Buffer.from(text),
  (byte) => byte >= 0x20 && byte < 0x7f && byte !== 0x5c ? String.fromCharCode(byte) : `\\x${byte.toString(16).padStart(2, "0")}`).join("");

// An empty query or fragment isn't told from an absent one.
function reading(text) {
  const url = new URL(text);
  const hasAuthority = url.href.slice(url.protocol.length).startsWith("//");
  const user = url.username || url.password ? url.username + (url.password && `:${url.password}`) : null;
  return [url.protocol.slice(0, -1), user, hasAuthority ? url.hostname : null, url.port || null, url.pathname, url.search.slice(1) || null, url.hash.slice(1) || null];
}

function answerTo([chapter, ...fields]) {
  const texts = fields.map(textOf);
  if (!["reading", "resolution"].includes(chapter) || (chapter === "reading" && !/^[^:/?#]+:/.test(texts[0]))) {
    return "?";
  }
  try {
    return chapter === "reading" ? `=${reading(texts[0]).map(fieldOf).join("\t")}` : `=${fieldOf(new URL(texts[1], texts[0]).href)}`;
  } catch {
    return "!";
  }
}

const lines = readFileSync(0, "latin1").split("\n").slice(0, -1);
process.stdout.write(lines.map((line) => `${answerTo(line.split("\t"))}\n`).join(""));
