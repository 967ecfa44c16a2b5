// The suite's answers by the module for JavaScript, a line for a line.
import {readFileSync} from "node:fs";
import {load, URIParseError} from "../../bindings/web/uriparse.mjs";

const uris = await load();
const NAMES = ["scheme", "username", "password", "host", "port", "path", "query", "fragment"];
// Which input each argument is. The two of isWithin stand the other way round than those of relativize.
const INPUTS = {text: 0, left: 0, right: 1, base: 0, reference: 1, uri: 1};
const INPUTS_WITHIN = {uri: 0, base: 1};

const textOf = (field) => field === "\\-" ? null
  : field.replace(/(\\x[0-9a-f]{2})+/g, (found) => Buffer.from(found.replaceAll("\\x", ""), "hex").toString());
const fieldOf = (text) => text === null ? "\\-" : Array.from(Buffer.from(text),
  (byte) => byte >= 0x20 && byte < 0x7f && byte !== 0x5c ? String.fromCharCode(byte) : `\\x${byte.toString(16).padStart(2, "0")}`).join("");

function reading(text) {
  const parts = uris.parse(text);
  const user = parts.password === null ? parts.username : `${parts.username}:${parts.password}`;
  return [parts.scheme, user, parts.host, parts.port, parts.path, parts.query, parts.fragment, parts.hostKind].map(fieldOf).join("\t");
}

function edited(text, fields) {
  const changes = {};
  NAMES.forEach((name, index) => {
    if (fields[index] !== "") {
      changes[name] = textOf(fields[index].slice(1));
    }
  });
  return fieldOf(uris.replace(text, changes));
}

const calls = {
  reading,
  equality: (left, right) => `${uris.equal(left, right)}\t${uris.compare(left, right)}`,
  normal: (text) => fieldOf(uris.normalize(text)),
  resolution: (base, reference) => fieldOf(uris.resolve(base, reference)),
  relative: (base, uri) => fieldOf(uris.relativize(base, uri)),
  within: (uri, base) => `${uris.isWithin(uri, base)}`,
};

// A rejection: the input, the component and, in a reading, how many bytes precede the wrong one.
function rejection(chapter, error) {
  const input = (chapter === "within" ? INPUTS_WITHIN : INPUTS)[error.argument] ?? 0;
  const told = [input, error.component ?? "none"];
  if (chapter === "reading") {
    told.push(Buffer.byteLength(error.text.slice(0, error.place)));
  }
  return `!${told.join("\t")}`;
}

function answerTo([chapter, ...fields]) {
  try {
    return `=${chapter === "edits" ? edited(textOf(fields[0]), fields.slice(1)) : calls[chapter](...fields.map(textOf))}`;
  } catch (error) {
    if (error instanceof URIParseError) {
      return rejection(chapter, error);
    }
    throw error;
  }
}

const lines = readFileSync(0, "latin1").split("\n").slice(0, -1);
process.stdout.write(lines.map((line) => `${answerTo(line.split("\t"))}\n`).join(""));
