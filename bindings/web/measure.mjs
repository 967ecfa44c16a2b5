// Measures the module, for the tables of README.md.
//
//     node bindings/web/measure.mjs MODULE
import { readFile } from "node:fs/promises";
import { cpus } from "node:os";
import { pathToFileURL } from "node:url";
import { gzipSync } from "node:zlib";
import { load } from "./uriparse.mjs";

const COUNT = 10_000;
const RUNS = 40;
const BASE = "http://www.example.com/a/b/c/d?q";
const APPENDIX_B = /^(([^:/?#]+):)?(\/\/([^/?#]*))?([^?#]*)(\?([^#]*))?(#(.*))?/;

// The same random numbers in each run.
let state = 1;
function below(bound) {
  state = (Math.imul(state, 1664525) + 1013904223) >>> 0;
  return Math.floor(state / 2 ** 32 * bound);
}
const one = (list) => list[below(list.length)];
const some = (most, made) => Array.from({ length: 1 + below(most) }, made);
const word = () => some(12, () => one("abcdefghijklmnopqrstuvwxyz0123456789-_.~")).join("");
const escaped = () => (below(8) === 0 ? `${word()}%${one(["20", "7E", "c3%a9", "2F"])}` : word());
const path = () => some(8, () => (below(20) === 0 ? ".." : escaped())).join("/");
const query = () => (below(2) === 0 ? "" : `?${some(6, () => `${word()}=${escaped()}`).join("&")}`);
const fragment = () => (below(4) === 0 ? `#${word()}` : "");
const front = () => `${one(["http", "https", "HTTPS"])}://www.${word()}.example${below(8) === 0 ? ":8080" : ""}/`;
const text = () => `${below(4) === 0 ? one(["", "/", "../"]) : front()}${path()}${query()}${fragment()}`;
const texts = Array.from({ length: COUNT }, text);

const bytes = await readFile(process.argv[2]);
const uris = await load(pathToFileURL(process.argv[2]));
const calls = {
  "`isURI`": (text) => uris.isURI(text),
  "`fault`": (text) => uris.fault(text),
  "`hash`": (text) => uris.hash(text),
  "`parse`": (text) => uris.parse(text),
  "`resolve` against a base": (text) => uris.resolve(BASE, text),
  "`normalize`": (text) => uris.normalize(text),
  "`new URL(text, base)`": (text) => new URL(text, BASE),
  "the regular expression of RFC 3986, appendix B, which checks nothing": (text) => APPENDIX_B.exec(text),
};

// The least time of a run, in milliseconds.
function least(call) {
  let time = Infinity;
  for (let run = 0; run < RUNS; run += 1) {
    const begin = performance.now();
    texts.forEach(call);
    time = Math.min(time, performance.now() - begin);
  }
  return time;
}

const length = texts.reduce((sum, text) => sum + text.length, 0) / COUNT;
console.log(`Node ${process.versions.node}, ${cpus()[0].model}`);
const relative = texts.filter((text) => !uris.isURI(text)).length;
console.log(`${COUNT} texts of ${length.toFixed()} bytes on average, ${relative} relative; the best of ${RUNS} runs`);
const [size, packed] = [bytes, gzipSync(bytes, { level: 9 })].map(({ length }) => length.toLocaleString("en"));
console.log(`the module has ${size} bytes, ${packed} with gzip\n`);
console.log("| | thousand a second |\n|---|---:|");
for (const [name, call] of Object.entries(calls)) {
  console.log(`| ${name} | ${Math.round(COUNT / least(call)).toLocaleString("en")} |`);
}
