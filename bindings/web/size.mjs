// Whether README.md says how large the module is, within a twentieth, also with gzip.
//
//     node bindings/web/size.mjs MODULE
import { readFileSync } from "node:fs";
import { gzipSync } from "node:zlib";

const module = readFileSync(process.argv[2]);
const page = readFileSync(new URL("README.md", import.meta.url), "utf8");
const said = page.match(/about (\d+) kB, (\d+) kB with gzip/).slice(1).map(Number);
const found = [module, gzipSync(module, { level: 9 })].map(({ length }) => length / 1000);
if (said.some((size, at) => Math.abs(size - found[at]) > found[at] / 20)) {
    console.log(`README.md says ${said.join(" and ")} kB, and the module has ${found.map((size) => size.toFixed()).join(" and ")} kB`);
    process.exitCode = 1;
}
