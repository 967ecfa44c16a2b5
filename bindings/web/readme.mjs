// Makes modules of the code of README.md, which throw an error if a line isn't as the page says:
//
//     node bindings/web/readme.mjs README.mjs BUNDLE.mjs
//
// `EXPRESSION;  // => VALUE` has this value, and `EXPRESSION;  // throws MESSAGE` throws an error with this message. Code that
// imports the package goes to BUNDLE.mjs, and all other blocks to README.mjs, which is run in the folder of uriparse.mjs. The page's redirect
// check is also tried on the rows of tests/hostile.tsv.
import { readFileSync, writeFileSync } from "node:fs";

const [readme, bundle] = process.argv.slice(2);
const page = readFileSync(new URL("./README.md", import.meta.url), "utf8");
const HELPERS = `
function shown(value) {
  const isRecord = value && typeof value === "object" && !Array.isArray(value);
  return JSON.stringify(isRecord ? Object.entries(value).sort() : value);
}
function same(value, expected) {
  if (shown(value) !== shown(expected)) {
    throw new Error(\`\${shown(value)}, not \${shown(expected)}\`);
  }
}
function fails(call, message) {
  let error;
  try {
    call();
  } catch (thrown) {
    error = thrown;
  }
  same(error?.message, message);
}
`;

let lines = 0;
function checked(block) {
  return block.replace(/^(\S.*); +\/\/ (=>|throws) (.*)$/gm, (line, code, kind, value) => {
    lines += 1;
    return kind === "=>" ? `same(${code}, ${value});` : `fails(() => ${code}, ${JSON.stringify(value)});`;
  });
}

// Calls of the page's redirect check, one for each row.
const tsv = readFileSync(new URL("../../tests/hostile.tsv", import.meta.url), "utf8");
const plain = (field) => JSON.stringify(field.replace(/\\x(..)/g, (_, digits) => String.fromCharCode(parseInt(digits, 16))));
const redirects = tsv.split("\n").map((line) => line.split("\t")).filter(([, call]) => call?.startsWith("redirect"));
const tried = redirects.map(([, call, text, other, answer]) =>
  `same([${plain(text)}, allowedTarget(${plain(other)}, ${plain(text)}, ${call === "redirect" ? null : plain(other)}) !== null], [${plain(text)}, ${answer === "yes"}]);`);

const blocks = [...page.matchAll(/^```js\n(.*?)^```$/gms)].map(([, block]) => block);
const isBundled = (block) => block.includes(' from "uriparse-rattle";');
writeFileSync(bundle, blocks.filter(isBundled).map(checked).join("\n") + HELPERS);
writeFileSync(readme, blocks.filter((block) => !isBundled(block)).map(checked).concat(tried).join("\n") + HELPERS);
console.log(`${blocks.length} blocks with ${lines} lines that are checked, ${tried.length} redirects`);
if (lines < 20 || tried.length < 60) {
  process.exit(1);
}
