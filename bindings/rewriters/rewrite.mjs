// Makes the links of a page absolute: node rewrite.mjs BASE < PAGE. A link that is no URI stays.
import { readFileSync } from "node:fs";
import { load } from "uriparse-rattle";

const uris = await load();
const absolute = (attribute, link) => {
    try {
        return `href="${uris.resolve(process.argv[2], uris.escape(link))}"`;
    } catch {
        return attribute;
    }
};
process.stdout.write(readFileSync(0, "utf8").replace(/href="([^"]*)"/g, absolute));
