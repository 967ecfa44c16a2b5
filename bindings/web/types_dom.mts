// A user of the types with those of the DOM, which `bindings/web/run` has the TypeScript compiler check.
import { load, type URIs } from "./uriparse.mjs";

const sources: Parameters<typeof load>[] = [
  [new URL("uriparse.wasm", import.meta.url)], [fetch("uriparse.wasm")], [new Response()], [new Uint8Array()],
  [new WebAssembly.Module(new Uint8Array())],
];

export async function main(): Promise<string> {
  const uris: URIs = await load(...sources[0]);
  return uris.normalize(location) + uris.resolve(new URL(document.baseURI), "a");
}
