// How a browser compiles a module, and reads texts in its memory.

/** Returns what opens an instance of the module at an address. */
export async function compiled(url) {
  const answer = await fetch(url);
  if (!answer.ok) throw new Error(`cannot load ${url}: status ${answer.status}`);
  return openerOf(await WebAssembly.compile(await answer.arrayBuffer()));
}

export const openerOf = (module) => () => new WebAssembly.Instance(module).exports;

const decoder = new TextDecoder('utf-8', { ignoreBOM: true });
// A TextDecoder takes more time for so few bytes.
const FEW = 40;

export function reader(memory) {
  const bytes = new Uint8Array(memory);
  return (at, length, isAscii) => {
    const text = bytes.subarray(at, at + length);
    return isAscii && length <= FEW ? String.fromCharCode.apply(null, text) : decoder.decode(text);
  };
}

export const shortLength = 160;
