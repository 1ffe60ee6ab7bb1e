// Positions in a string: UTF-16 units, as JavaScript counts them, and bytes of its UTF-8.

// A surrogate without its partner.
const LONE = /[\ud800-\udbff](?![\udc00-\udfff])|(?<![\ud800-\udbff])[\udc00-\udfff]/;

/** Returns the index of the first surrogate without its partner, or -1. */
export const loneSurrogate = (text) =>
  text.isWellFormed?.() ? -1 : text.search(LONE);

/** Converts byte offsets of a text's UTF-8, each not below the last, to indices of the text. */
export class Cursor {
  #text;
  #index = 0;
  #offset = 0;

  constructor(text) {
    this.#text = text;
  }

  indexOf(offset) {
    while (this.#offset < offset) {
      const unit = this.#text.charCodeAt(this.#index);
      const isPair = unit >= 0xd800 && unit < 0xdc00;
      this.#offset += unit < 0x80 ? 1 : unit < 0x800 ? 2 : isPair ? 4 : 3;
      this.#index += isPair ? 2 : 1;
    }
    return this.#index;
  }
}

/** Returns the length of a text in UTF-8. */
export function byteLength(text) {
  let length = text.length;
  for (let i = 0; i < text.length; i++) {
    const unit = text.charCodeAt(i);
    // Of a pair of surrogates each unit counts for two bytes.
    if (unit >= 0x80) length += unit < 0x800 || (unit >= 0xd800 && unit < 0xe000) ? 1 : 2;
  }
  return length;
}
