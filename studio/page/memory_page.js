// The 65,536 bytes of memory at a place, asked for once while its inputs stay.

const KEPT_PAGES = 4;

export class MemoryPages {
  constructor(session) {
    this.session = session;
    this.pages = new Map();
    session.addEventListener("edited", (event) => this.forgetAbove(event.detail.from));
  }

  forgetAbove(place) {
    for (const kept of [...this.pages.keys()]) if (kept > place) this.pages.delete(kept);
  }

  // A promise is what is kept, so that who asks at once asks once. One that was refused is asked for anew.
  at(place) {
    if (!this.pages.has(place)) {
      const [oldest] = this.pages.keys();
      if (this.pages.size >= KEPT_PAGES) this.pages.delete(oldest);
      const page = this.session.askAt(`page ${place}`, place).then(([bytes]) => bytes);
      this.pages.set(place, page);
      page.catch(() => { if (this.pages.get(place) === page) this.pages.delete(place); });
    }
    return this.pages.get(place);
  }
}

// The unsigned number of so many bytes at an address, the lowest first.
export function valueAt(page, address, width) {
  let value = 0;
  for (let at = width - 1; at >= 0; at -= 1) value = value * 256 + page[address + at];
  return value;
}

// An address in decimal or, with 0x, in hexadecimal; null where it is none.
export function parseAddress(text) {
  const word = text.trim();
  if (!/^(0x[0-9a-f]+|\d+)$/i.test(word)) return null;
  const address = Number(word);
  return address < 65536 ? address : null;
}

// A byte as a letter, where it is one.
export function letter(byte) {
  return byte >= 32 && byte < 127 ? String.fromCharCode(byte) : ".";
}

export function hexadecimal(number, digits) {
  return number.toString(16).padStart(digits, "0");
}
