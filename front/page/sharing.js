// A program in the address of the page, behind `#`: an example by its name, and any other text compressed and in base64, with the
// letters that an address takes as they are.
var ia64 = globalThis.ia64 = globalThis.ia64 || {};
(function () {
  "use strict";

  const { why_long, LONGEST } = ia64.reading;

  const FORM = "deflate-raw";
  // Longer ones are cut off by some of what addresses are sent with.
  const LONGEST_LINK = 8000;

  function base64_of(bytes) {
    return btoa(Array.from(bytes, (byte) => String.fromCharCode(byte)).join(""))
      .replace(/\+/g, "-").replace(/\//g, "_").replace(/=+$/, "");
  }

  async function fragment_of(text, examples) {
    const example = examples.find((each) => each.text === text);
    if (example) { return `example=${example.name}`; }
    return `text=${base64_of(await ia64.engine.packed(new TextEncoder().encode(text), FORM))}`;
  }

  // The text that a fragment has; where it has none that the page takes, null, and why, but for an empty one.
  async function text_of(fragment, examples) {
    const [kind, value] = fragment.replace(/^#/, "").split("=");
    if (!kind) { return { text: null, why: "" }; }
    if (kind === "example") {
      const found = examples.find((each) => each.name === value);
      return found ? { text: found.text, why: "" } : { text: null, why: `this page has no example ${value}` };
    }
    try {
      const bytes = ia64.engine.bytes_of(value.replace(/-/g, "+").replace(/_/g, "/"));
      const text = await ia64.engine.unpacked_text(bytes, FORM, LONGEST), why = why_long(text);
      return { text: why ? null : text, why };
    } catch (fault) {
      return { text: null, why: "this link has no whole text in it" };
    }
  }

  ia64.sharing = { fragment_of, text_of, LONGEST_LINK };
}());
