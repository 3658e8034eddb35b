// <qoi-img src="picture.qoi" alt="A picture"></qoi-img> shows a QOI picture as <img> does. bindings/README.md says how to use it.

import { QoiError, checkFile, decode, fetchFile } from "./qoi.js";

// Each browser's canvas holds so many pixels, and such sides; whether it holds more is tried.
const SURE_SIDE = 4096;

const STYLE = `
  :host { display: inline-block; }
  :host([hidden]) { display: none; }
  canvas { display: block; width: 100%; height: 100%; object-fit: inherit; object-position: inherit; }
`;

/** A canvas of this size, or the refusal of one that this browser can't hold. */
export function canvasFor(width, height) {
  const canvas = Object.assign(document.createElement("canvas"), { width, height });
  if (!holds(canvas, width, height)) {
    throw new QoiError("TooLargeForCanvas", `${width}x${height} is more than a canvas of this browser holds`);
  }
  return canvas;
}

/** Whether a pixel that is put into the last corner is there. */
function holds(canvas, width, height) {
  if (Math.max(width, height) <= SURE_SIDE) return true;
  try {
    const context = canvas.getContext("2d");
    context.fillRect(width - 1, height - 1, 1, 1);
    const [, , , alpha] = context.getImageData(width - 1, height - 1, 1, 1).data;
    context.clearRect(width - 1, height - 1, 1, 1);
    return alpha > 0;
  } catch {
    return false;
  }
}

/**
 * A picture, shown as `<img>` shows one: its size, `alt`, and the events `load` and `error` (an `ErrorEvent` with the `error`). It is
 * loaded while it is in a document; a new `src`, or taking it out, drops what was on its way.
 */
export class QoiImage extends HTMLElement {
  static observedAttributes = ["src", "alt", "width", "height"];

  #internals = this.attachInternals();
  #sizes = new CSSStyleSheet(); // what the attributes say; a style of the page goes before it
  #loading = null; // an AbortController, while an answer is awaited
  #answered = false; // whether there was one for this src
  #canvas = null;

  constructor() {
    super();
    const style = new CSSStyleSheet();
    style.replaceSync(STYLE);
    this.attachShadow({ mode: "open" }).adoptedStyleSheets = [style, this.#sizes];
  }

  get src() {
    const written = this.getAttribute("src");
    return written && URL.canParse(written, this.baseURI) ? new URL(written, this.baseURI).href : (written ?? "");
  }
  set src(value) {
    this.setAttribute("src", value);
  }
  get alt() {
    return this.getAttribute("alt") ?? "";
  }
  set alt(value) {
    this.setAttribute("alt", value);
  }
  /** The width as it is shown, in pixels of CSS; setting it sets the attribute. So does `height`. */
  get width() {
    return this.#canvas?.clientWidth ?? 0;
  }
  set width(value) {
    this.setAttribute("width", value);
  }
  get height() {
    return this.#canvas?.clientHeight ?? 0;
  }
  set height(value) {
    this.setAttribute("height", value);
  }
  /** The picture's own width in pixels, 0 if none is shown. So is `naturalHeight`. */
  get naturalWidth() {
    return this.#canvas?.width ?? 0;
  }
  get naturalHeight() {
    return this.#canvas?.height ?? 0;
  }
  /** Whether no answer is awaited. */
  get complete() {
    return !this.#loading;
  }

  connectedCallback() {
    // What was set before the element was defined
    for (const name of QoiImage.observedAttributes.filter((it) => Object.hasOwn(this, it))) {
      const value = this[name];
      delete this[name];
      this[name] = value;
    }
    this.#describe();
    if (!this.#answered && !this.#loading) this.#start();
  }

  disconnectedCallback() {
    this.#stop();
  }

  attributeChangedCallback(name) {
    if (name === "src") this.#start();
    else if (name === "alt") this.#describe();
    else this.#size();
  }

  /** Drops the answer that is awaited. */
  #stop() {
    this.#loading?.abort();
    this.#loading = null;
  }

  async #start() {
    this.#stop();
    this.#answered = false;
    if (!this.hasAttribute("src")) this.#show(null);
    if (!this.hasAttribute("src") || !this.isConnected) return;
    const loading = (this.#loading = new AbortController());
    let canvas = null;
    let event = new Event("load");
    try {
      canvas = await draw(this.getAttribute("src") && this.src, loading.signal);
    } catch (error) {
      event = new ErrorEvent("error", { error, message: error.message });
    }
    if (loading !== this.#loading) return;
    this.#loading = null;
    this.#answered = true;
    this.#show(canvas);
    this.dispatchEvent(event);
  }

  /** Shows a picture or, without one, the words in place of it. */
  #show(canvas) {
    this.#canvas = canvas;
    this.#size();
    this.shadowRoot.replaceChildren(canvas ?? this.alt);
  }

  /** Tells those who don't see the picture what it shows: nothing of importance if `alt` is empty. */
  #describe() {
    this.#internals.role = this.getAttribute("alt") === "" ? "presentation" : "img";
    this.#internals.ariaLabel = this.alt || null;
    if (this.#answered && !this.#canvas) this.#show(null);
  }

  #size() {
    const [width, height] = ["width", "height"].map((it) => /^\s*(\d+)(\.\d+)?(%?)/.exec(this.getAttribute(it)));
    const rules = [];
    if (width) rules.push(`width: ${css(width)}`);
    if (height) rules.push(`height: ${css(height)}`);
    // Room for a picture that isn't there yet, which then has its own ratio
    const keepsRoom = !this.#canvas && width && height && !width[3] && !height[3];
    if (keepsRoom) rules.push(`aspect-ratio: ${width[1]} / ${height[1]}`);
    this.#sizes.replaceSync(`:host { ${rules.join("; ")} }`);
  }
}

/** A length of an attribute, as CSS writes it. */
function css([, whole, part = "", percent]) {
  return `${whole}${part}${percent || "px"}`;
}

/** A canvas with the picture of an address. */
async function draw(address, signal) {
  if (!address) throw new QoiError("NotLoaded", "src is empty");
  const file = await fetchFile(address, signal);
  const { width, height } = checkFile(file);
  const canvas = canvasFor(width, height);
  const image = await decode(file, { signal });
  canvas.getContext("2d").putImageData(image, 0, 0);
  return canvas;
}

customElements.define("qoi-img", QoiImage);
