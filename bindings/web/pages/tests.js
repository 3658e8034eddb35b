// What the tests ask of qoi.js and of <qoi-img> in a page: each function returns what is wrong, a text each.

// Counts the workers and their ends.
const workers = { started: 0, ended: 0 };
const OwnWorker = Worker;
globalThis.Worker = class extends OwnWorker {
  constructor(...given) {
    super(...given);
    workers.started++;
  }
  terminate() {
    workers.ended++;
    super.terminate();
  }
};
const { QoiError, checkFile, decode, isSupported, load, readHeader } = await import("/qoi.js");
await import("/qoi-img.js");

const CUT = ["UnexpectedBufferEnd", "unexpected input buffer end while decoding"];
const NO_QOI = ["InvalidMagic", "not a QOI file"];
const violations = [];
document.addEventListener("securitypolicyviolation", (event) => violations.push(event.violatedDirective));

async function bytesAt(path) {
  return new Uint8Array(await (await fetch(path)).arrayBuffer());
}

/** What a promise is rejected with, as its kind and words; else what it is kept by. */
async function outcome(promise) {
  try {
    return await promise;
  } catch (error) {
    return error instanceof QoiError ? [error.kind, error.message] : [error.name, error.message];
  }
}

function differs(what, found, wanted) {
  const [one, other] = [found, wanted].map((it) => JSON.stringify(it) ?? String(it));
  return one === other ? [] : [`${what}: ${one.slice(0, 200)} and not ${other.slice(0, 200)}`];
}

function sameBytes(what, found, wanted) {
  const at = wanted.findIndex((it, i) => found[i] !== it);
  return found.length === wanted.length && at < 0 ? [] : [`${what}: ${found.length} bytes, other at ${at}`];
}

/** Raw bytes in four channels. */
function opened(raw, channels) {
  if (channels === 4) return new Uint8ClampedArray(raw);
  return Uint8ClampedArray.from({ length: (raw.length / 3) * 4 }, (_, i) => (i % 4 === 3 ? 255 : raw[3 * (i >> 2) + (i % 4)]));
}

/** The event that an element has next. */
function nextEvent(element) {
  return new Promise((resolve) => {
    for (const name of ["load", "error"]) element.addEventListener(name, resolve, { once: true });
  });
}

/** An element in the page. */
function put(attributes) {
  const element = document.createElement("qoi-img");
  for (const [name, value] of Object.entries(attributes)) element.setAttribute(name, value);
  document.body.append(element);
  return element;
}

function pause(milliseconds) {
  return new Promise((resolve) => setTimeout(resolve, milliseconds));
}

const A_FILE = "/pictures/0/model.qoi";

globalThis.tests = {
  /** Each picture by each file: the pixels of `decode`, and a canvas of the element beside one on which the raw bytes were put. */
  async pictures() {
    const wrong = [];
    for (const { name, path, width, height, channels } of await (await fetch("/pictures.json")).json()) {
      const wanted = opened(await bytesAt(`${path}/raw`), channels);
      for (const kind of ["model", "plain", "library"]) {
        const file = `${path}/${kind}.qoi`;
        if (kind === "library" && !(await fetch(file)).ok) continue;
        const image = await outcome(load(file));
        wrong.push(...differs(`${name}, size`, [image.width, image.height], [width, height]));
        wrong.push(...sameBytes(`${name}, ${kind}`, image.data ?? [], wanted));
        const header = { width, height, channels, colorspace: channels === 4 ? "linear" : "srgb" };
        wrong.push(...differs(`${name}, header`, readHeader(await bytesAt(file)), header));
      }
      const element = put({ src: `${path}/model.qoi`, alt: name });
      const event = await nextEvent(element);
      wrong.push(...differs(`${name}, event`, event.type, "load"));
      const second = Object.assign(document.createElement("canvas"), { width, height }).getContext("2d");
      second.putImageData(new ImageData(wanted, width, height), 0, 0);
      const first = element.shadowRoot.querySelector("canvas").getContext("2d");
      const [found, other] = [first, second].map((it) => it.getImageData(0, 0, width, height).data);
      wrong.push(...sameBytes(`${name}, canvas`, found, other));
      element.remove();
    }
    return wrong;
  },

  /** The caller's bytes stay, in whatever they come. */
  async bytes() {
    const file = await bytesAt(A_FILE);
    const [wanted, longer] = [(await decode(file)).data, new Uint8Array(file.length + 20).fill(9)];
    longer.set(file, 5);
    const copy = longer.slice();
    const given = {
      "its buffer": file.buffer,
      "a view of its middle": longer.subarray(5, 5 + file.length),
      "bytes behind": longer.subarray(5),
      "a DataView": new DataView(longer.buffer, 5, file.length),
      "clamped bytes": new Uint8ClampedArray(longer.buffer, 5, file.length),
    };
    const wrong = [];
    for (const [name, it] of Object.entries(given)) wrong.push(...sameBytes(name, (await decode(it)).data, wanted));
    wrong.push(...sameBytes("after it", longer, copy));
    for (const it of ["qoif", 7, null, undefined, [113, 111, 105, 102], {}]) {
      wrong.push(...differs(`${it}`, (await outcome(decode(it)))[0], "TypeError"));
    }
    return wrong;
  },

  /** Files that end early. */
  async cuts() {
    const wrong = [];
    for (const path of [A_FILE, "/pictures/5/model.qoi", "/pictures/6/model.qoi"]) {
      const file = await bytesAt(path);
      for (let size = 0; size < Math.min(40, file.length); size++) {
        wrong.push(...differs(`${path} cut at ${size}`, await outcome(decode(file.subarray(0, size))), size < 4 ? NO_QOI : CUT));
      }
      for (const less of [1, 2, 7, 8, 9]) {
        wrong.push(...differs(`${path} without ${less}`, await outcome(decode(file.subarray(0, file.length - less))), CUT));
      }
    }
    return wrong;
  },

  /** Files that are none, each with its words. */
  async refusals() {
    const file = await bytesAt(A_FILE);
    const changed = (...pairs) => pairs.reduce((it, [at, byte]) => it.with(at, byte), file);
    const sides = (...bytes) => changed(...bytes.map((it, i) => [4 + i, it]));
    const html = new TextEncoder().encode("<!doctype html><title>404</title>");
    const cases = [
      ["no bytes", new Uint8Array(0), NO_QOI],
      ["a page", html, NO_QOI],
      ["a PNG", Uint8Array.of(0x89, 0x50, 0x4e, 0x47, 13, 10, 26, 10, 0, 0, 0, 13, 0, 0, 0, 0), NO_QOI],
      ["channels", changed([12, 5]), ["InvalidChannels", "invalid number of channels: 5"]],
      ["color space", changed([13, 2]), ["InvalidColorSpace", "invalid color space: 2 (expected 0 or 1)"]],
      ["no width", sides(0, 0, 0, 0), ["InvalidImageDimensions", "invalid image dimensions: 0x1"]],
      ["large", sides(...Array(8).fill(255)), ["InvalidImageDimensions", "invalid image dimensions: 4294967295x4294967295"]],
      ["more than the bytes hold", sides(0, 0, 39, 16, 0, 0, 39, 16), CUT],
      ["more than the limit", sides(0, 0, 78, 32, 0, 0, 78, 32), ["TooManyPixels", "20000x20000 are more than 100000000 pixels"]],
      ["end marker", changed([file.length - 1, 2]), ["InvalidPadding", "invalid padding (stream end marker mismatch)"]],
      ["end marker's begin", changed([file.length - 8, 1]), ["InvalidPadding", "invalid padding (stream end marker mismatch)"]],
    ];
    const wrong = [];
    for (const [name, bytes, wanted] of cases) {
      wrong.push(...differs(name, await outcome(decode(bytes)), wanted));
      // Without a worker there is no memory for the pixels either
      if (wanted[0] !== "InvalidPadding") wrong.push(...differs(`${name}, workers`, workers.started, 0));
    }
    wrong.push(...differs("a limit", (await outcome(decode(file, { maxPixels: 0 })))[0], "TooManyPixels"));
    wrong.push(...differs("no limit", (await outcome(decode(file, { maxPixels: NaN })))[0], "TooManyPixels"));
    wrong.push(...differs("not there", (await outcome(load("/none.qoi")))[0], "NotLoaded"));
    wrong.push(...differs("afterwards", (await decode(file)).width, 1));
    return wrong;
  },

  /** Many files at once, one of them broken and one no longer wanted. */
  async many() {
    const file = await bytesAt("/pictures/4/model.qoi");
    const wanted = (await decode(file)).data;
    const stopped = new AbortController();
    const all = Array.from({ length: 40 }, (_, i) => {
      if (i === 11) return outcome(decode(file.subarray(0, 500)));
      return outcome(decode(file, i === 0 || i === 20 ? { signal: stopped.signal } : {}));
    });
    stopped.abort();
    const wrong = differs("aborted before", (await outcome(decode(file, { signal: stopped.signal })))[0], "AbortError");
    for (const [i, it] of (await Promise.all(all)).entries()) {
      if (i === 11) wrong.push(...differs("the broken one", it, CUT));
      else if (i === 0 || i === 20) wrong.push(...differs("aborted", it[0], "AbortError"));
      else wrong.push(...sameBytes(`number ${i}`, it.data ?? [], wanted));
    }
    // The aborted file that was being decoded took its worker with it
    return [...wrong, ...differs("workers", workers, { started: 2, ended: 1 })];
  },

  /** A page stays alive while a large picture is decoded, and the worker then ends. */
  async large() {
    await decode(await bytesAt(A_FILE));
    const before = { ...workers };
    const file = await bytesAt("/large.qoi");
    let ticks = 0;
    const ticking = setInterval(() => ticks++, 1);
    const image = await decode(file);
    clearInterval(ticking);
    const wrong = differs("size", [image.width, image.height], [6000, 4000]);
    if (image.data.some((it, i) => it !== (i % 4 < 3 ? 17 : 255))) wrong.push("other pixels");
    if (ticks < 3) wrong.push(`the page stood still, but for ${ticks} times`);
    wrong.push(...differs("workers", [workers.started - before.started, workers.ended - before.ended], [0, 1]));
    await decode(await bytesAt(A_FILE));
    await decode(await bytesAt(A_FILE));
    wrong.push(...differs("workers then", [workers.started - before.started, workers.ended - before.ended], [1, 1]));
    return wrong;
  },

  /** The element's events, and what it says of itself. */
  async element() {
    const wrong = [];
    for (const [path, kind] of [
      ["/none.qoi", "NotLoaded"],
      ["/index.html", "InvalidMagic"],
      ["/cut.qoi", "UnexpectedBufferEnd"],
      ["", "NotLoaded"],
      ["/wide.qoi", "TooLargeForCanvas"],
      ["/high.qoi", "TooLargeForCanvas"],
      ["/square.qoi", "TooManyPixels"],
    ]) {
      const element = put({ src: path, alt: "words" });
      const event = await nextEvent(element);
      const said = [event.type, event.error?.kind, event.message === event.error?.message, element.shadowRoot.textContent];
      wrong.push(...differs(`${path}`, said, ["error", kind, true, "words"]));
      wrong.push(...differs(`${path}, size`, [element.naturalWidth, element.naturalHeight, element.complete], [0, 0, true]));
      element.remove();
    }
    const element = put({ src: "/pictures/10/model.qoi", alt: "a gradient" });
    wrong.push(...differs("at first", [element.complete, element.naturalWidth], [false, 0]));
    let called = 0;
    element.onload = () => called++;
    await nextEvent(element);
    wrong.push(...differs("then", [element.complete, element.naturalWidth, element.naturalHeight, called], [true, 64, 48, 1]));
    wrong.push(...differs("src", element.src, new URL("/pictures/10/model.qoi", location).href));
    element.remove();
    document.body.append(element);
    await pause(50);
    wrong.push(...differs("put back", [called, element.naturalWidth], [1, 64]));
    element.removeAttribute("src");
    wrong.push(...differs("no src", [element.naturalWidth, element.complete], [0, true]));
    element.remove();
    return wrong;
  },

  /** A new src, or taking it out, drops what was on its way. */
  async dropped() {
    const wrong = [];
    const heard = [];
    const element = put({ src: "/slow/0.qoi" });
    for (const name of ["load", "error"]) element.addEventListener(name, () => heard.push([name, element.naturalWidth]));
    await pause(20);
    element.src = "/pictures/10/model.qoi";
    await nextEvent(element);
    await pause(600);
    wrong.push(...differs("a new src", heard.splice(0), [["load", 64]]));
    element.src = "/slow/0.qoi";
    await pause(20);
    element.remove();
    await pause(600);
    wrong.push(...differs("taken out", heard.splice(0), []));
    document.body.append(element);
    await nextEvent(element);
    wrong.push(...differs("put back", heard.splice(0), [["load", 1]]));
    element.src = "/none.qoi";
    element.src = "/pictures/7/model.qoi";
    await nextEvent(element);
    wrong.push(...differs("at once", heard.splice(0), [["load", 1]]));
    element.remove();
    return wrong;
  },

  /** Sizes are those of an <img> with the same attributes and style. */
  async sizes() {
    const wrong = [];
    const picture = { src: "/pictures/10/model.qoi", alt: "" };
    const drawn = Object.assign(document.createElement("canvas"), { width: 64, height: 48 });
    const src = drawn.toDataURL();
    const forms = [
      [{}, {}],
      [{ width: 200 }, {}],
      [{ height: "96" }, {}],
      [{ width: "200", height: "30px" }, {}],
      [{ width: "50%" }, {}],
      [{ width: "x" }, {}],
      [{ width: 640, height: 480 }, { maxWidth: "100px", height: "auto" }],
      [{ width: 640, height: 100 }, { maxWidth: "100px", height: "auto" }],
      [{}, { width: "32px" }],
      [{}, { height: "96px" }],
      [{}, { width: "100px", height: "100px" }],
      [{}, { maxWidth: "40px" }],
      [{ width: 10 }, { width: "20px" }],
      [{}, { display: "block", width: "100%" }],
    ];
    for (const [attributes, style] of forms) {
      const box = document.body.appendChild(document.createElement("div"));
      box.style.width = "300px";
      const sizes = [];
      for (const name of ["img", "qoi-img"]) {
        const element = document.createElement(name);
        const all = { ...picture, ...(name === "img" ? { src } : {}), ...attributes };
        for (const [key, value] of Object.entries(all)) element.setAttribute(key, value);
        Object.assign(element.style, style);
        box.replaceChildren(element);
        await nextEvent(element);
        const { width, height } = element.getBoundingClientRect();
        sizes.push([width, height]);
      }
      wrong.push(...differs(JSON.stringify([attributes, style]), sizes[1], sizes[0]));
      box.remove();
    }
    const element = put({ src: "/slow/0.qoi", width: 640, height: 480 });
    Object.assign(element.style, { maxWidth: "100px", height: "auto" });
    const { width, height } = element.getBoundingClientRect();
    wrong.push(...differs("room before it is there", [width, height], [100, 75]));
    element.remove();
    return wrong;
  },

  /** Where the decoder can't be loaded or the browser is old, that is said. */
  async missing() {
    const wrong = differs("supported", isSupported(), true);
    const file = await bytesAt(A_FILE);
    const cases = { "without-module": "/without-module/qoi_proved.wasm can't be loaded: status 404", "without-worker": "worker" };
    for (const [folder, words] of Object.entries(cases)) {
      const other = await import(`/${folder}/qoi.js`);
      const told = await other.decode(file).catch((error) => [error.kind, error.message.includes(words)]);
      wrong.push(...differs(folder, told, ["NotLoaded", true]));
    }
    const { slice } = Uint8Array.prototype;
    Uint8Array.prototype.slice = () => new Uint8Array(2 ** 60);
    wrong.push(...differs("no memory", await outcome(decode(file)), ["OutOfMemory", "out of memory"]));
    Uint8Array.prototype.slice = slice;
    const { validate } = WebAssembly;
    WebAssembly.validate = () => false;
    wrong.push(...differs("old", isSupported(), false));
    wrong.push(...differs("old, decode", await outcome(decode(file)), ["Unsupported", "this browser has no 64-bit WebAssembly"]));
    wrong.push(...differs("old, without asking", (await outcome(load("/none.qoi")))[0], "Unsupported"));
    const element = put({ src: A_FILE, alt: "words" });
    wrong.push(...differs("old element", (await nextEvent(element)).error.kind, "Unsupported"));
    element.remove();
    WebAssembly.validate = validate;
    wrong.push(...differs("violations of the policy", violations, []));
    return wrong;
  },
};
