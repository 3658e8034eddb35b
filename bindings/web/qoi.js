// Decodes QOI pictures in a page: by a proved WebAssembly module, in a worker. bindings/README.md says how to use it.

/** The most pixels that are decoded unless a call names another limit: 400 megabytes of an ImageData. */
export const MAX_PIXELS = 100_000_000;

const MAGIC = [0x71, 0x6f, 0x69, 0x66]; // "qoif"
const HEADER_SIZE = 14;
const END_MARKER_SIZE = 8;
const FORMAT_PIXELS_MAX = 400_000_000;
const RUN_MAX = 62; // pixels of a chunk of one byte

// A worker with more memory than this ends when it has answered: the memory of WebAssembly never shrinks.
const KEPT_BYTES = 64 * 2 ** 20;

// The smallest WebAssembly module with a 64-bit memory.
const PROBE = new Uint8Array([0x00, 0x61, 0x73, 0x6d, 1, 0, 0, 0, 5, 3, 1, 4, 1]);

/**
 * Why a picture is refused. `kind` is the name of the Rust crate's error (`InvalidMagic`, `InvalidChannels`, `InvalidColorSpace`,
 * `InvalidImageDimensions`, `UnexpectedBufferEnd`, `InvalidPadding`, `OutOfMemory`), or `TooManyPixels`, `TooLargeForCanvas`,
 * `NotLoaded` (the decoder or a picture), `Unsupported`.
 */
export class QoiError extends Error {
  constructor(kind, message) {
    super(message);
    this.name = "QoiError";
    this.kind = kind;
  }
}

/** Whether this browser can decode here. If not, take a PNG: it lacks 64-bit WebAssembly, as Safari did in 2026. */
export function isSupported() {
  return typeof WebAssembly === "object" && typeof Worker === "function" && WebAssembly.validate(PROBE);
}

function checkSupport() {
  if (!isSupported()) throw new QoiError("Unsupported", "this browser has no 64-bit WebAssembly");
}

/** The bytes of an ArrayBuffer, a typed array or a DataView, without a copy. */
function viewOf(bytes) {
  if (ArrayBuffer.isView(bytes)) return new Uint8Array(bytes.buffer, bytes.byteOffset, bytes.byteLength);
  const isBuffer = /^\[object (Shared)?ArrayBuffer\]$/.test(Object.prototype.toString.call(bytes));
  if (isBuffer) return new Uint8Array(bytes);
  throw new TypeError("the bytes of a QOI file are wanted: an ArrayBuffer, a Uint8Array or another view");
}

/** `{width, height, channels, colorspace}` of the file in front, its color space "srgb" or "linear". Needs fourteen bytes. */
export function readHeader(bytes) {
  const view = viewOf(bytes);
  if (!MAGIC.every((it, i) => view[i] === it)) throw new QoiError("InvalidMagic", "not a QOI file");
  if (view.length < HEADER_SIZE) throw cut();
  const data = new DataView(view.buffer, view.byteOffset, HEADER_SIZE);
  const [width, height, channels, colorspace] = [data.getUint32(4), data.getUint32(8), view[12], view[13]];
  if (channels !== 3 && channels !== 4) throw new QoiError("InvalidChannels", `invalid number of channels: ${channels}`);
  if (colorspace > 1) throw new QoiError("InvalidColorSpace", `invalid color space: ${colorspace} (expected 0 or 1)`);
  const pixels = width * height;
  if (pixels < 1 || pixels > FORMAT_PIXELS_MAX) {
    throw new QoiError("InvalidImageDimensions", `invalid image dimensions: ${width}x${height}`);
  }
  return { width, height, channels, colorspace: colorspace === 1 ? "linear" : "srgb" };
}

/** The header, or the refusal that needs no decoding: what `readHeader` refuses, too many pixels, or more than the bytes can hold. */
export function checkFile(bytes, { maxPixels = MAX_PIXELS } = {}) {
  const header = readHeader(bytes);
  const pixels = header.width * header.height;
  if (!(maxPixels >= pixels)) {
    throw new QoiError("TooManyPixels", `${header.width}x${header.height} are more than ${maxPixels} pixels`);
  }
  if (pixels > RUN_MAX * (bytes.byteLength - HEADER_SIZE - END_MARKER_SIZE)) throw cut();
  return header;
}

function cut() {
  return new QoiError("UnexpectedBufferEnd", "unexpected input buffer end while decoding");
}

/**
 * Decodes the QOI file in front of the bytes (an ArrayBuffer or a view), which it leaves: a promise of an `ImageData`, with alpha 255
 * if the file has three channels. It is rejected by a `QoiError`, or by the reason of an aborted `signal`.
 */
export async function decode(bytes, { maxPixels = MAX_PIXELS, signal } = {}) {
  signal?.throwIfAborted();
  checkSupport();
  // A copy: the worker takes it, and memory that is shared may change
  const file = inMemory(() => viewOf(bytes).slice());
  const { width, height } = checkFile(file, { maxPixels });
  const pixels = await inWorker(file, 4 * width * height, signal);
  return new ImageData(pixels, width, height);
}

/** Fetches a picture by its address (or a `Request`) and decodes it, as `decode` does. */
export async function load(url, { maxPixels, signal } = {}) {
  return decode(await fetchFile(url, signal), { maxPixels, signal });
}

/** The bytes at an address, if this browser can decode them. */
export async function fetchFile(url, signal) {
  checkSupport();
  const response = await fetch(url, { signal });
  if (!response.ok) throw new QoiError("NotLoaded", `${response.url}: status ${response.status}`);
  return response.arrayBuffer();
}

/** What a function returns, unless an allocation fails in it. */
function inMemory(made) {
  try {
    return made();
  } catch (error) {
    throw error instanceof RangeError ? new QoiError("OutOfMemory", "out of memory") : error;
  }
}

// One worker takes one file at a time, and is made when the first file comes. It compiles the module, which later ones then get.
const waiting = [];
let worker = null;
let running = null;
let module = null;

/** Has a file decoded when its turn comes: a promise of the bytes of its pixels. */
function inWorker(file, size, signal) {
  return new Promise((resolve, reject) => {
    const stop = () => {
      if (running === job) finish(true);
      else waiting.splice(waiting.indexOf(job), 1);
      job.reject(signal.reason);
    };
    const done = (settle) => (value) => {
      signal?.removeEventListener("abort", stop);
      settle(value);
    };
    const job = { file, size, resolve: done(resolve), reject: done(reject) };
    signal?.addEventListener("abort", stop);
    waiting.push(job);
    next();
  });
}

/** Gives the worker the next file, if it has none. */
function next() {
  if (running || !waiting.length) return;
  running = waiting.shift();
  try {
    worker ??= startWorker();
    worker.postMessage({ file: running.file, size: running.size, module }, [running.file.buffer]);
  } catch (error) {
    refuse(new QoiError("NotLoaded", `the worker can't be started: ${error.message}`));
  }
}

function startWorker() {
  const started = new Worker(new URL("./qoi-worker.js", import.meta.url), { type: "module" });
  started.onmessage = ({ data }) => {
    if (started === worker) answer(data);
  };
  started.onerror = (event) => {
    event.preventDefault();
    const why = event.message || "is it there, and does the content security policy allow it?";
    if (started === worker) refuse(new QoiError("NotLoaded", `qoi-worker.js failed: ${why}`));
  };
  started.onmessageerror = () => {
    if (started === worker) refuse(new QoiError("OutOfMemory", "out of memory"));
  };
  return started;
}

/** Passes on what the worker says of the running file. */
function answer({ pixels, refusal, compiled, memory }) {
  module ??= compiled ?? null;
  const job = running;
  finish(!memory || memory > KEPT_BYTES);
  if (pixels) job.resolve(pixels);
  else job.reject(new QoiError(refusal.kind, refusal.message));
}

function refuse(error) {
  const job = running;
  finish(true);
  job?.reject(error);
}

/** The running file is done, and perhaps the worker, too: the next file has its turn. */
function finish(endsWorker) {
  if (endsWorker) {
    worker?.terminate();
    worker = null;
  }
  running = null;
  next();
}
