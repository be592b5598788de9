// Films of a stretch of places, made of the program's images and sound: by the browser's encoders as WebM, or
// as a moving PNG without sound where it has none.
import { MovingPng } from "./moving_png.js";
import { WAV_HEADER } from "./wave_stretch.js";
import { webm } from "./webm.js";

const SIDE = 160;
const WIDE = 640; // pixels of the film's side
const PPM_HEADER = 15;
const FRAME = 1_000_000 / 60; // microseconds
const KEY_EVERY = 120; // frames
const RATE = 44100;
const PICTURES = { width: WIDE, height: WIDE, bitrate: 4_000_000, framerate: 60, latencyMode: "quality" };
const CODECS = [["vp09.00.31.08", "V_VP9"], ["vp8", "V_VP8"]];
const SOUND = { codec: "opus", sampleRate: RATE, numberOfChannels: 2, bitrate: 128_000 };
const SOUND_BLOCK = 4410; // samples that are encoded at once
const WAITING_MOST = 20; // frames that wait to be encoded

// The first codec that this browser encodes pictures by, with its name in the file; undefined where it has none.
async function pictureCodec() {
  if (typeof VideoEncoder === "undefined" || typeof AudioEncoder === "undefined") return undefined;
  if (!(await AudioEncoder.isConfigSupported(SOUND)).supported) return undefined;
  const known = await Promise.all(CODECS.map(async ([codec, name]) => {
    const { supported } = await VideoEncoder.isConfigSupported({ ...PICTURES, codec });
    return supported ? { codec, name } : null;
  }));
  return known.find(Boolean);
}

function bytesOf(chunk) {
  const data = new Uint8Array(chunk.byteLength);
  chunk.copyTo(data);
  return { time: Math.round(chunk.timestamp / 1000), isKey: chunk.type === "key", data };
}

// An encoder whose chunks are gathered; `failed` rejects where it fails.
function gathering(Encoder, configuration) {
  const gathered = { chunks: [], description: null };
  gathered.failed = new Promise((_, reject) => {
    gathered.encoder = new Encoder({
      output: (chunk, { decoderConfig } = {}) => {
        if (decoderConfig && decoderConfig.description) gathered.description = decoderConfig.description;
        gathered.chunks.push(bytesOf(chunk));
      },
      error: reject,
    });
  });
  gathered.failed.catch(() => {});
  gathered.encoder.configure(configuration);
  return gathered;
}

class Pictures {
  constructor({ codec, name }) {
    this.name = name;
    this.gathered = gathering(VideoEncoder, { ...PICTURES, codec });
    this.small = new OffscreenCanvas(SIDE, SIDE).getContext("2d", { alpha: false });
    this.large = new OffscreenCanvas(WIDE, WIDE).getContext("2d", { alpha: false });
    this.large.imageSmoothingEnabled = false;
    this.data = this.small.createImageData(SIDE, SIDE);
    this.data.data.fill(255);
    this.count = 0;
  }

  add(image) {
    const target = this.data.data;
    for (let pixel = 0, from = PPM_HEADER; pixel < target.length; pixel += 4, from += 3) {
      target[pixel] = image[from];
      target[pixel + 1] = image[from + 1];
      target[pixel + 2] = image[from + 2];
    }
    this.small.putImageData(this.data, 0, 0);
    this.large.drawImage(this.small.canvas, 0, 0, WIDE, WIDE);
    const frame = new VideoFrame(this.large.canvas, { timestamp: Math.round(this.count * FRAME), duration: FRAME });
    this.gathered.encoder.encode(frame, { keyFrame: this.count % KEY_EVERY === 0 });
    frame.close();
    this.count += 1;
  }

  // Waits until few frames wait.
  async settle() {
    const { encoder, failed } = this.gathered;
    while (encoder.encodeQueueSize > WAITING_MOST) {
      const some = new Promise((resolve) => { encoder.addEventListener("dequeue", resolve, { once: true }); });
      await Promise.race([some, failed]);
    }
  }

  async chunks() {
    await Promise.race([this.gathered.encoder.flush(), this.gathered.failed]);
    return { codec: this.name, width: WIDE, height: WIDE, chunks: this.gathered.chunks };
  }
}

// The sound of a WAV file, encoded.
async function soundOf(wave) {
  const gathered = gathering(AudioEncoder, SOUND);
  const samples = new Int16Array(wave.slice(WAV_HEADER).buffer);
  for (let at = 0; at < samples.length; at += 2 * SOUND_BLOCK) {
    const data = samples.slice(at, at + 2 * SOUND_BLOCK);
    const timestamp = Math.round((at / 2 / RATE) * 1e6);
    const block = new AudioData({
      format: "s16", sampleRate: RATE, numberOfFrames: data.length / 2, numberOfChannels: 2, timestamp, data,
    });
    gathered.encoder.encode(block);
    block.close();
  }
  await Promise.race([gathered.encoder.flush(), gathered.failed]);
  const description = new Uint8Array(gathered.description);
  return { rate: RATE, channels: 2, description, chunks: gathered.chunks };
}

async function withSound(codec, source) {
  const pictures = new Pictures(codec);
  for await (const image of source.images()) {
    pictures.add(image);
    await pictures.settle();
  }
  const sound = await soundOf(await source.wave());
  const film = { pictures: await pictures.chunks(), sound, duration: (pictures.count * FRAME) / 1000 };
  return { type: "video/webm", bytes: webm(film) };
}

async function moving(source) {
  const film = new MovingPng();
  for await (const image of source.images()) film.add(image);
  return { type: "image/png", bytes: await film.bytes() };
}

// Type and bytes of a film. A source has `images()`, which come one after another, and `wave()`, their sound.
export async function filmOf(source) {
  const codec = await pictureCodec();
  return codec ? withSound(codec, source) : moving(source);
}
