// A film as a WebM file (Matroska, RFC 9559): one track of pictures, one of sound. Blocks come in the order of
// their times; each begins a cluster where it is a picture that needs no other.

const ID = {
  EBML: 0x1a45dfa3, Version: 0x4286, ReadVersion: 0x42f7, MaxIdLength: 0x42f2, MaxSizeLength: 0x42f3,
  DocType: 0x4282, DocTypeVersion: 0x4287, DocTypeReadVersion: 0x4285,
  Segment: 0x18538067, Info: 0x1549a966, TimestampScale: 0x2ad7b1, Duration: 0x4489, MuxingApp: 0x4d80,
  WritingApp: 0x5741, Tracks: 0x1654ae6b, TrackEntry: 0xae, TrackNumber: 0xd7, TrackUid: 0x73c5, TrackType: 0x83,
  FlagLacing: 0x9c, CodecId: 0x86, CodecPrivate: 0x63a2, CodecDelay: 0x56aa, SeekPreRoll: 0x56bb, Video: 0xe0,
  PixelWidth: 0xb0, PixelHeight: 0xba, Audio: 0xe1, SamplingFrequency: 0xb5, Channels: 0x9f,
  Cues: 0x1c53bb6b, CuePoint: 0xbb, CueTime: 0xb3, CueTrackPositions: 0xb7, CueTrack: 0xf7,
  CueClusterPosition: 0xf1, Cluster: 0x1f43b675, Timestamp: 0xe7, SimpleBlock: 0xa3,
};
const PICTURES = 1; // numbers of the tracks, and their types
const SOUND = 2;
const MILLISECOND = 1_000_000; // nanoseconds
const WIDE = 8; // bytes of a number whose value isn't known when its place is
const KEY = 0x80; // the flag of a block that needs no other

function joined(parts) {
  const bytes = new Uint8Array(parts.reduce((length, part) => length + part.length, 0));
  let at = 0;
  for (const part of parts) {
    bytes.set(part, at);
    at += part.length;
  }
  return bytes;
}

// A number as so many bytes, the highest first.
function wholeNumber(value, width) {
  const bytes = new Uint8Array(WIDE);
  new DataView(bytes.buffer).setBigUint64(0, BigInt(value));
  return bytes.subarray(WIDE - width);
}

function widthOf(value) {
  return Math.max(1, Math.ceil(value.toString(2).length / 8));
}

// A length: the first 1 bit says how many bytes it has.
function lengthBytes(length) {
  let width = 1;
  while (length >= 2 ** (7 * width) - 1) width += 1;
  const bytes = wholeNumber(length, width);
  bytes[0] |= 1 << (8 - width);
  return bytes;
}

function element(name, ...parts) {
  const data = joined(parts);
  return joined([wholeNumber(ID[name], widthOf(ID[name])), lengthBytes(data.length), data]);
}

function number(name, value, width = widthOf(value)) {
  return element(name, wholeNumber(value, width));
}

function text(name, value) {
  return element(name, new TextEncoder().encode(value));
}

function fraction(name, value) {
  const bytes = new Uint8Array(WIDE);
  new DataView(bytes.buffer).setFloat64(0, value);
  return element(name, bytes);
}

function head() {
  return element("EBML", number("Version", 1), number("ReadVersion", 1), number("MaxIdLength", 4),
    number("MaxSizeLength", 8), text("DocType", "webm"), number("DocTypeVersion", 4), number("DocTypeReadVersion", 2));
}

function track(kind, codec, ...parts) {
  return element("TrackEntry", number("TrackNumber", kind), number("TrackUid", kind), number("TrackType", kind),
    number("FlagLacing", 0), text("CodecId", codec), ...parts);
}

function pictureTrack({ codec, width, height }) {
  const size = element("Video", number("PixelWidth", width), number("PixelHeight", height));
  return track(PICTURES, codec, size);
}

// `description` is the head of an Opus stream, which says how many samples come before the first that counts.
function soundTrack({ rate, channels, description }) {
  const before = new DataView(description.buffer, description.byteOffset).getUint16(10, true);
  return track(SOUND, "A_OPUS", element("CodecPrivate", description),
    number("CodecDelay", Math.round((before * 1e9) / 48000)), number("SeekPreRoll", 80_000_000),
    element("Audio", fraction("SamplingFrequency", rate), number("Channels", channels)));
}

// `time` is in milliseconds, from the cluster's.
function block(kind, time, isKey, data) {
  return element("SimpleBlock", Uint8Array.of(0x80 | kind), wholeNumber(time & 0xffff, 2),
    Uint8Array.of(isKey ? KEY : 0), data);
}

// Clusters of blocks { kind, time, isKey, data }: { time, bytes }.
function clustersOf(blocks) {
  const clusters = [];
  for (const { kind, time, isKey, data } of blocks) {
    if (!clusters.length || (kind === PICTURES && isKey)) {
      clusters.push({ time, parts: [number("Timestamp", time)] });
    }
    const { time: start, parts } = clusters.at(-1);
    parts.push(block(kind, time - start, isKey, data));
  }
  return clusters.map(({ time, parts }) => ({ time, bytes: element("Cluster", ...parts) }));
}

// Where each cluster begins, counted from the segment's first byte behind its head.
function cues(clusters, first) {
  let at = first;
  const points = clusters.map(({ time, bytes }) => {
    const position = at;
    at += bytes.length;
    return element("CuePoint", number("CueTime", time), element("CueTrackPositions",
      number("CueTrack", PICTURES), number("CueClusterPosition", position, WIDE)));
  });
  return element("Cues", ...points);
}

// The file. Chunks of pictures and of sound are { time, isKey, data }, times in milliseconds.
export function webm({ pictures, sound, duration }) {
  const byTime = (one, other) => one.time - other.time || one.kind - other.kind;
  const blocks = [
    ...pictures.chunks.map((chunk) => ({ ...chunk, kind: PICTURES })),
    ...sound.chunks.map((chunk) => ({ ...chunk, kind: SOUND })),
  ].sort(byTime);
  const clusters = clustersOf(blocks);
  const info = element("Info", number("TimestampScale", MILLISECOND), fraction("Duration", duration),
    text("MuxingApp", "w4 studio"), text("WritingApp", "w4 studio"));
  const tracks = element("Tracks", pictureTrack(pictures), soundTrack(sound));
  const first = info.length + tracks.length + cues(clusters, 0).length;
  const segment = element("Segment", info, tracks, cues(clusters, first), ...clusters.map(({ bytes }) => bytes));
  return joined([head(), segment]);
}
