// The sound of a stretch of places, cut out of the WAV file of a whole recording.
import { Refusal } from "../page/refusals.js";

export const WAV_HEADER = 44; // bytes
export const PLACE_SOUND = 2940; // bytes of a place's sound
const ALL = 4; // where a WAV file says how long it is without its first eight bytes
const SAMPLES = 40; // where it says how long its samples are

export function waveStretch(whole, first, last) {
  const from = WAV_HEADER + PLACE_SOUND * first;
  const to = WAV_HEADER + PLACE_SOUND * (last + 1);
  if (first > last || to > whole.length) throw new Refusal("those places aren't there");
  const file = new Uint8Array(WAV_HEADER + to - from);
  file.set(whole.subarray(0, WAV_HEADER));
  file.set(whole.subarray(from, to), WAV_HEADER);
  const view = new DataView(file.buffer);
  view.setUint32(ALL, file.length - 8, true);
  view.setUint32(SAMPLES, to - from, true);
  return file;
}
