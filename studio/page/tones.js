// Schedule texts as the program writes them, and sound made of them: level and frequency of each channel
// are the program's, a frame at a time; pulses, triangle and noise are those of its `wave`, but for the
// rise within a frame.

export const CHANNELS = ["pulse 1", "pulse 2", "triangle", "noise"];
export const RATE = 44100;
export const TICKS = RATE / 60;
const HIGH_EIGHTHS = [1, 2, 4, 6]; // of a period, by duty
const AMPLITUDE = 8000 / 32768 / 100; // of a level of 1
const RAMP = 64; // ticks in which a level changes, so that it doesn't click

// The tones that begin in a place's frame, and what each channel sounds at its first tick, null where it is
// silent.
export function parseSchedule(text) {
  const schedule = { place: 0, tones: [], sounds: [null, null, null, null] };
  for (const line of text.split("\n")) {
    const [word, ...rest] = line.split(" ");
    const numbers = rest.map(Number);
    if (word === "frame") {
      [schedule.place] = numbers;
    } else if (word === "tone") {
      const [channel, duty, pan, note] = [0, 9, 10, 11].map((at) => numbers[at]);
      schedule.tones.push({ channel, duty, pan, isNote: note === 1 });
    } else if (word === "sound") {
      schedule.sounds[numbers[0]] = { level: numbers[1], frequency: numbers[2] };
    }
  }
  return schedule;
}

export class Oscillators {
  constructor() {
    this.channels = CHANNELS.map(() => ({ phase: 0, level: 0, duty: 2, pan: 0, isNote: false }));
    this.register = 1;
  }

  // Adds the samples of a frame to left and right.
  render(schedule, left, right) {
    for (const tone of schedule.tones) Object.assign(this.channels[tone.channel], tone);
    schedule.sounds.forEach((sound, number) => {
      const channel = this.channels[number];
      const isHeard = sound && !channel.isNote;
      this.renderChannel(number, channel, isHeard ? sound : { level: 0, frequency: 0 }, left, right);
    });
  }

  renderChannel(number, channel, sound, left, right) {
    const first = channel.level;
    channel.level = sound.level;
    if (!first && !sound.level) return;
    for (let tick = 0; tick < TICKS; tick += 1) {
      const level = tick < RAMP ? first + ((sound.level - first) * tick) / RAMP : sound.level;
      const sample = this.wave(number, channel) * level * AMPLITUDE;
      if (channel.pan !== 2) left[tick] += sample;
      if (channel.pan !== 1) right[tick] += sample;
      this.advance(number, channel, sound.frequency);
    }
  }

  wave(number, channel) {
    if (number < 2) return 8 * channel.phase < RATE * HIGH_EIGHTHS[channel.duty] ? 1 : -1;
    if (number === 3) return this.register % 2 ? 1 : -1;
    const { phase } = channel;
    if (phase < 11025) return phase / 11025;
    return phase < 33075 ? (22050 - phase) / 11025 : (phase - 44100) / 11025;
  }

  advance(number, channel, frequency) {
    channel.phase += frequency;
    if (channel.phase < RATE) return;
    channel.phase %= RATE;
    if (number === 3) {
      const x = this.register;
      this.register = (x >> 1) + 16384 * ((x + (x >> 1)) % 2);
    }
  }
}
