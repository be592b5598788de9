// What the frames played, heard while playing and recording.
import { Oscillators, RATE, TICKS } from "./tones.js";

const LATENCY = 0.08; // seconds between a place's sound coming and being heard

export class Sound extends EventTarget {
  constructor() {
    super();
    this.isOn = false;
    this.context = null;
    this.begin(0);
  }

  // A browser lets a page sound only once its user has done something.
  turn(isOn) {
    this.isOn = isOn;
    if (isOn && !this.context) this.context = new AudioContext({ sampleRate: RATE });
    if (isOn) this.context.resume();
    else this.stop();
    this.dispatchEvent(new Event("change"));
  }

  // Places from this one on will be added.
  begin(place) {
    this.stop();
    this.first = place;
    this.start = null;
    this.oscillators = new Oscillators();
  }

  // Adds what a place's frame played.
  add(schedule) {
    if (!this.isOn) return;
    const buffer = this.context.createBuffer(2, TICKS, RATE);
    this.oscillators.render(schedule, buffer.getChannelData(0), buffer.getChannelData(1));
    this.play(buffer, this.timeOf(schedule.place));
  }

  // Where the sound has fallen behind it begins anew, as the picture does.
  timeOf(place) {
    const now = this.context.currentTime;
    const time = this.start === null ? 0 : this.start + (place - this.first) / 60;
    if (time >= now) return time;
    this.start = now + LATENCY - (place - this.first) / 60;
    return now + LATENCY;
  }

  play(buffer, time) {
    if (!this.output) {
      this.output = this.context.createGain();
      this.output.connect(this.context.destination);
    }
    const source = this.context.createBufferSource();
    source.buffer = buffer;
    source.connect(this.output);
    source.start(time);
  }

  // What was put behind one output falls silent with it.
  stop() {
    if (this.output) this.output.disconnect();
    this.output = null;
    this.start = null;
  }

  // Plays a WAV file that the program wrote.
  async hear(bytes) {
    if (!this.context) this.context = new AudioContext({ sampleRate: RATE });
    this.context.resume();
    this.stop();
    this.play(await this.context.decodeAudioData(bytes), 0);
  }
}
