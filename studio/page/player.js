// Which place is shown, and playing from it.
import { Film } from "./film.js";
import { Refresher } from "./refresher.js";

const FRAMES_A_SECOND = 60;
const STRETCH = 30; // places of a film that are asked for at once; at full speed more
const FAST_STRETCH = 240;

export class Player extends EventTarget {
  constructor(session, keeper, screen, sound) {
    super();
    this.session = session;
    this.keeper = keeper;
    this.screen = screen;
    this.sound = sound;
    this.place = 0;
    this.shown = -1; // the place of the picture; `shown` is told when it is there, and right after an edit
    this.speed = 1;
    this.isPlaying = false;
    this.isFollowing = false; // whether the recorder leads
    this.film = null;
    this.picture = new Refresher(() => this.fetchPicture(), { tell: (refusal) => this.notePicture(refusal) });
    session.addEventListener("edited", (event) => this.noteEdit(event.detail.from));
    sound.addEventListener("change", () => { if (this.isPlaying) this.restartFilm(); });
  }

  tell(name) {
    this.dispatchEvent(new Event(name));
  }

  goTo(place) {
    const wanted = Math.max(0, Math.min(place, this.session.count));
    if (this.isPlaying) this.pause();
    if (wanted === this.place) return;
    this.place = wanted;
    this.picture.ask();
    this.tell("place");
  }

  // The recorder goes on to a place and brings its picture itself.
  follow(place) {
    this.place = place;
    this.isFollowing = true;
    this.tell("place");
  }

  unfollow() {
    this.isFollowing = false;
    if (this.shown !== this.place) this.picture.ask();
    else this.tell("shown");
  }

  async fetchPicture() {
    const place = this.place;
    const isWanted = () => this.place === place && !this.isPlaying && !this.isFollowing;
    if (this.keeper.isFar(place)) await this.keeper.approach(place, isWanted);
    if (!isWanted()) return;
    const [image] = await this.session.askAt(`show ${place}`, place);
    if (this.isPlaying) return;
    this.showImage(place, image);
  }

  notePicture(refusal) {
    const text = refusal && `there is no picture of place ${this.place}: ${refusal.message}`;
    if (refusal) this.session.tell("fault", { text });
  }

  showImage(place, image) {
    this.screen.draw(image);
    this.shown = place;
    this.tell("shown");
  }

  // A picture comes of the inputs before its place alone.
  noteEdit(from) {
    if (this.place > this.session.count) {
      this.place = this.session.count;
      this.tell("place");
    }
    if (this.isFollowing) return;
    if (this.isPlaying) this.restartFilm();
    else if (from < this.place || this.shown !== this.place) this.picture.ask();
    else this.tell("shown");
  }

  toggle() {
    if (this.isPlaying) this.pause();
    else this.play();
  }

  play() {
    if (this.place >= this.session.count) this.place = 0;
    this.isPlaying = true;
    this.restartFilm();
    this.tell("playing");
    requestAnimationFrame((now) => this.tick(now));
  }

  pause() {
    if (!this.isPlaying) return;
    this.isPlaying = false;
    this.film.stop();
    this.sound.stop();
    this.tell("playing");
    if (this.shown !== this.place) this.picture.ask();
  }

  setSpeed(speed) {
    this.speed = speed;
    if (this.isPlaying) this.restartFilm();
  }

  get stretch() {
    return this.speed > 4 ? FAST_STRETCH : STRETCH * Math.max(1, this.speed);
  }

  restartFilm() {
    if (this.film) this.film.stop();
    const sound = this.speed === 1 && this.sound.isOn ? this.sound : null;
    const { session, keeper, place, stretch } = this;
    this.sound.begin(place + 1);
    const film = new Film({ session, keeper, place, stretch, sound });
    film.onRefusal = (refusal) => { if (film === this.film) this.noteFilm(refusal); };
    this.film = film;
    this.clock = null;
  }

  // Without images it can't play on.
  noteFilm(refusal) {
    this.pause();
    const text = `playing stopped at place ${this.place}: ${refusal.message}; play again to try again`;
    this.session.tell("fault", { text });
  }

  // The clock stands still while nothing has come yet.
  dueAt(now) {
    if (this.clock === null) this.clock = { time: now, place: this.place };
    if (this.speed === Infinity) return this.session.count;
    const seconds = (now - this.clock.time) / 1000;
    return this.clock.place + Math.floor(seconds * FRAMES_A_SECOND * this.speed + 0.01);
  }

  tick(now) {
    if (!this.isPlaying) return;
    this.film.feed(this.place);
    const due = Math.min(this.dueAt(now), this.session.count);
    let place = this.place;
    let image = null;
    while (place < due && this.film.images.has(place + 1)) {
      place += 1;
      image = this.film.take(place);
    }
    if (place < due) this.clock = null;
    if (image) {
      this.place = place;
      this.showImage(place, image);
      this.tell("place");
    }
    if (this.place >= this.session.count) this.pause();
    else requestAnimationFrame((next) => this.tick(next));
  }
}
