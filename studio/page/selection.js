// Which rows and which column the keys work on: the row of the place shown, or the rows from an anchor to a
// head, which stay selected while the place moves on.

export class Selection extends EventTarget {
  constructor(session, player) {
    super();
    this.session = session;
    this.player = player;
    this.anchor = null;
    this.head = 0;
    this.column = 1;
    player.addEventListener("place", () => this.tell());
    session.addEventListener("edited", () => this.tell());
  }

  tell() {
    this.dispatchEvent(new Event("change"));
  }

  // First frame and the one behind the last, both there.
  get range() {
    const { count } = this.session;
    const { place } = this.player;
    const [one, other] = this.anchor === null ? [place, place] : [this.anchor, this.head];
    return [Math.min(one, other, count), Math.min(Math.max(one, other) + 1, count)];
  }

  get isWide() {
    return this.anchor !== null && this.anchor !== this.head;
  }

  has(frame) {
    const [first, end] = this.range;
    return frame >= first && frame < end;
  }

  // Goes to a place, and takes the rows between along where the selection is to reach there.
  moveTo(place, reaches) {
    if (!reaches) this.anchor = null;
    else if (this.anchor === null) this.anchor = this.player.place;
    this.head = Math.max(0, Math.min(place, this.session.count));
    this.player.goTo(this.head);
    this.tell();
    this.dispatchEvent(new Event("moved"));
  }

  clear() {
    this.anchor = null;
    this.tell();
  }

  all() {
    this.anchor = 0;
    this.head = Math.max(0, this.session.count - 1);
    this.tell();
  }

  setColumn(column) {
    this.column = column;
    this.tell();
  }
}
