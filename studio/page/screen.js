// The picture of the place shown, from the image that the program wrote.

const SIDE = 160;
const HEADER = 15; // of a PPM file

export class Screen {
  constructor(canvas) {
    this.context = canvas.getContext("2d", { alpha: false });
    this.data = this.context.createImageData(SIDE, SIDE);
    this.data.data.fill(255);
  }

  draw(image) {
    const target = this.data.data;
    for (let pixel = 0, from = HEADER, to = 0; pixel < SIDE * SIDE; pixel += 1, from += 3, to += 4) {
      target[to] = image[from];
      target[to + 1] = image[from + 1];
      target[to + 2] = image[from + 2];
    }
    this.context.putImageData(this.data, 0, 0);
  }
}
