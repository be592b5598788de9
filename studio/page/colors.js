// The colours of the style sheet, as a canvas takes them: it knows none by its name there, nor those of two themes.

export class Colors {
  // `names` are those of custom properties.
  constructor(names) {
    this.names = names;
    this.theme = null; // what the values are of
    this.values = {};
  }

  // The value of each name, in the theme that is shown.
  read() {
    const theme = document.documentElement.dataset.theme || "";
    const shown = `${theme} ${matchMedia("(prefers-color-scheme: dark)").matches}`;
    if (shown === this.theme) return this.values;
    this.theme = shown;
    const probe = document.createElement("span");
    document.body.append(probe);
    for (const name of this.names) {
      probe.style.color = `var(${name})`;
      this.values[name] = getComputedStyle(probe).color;
    }
    probe.remove();
    return this.values;
  }
}
