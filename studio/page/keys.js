// Which key does which act, and the page of keys that `?` shows.

const FIELDS = "input:not([type=checkbox]):not([type=file]), textarea, select";
const ARROWS = { Up: "↑", Down: "↓", Left: "←", Right: "→" };
const PRESSED_BY_KEY = "button, summary, a, input, select";

const CLIPBOARD = /^Ctrl\+(Shift\+)?[CXV]$/; // which the browser makes events of its own of

// The name of a key press as the table of acts has it: `Ctrl+Z`, `Shift+R`, `?`.
function nameOf(event) {
  const isLetter = /^[a-z]$/i.test(event.key);
  const key = event.key === " " ? "Space" : isLetter ? event.key.toUpperCase() : event.key;
  const shift = event.shiftKey && (isLetter || event.key.length > 1) ? "Shift+" : "";
  return (event.ctrlKey || event.metaKey ? "Ctrl+" : "") + shift + key;
}

export class Keys {
  // An act is { name, group, keys, title, run }.
  constructor(acts) {
    this.acts = acts;
    this.byKey = new Map(acts.flatMap((act) => act.keys.map((key) => [key, act])));
    this.byName = new Map(acts.map((act) => [act.name, act]));
    document.addEventListener("keydown", (event) => this.press(event));
    for (const button of document.querySelectorAll("[data-act]")) {
      const act = this.byName.get(button.dataset.act);
      if (act.keys.length) button.title = `${act.title} (${act.keys[0]})`;
      button.addEventListener("click", () => act.run());
    }
    this.buildHelp();
  }

  press(event) {
    if (event.altKey || document.querySelector("dialog[open]")) return;
    const { target } = event;
    if (target.matches(FIELDS)) {
      if (event.key === "Escape") target.blur();
      return;
    }
    const isPress = event.key === "Enter" || event.key === " ";
    if (isPress && target.matches(PRESSED_BY_KEY)) return;
    const name = nameOf(event);
    const act = this.byKey.get(name);
    if (!act || CLIPBOARD.test(name)) return;
    event.preventDefault();
    act.run();
  }

  buildHelp() {
    const groups = new Map();
    for (const act of this.acts.filter(({ keys }) => keys.length)) {
      if (!groups.has(act.group)) groups.set(act.group, document.createElement("dl"));
      const keys = document.createElement("dt");
      act.keys.forEach((key) => {
        const shown = document.createElement("kbd");
        shown.textContent = key.replace(/Arrow(Up|Down|Left|Right)/, (_, way) => ARROWS[way]);
        keys.append(shown, " ");
      });
      const title = document.createElement("dd");
      title.textContent = act.title;
      groups.get(act.group).append(keys, title);
    }
    const parts = [...groups].flatMap(([name, list]) => {
      const heading = document.createElement("h3");
      heading.textContent = name;
      return [heading, list];
    });
    document.getElementById("help-text").append(...parts);
  }
}
