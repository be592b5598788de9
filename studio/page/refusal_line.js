// A line at the end of a pane, which says why what the pane shows isn't there.

export class RefusalLine {
  constructor(pane) {
    this.line = document.createElement("p");
    this.line.className = "refusal";
    this.line.setAttribute("role", "status");
    this.line.hidden = true;
    pane.append(this.line);
  }

  // The refusal, or null where there is none any more.
  show(refusal) {
    const text = refusal ? refusal.message : "";
    if (this.line.textContent !== text) this.line.textContent = text;
    this.line.hidden = !refusal;
  }
}
