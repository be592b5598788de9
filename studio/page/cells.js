// What a column shows of an input, and what an input becomes where its cell is pressed.
import { hasButton, withButton } from "./input.js";

export function isPressed(input, column) {
  if (column.kind === "button") return hasButton(input, column.pad, column.bit);
  if (column.kind === "mouse") return (input.mouse & column.bit) !== 0;
  return column.kind === "reset" && input.reset;
}

export function withPressed(input, column, pressed) {
  if (column.kind === "button") return withButton(input, column.pad, column.bit, pressed);
  if (column.kind === "reset") return { ...input, reset: pressed };
  return { ...input, mouse: pressed ? input.mouse | column.bit : input.mouse & ~column.bit };
}

export function canBePressed(column) {
  return column.kind === "button" || column.kind === "mouse" || column.kind === "reset";
}
