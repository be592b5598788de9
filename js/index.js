// The package: sessions, commands, and what they are refused with.
export { open, Session } from "./engine.js";
export { Answer, Refused } from "./desk.js";
export { Failure } from "./failure.js";
export { Broken } from "./threads.js";
export * as commands from "./commands.js";
export * from "./commands.js";
export { textOf } from "./runs.js";
