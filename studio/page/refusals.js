// Why something that was asked for isn't there.

// The program or the server refused it; the rest goes on.
export class Refusal extends Error {}

// Nothing will be answered any more, which the page's line of faults says.
export class Ended extends Error {}
