// What calls of this package throw beside TypeError and RangeError, each by its name.

export class CalfrewinError extends Error {
  constructor(message, options) {
    super(message, options);
    this.name = new.target.name;
  }
}
/** `load` was not awaited. */
export class NotLoaded extends CalfrewinError {}
/** What is given to `load` is not the module of this package. */
export class BadModule extends CalfrewinError {}
export class OutOfMemory extends CalfrewinError {}
/** What is used was closed, or a page went into a world. */
export class Closed extends CalfrewinError {}
/** A page has no place there, may not go, or is not loaded. */
export class BadPage extends CalfrewinError {}
/** The engine has made 1,000,000 frames: call `renew`. */
export class Worn extends CalfrewinError {}
/** An answer of the module that the checks before it should have prevented. */
export class Refused extends CalfrewinError {}
/** The module trapped, as for too small a stack: nothing of it can be used any more. */
export class Broken extends CalfrewinError {}

const ANSWERS = [
  "OK", "NO_MEMORY", "BAD_GRID", "BAD_BUDGET", "BAD_SPACING", "BAD_CAMERA", "BAD_PLANE", "TOO_MANY_PLANES",
  "OUTSIDE_GRID", "BAD_CHANGE", "WORN", "NO_ROOM", "IS_EMPTY", "BAD_TOLERANCE", "BAD_MESH", "SHRUNK", "BAD_PAGE",
  "NOT_THERE",
];

/** The error of a call that answered something else than OK. */
export function errorOf(call, answer) {
  const name = ANSWERS[answer] ?? String(answer);
  switch (name) {
    case "NO_MEMORY": return new OutOfMemory("out of memory");
    case "IS_EMPTY": return new Closed("this was closed, or a page that it needs went elsewhere");
    case "WORN": return new Worn("the engine has made 1,000,000 frames: call renew()");
    case "TOO_MANY_PLANES": return new RangeError("six planes are in force, and there may be no more");
    case "OUTSIDE_GRID": return new RangeError("a place is not that of a point on the border, or it is that of a corner");
    case "BAD_MESH": return new RangeError("leaves have to be a conforming mesh of this grid, as leaves() gives them");
    case "SHRUNK": return new RangeError("border lacks a point that the tile had before");
    case "BAD_PAGE": return new BadPage(`${call}: the page has no place there, or may not go`);
    case "NOT_THERE": return new BadPage(`${call}: no such page is loaded`);
    default: return new Refused(`${call} answered ${name}`);
  }
}
