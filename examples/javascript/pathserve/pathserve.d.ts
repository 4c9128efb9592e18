/** The side of a navcell: coordinates and lengths are whole numbers. */
export const NAVCELL: number;
/** A length in navcells as a whole number, rounded down. */
export function fixed(navcells: number): number;

export const Status: Readonly<{
  DONE: 0; BAD_LINE: 3; NO_MEMORY: 6; TOO_LONG: 7; CLOSED: 16; OPEN: 17; OTHER: 18; ENDED: 19; NO_MAP: 20; BAD_VALUE: 21; SMALL: 22;
  PAST_LIMIT: 23; NO_JOURNAL: 24
}>;

/** What is wrong with a post, as `check` says it. */
export const PostFault: Readonly<{ WRONG_KIND: 1; WRONG_CALLER: 2; WRONG_CLASS: 3; WRONG_GOAL: 4; NOT_ZERO: 5 }>;

/** The kinds of posts, and of the goals of paths. */
export const PostKind: Readonly<{ ADD_UNIT: 1; ADD_SQUARE: 2; REMOVE: 3; MOVE: 4; PATH: 5; REGION: 6 }>;
export const GoalKind: Readonly<{ POINT: 1; CIRCLE: 2; NOT_CIRCLE: 3; SQUARE: 4; NOT_SQUARE: 5; OBSTRUCTION: 6 }>;

/** A call that ended with another status than DONE. Of a `feed` without memory, `taken` is how many bytes were taken. */
export class Failed extends Error {
  readonly status: number;
  readonly taken: number;
}

/** A script that opens no match: its line of this number is not in the grammar in its place, and why; or past its limit, without a
 * cause. */
export class BadScript extends Failed {
  readonly line: number;
  readonly cause: string;
}

export interface Cell { i: number; j: number }

/** A post, by the fields of the C struct; those that are left out are 0. */
export interface Post {
  kind: number; caller?: number; classNumber?: number; goal?: number; mask?: number; id?: number; x?: number; z?: number;
  goalX?: number; goalZ?: number; ux?: number; uz?: number; hw?: number; hh?: number; radius?: number;
}
export type GoalFields = Pick<Post, "goal" | "goalX" | "goalZ" | "ux" | "uz" | "hw" | "hh" | "radius" | "id">;

/** Adds a square along the axes under a number, for the classes of the mask. */
export function addUnit(caller: number, id: number, mask: number, x: number, z: number, half: number): Post;
/** Adds a rectangle along the unit vector (ux, uz) under a number, for the classes of the mask. */
export function addSquare(caller: number, id: number, mask: number, x: number, z: number, ux: number, uz: number, hw: number, hh: number): Post;
export function remove(caller: number, id: number): Post;
export function move(caller: number, id: number, x: number, z: number): Post;
/** Asks for a path of a class from the point (x, z) to a goal. */
export function path(caller: number, classNumber: number, x: number, z: number, goal: GoalFields): Post;
/** Asks in which region and area of a class the point (x, z) lies. */
export function region(caller: number, classNumber: number, x: number, z: number): Post;

/** Where a path shall lead. */
export const Goal: Readonly<{
  point(goalX: number, goalZ: number): GoalFields;
  circle(goalX: number, goalZ: number, radius: number, outside?: boolean): GoalFields;
  square(goalX: number, goalZ: number, ux: number, uz: number, hw: number, hh: number, outside?: boolean): GoalFields;
  obstruction(id: number, distance: number): GoalFields;
}>;

/** The reply to the post of this number among those of its caller. */
export interface Reply {
  caller: number;
  post: number;
  kind: "added" | "removed" | "moved" | "refused" | "nowhere" | "at-goal" | "near-goal" | "in-region" | "too-far";
  id?: number;
  why?: "bad-shape" | "duplicate-id" | "store-full" | "unknown-id" | "unknown-class" | "start-outside" | "goal-outside";
  path?: { start: Cell; end: Cell; cost: number; waypoints: Cell[] };
  region?: { chunk: Cell; region: number; area: number };
}

/** How far each step of a field leads, by its number: none, N, E, S, W, NE, SE, SW, NW, and where a unit stays. */
export const WAYS: readonly (readonly [number, number])[];
export const NO_STEP: 0;
export const STAYS: 9;

/** From each cell of a map the step to take to a goal that a group has in common, row by row: see `View.field`. */
export class FlowField {
  /** What `find` replies to the path, without waypoints. */
  readonly reply: Reply;
  readonly width: number;
  /** A number of `WAYS` for each cell: NO_STEP where the goal can't be reached, STAYS on it. */
  readonly steps: Uint8Array;
  /** The cost of the cheapest walk from each cell: Infinity where it has none. */
  readonly distances: Float64Array;
  /** Where a unit on this cell goes next: the cell itself where it has arrived, null where it can't. */
  next(cell: Cell): Cell | null;
  /** What the cheapest walk from this cell costs: Infinity where it has none. */
  distance(cell: Cell): number;
}

/** A turn's numbers, and the replies to its posts, caller by caller. */
export interface Turn { turn: number; regions: number; edges: number; areas: number; relabelled: number; replies: Reply[] }

export interface MapOfMatch {
  width: number;
  height: number;
  callers: number;
  classes: { name: string; clearance: number }[];
  base?: { i0: number; j0: number; i1: number; j1: number; mask: number }[];
  /** In place of `base`: a mask for each cell, that of cell (i, j) at place j * width + i. */
  masks?: readonly number[] | Uint16Array;
}

/** The words of the program that answer a script, each at its number. */
export const REPORTS: readonly Report[];
export type Report = "replay" | "profile" | "flow" | "smooth";

/** The library of the file `pathserve.wasm` beside this one, or of another place, of bytes, or of a module. */
export function load(source?: string | URL | ArrayBuffer | ArrayBufferView | WebAssembly.Module): Promise<Library>;

/** An instance of the library, with a memory of its own. */
export class Library {
  constructor(instance: WebAssembly.Instance);
  /** What the library says of a number, by `status_text` and its like, or of its version, by `version_text`. */
  textOf(name: "status_text" | "refusal_text" | "fault_text" | "version_text", ...numbers: number[]): string;
  /** A match by the text of its script, as the program plays it with one of the words `REPORTS`. */
  textMatch(report?: Report): TextMatch;
  /** A match on a map, whose turns are posts. */
  postedMatch(map: MapOfMatch): PostedMatch;
  /** A match in which the bytes of a whole script of version 3 were played, such as a journal or a snapshot. */
  scriptMatch(script: Uint8Array): PostedMatch;
  /** The line at which a script is bad, and why, as the program says it. Line 0 and no cause where none is. */
  causeOf(script: Uint8Array): { line: number; cause: string };
  /** The memory of searches, for views of any match of this library. */
  finder(): Finder;
}

declare class Owner {
  /** Frees what it has. Closing twice is no harm. */
  close(): void;
}

declare class Match extends Owner {
  /** What stands after the turns that have ended. */
  view(): View;
}

export class TextMatch extends Match {
  /** Feeds the next bytes or text, cut anywhere. What is told waits, also where this throws BAD_LINE. */
  feed(script: string | Uint8Array): void;
  /** Lets a line have at most so many bytes: `feed` throws PAST_LIMIT where one would have more, and takes nothing. */
  limitLine(most: number): void;
  /** Tells that no more bytes come. */
  finish(): void;
  /** Why the line is bad at which the match has stopped, as the program says it. Empty as long as no line was bad. */
  cause(): string;
  /** The bytes that wait. None waits then. */
  take(): Uint8Array;
  /** The text that waits. */
  takeText(): string;
}

export class PostedMatch extends Match {
  /** Posts, behind those that the turn has: all or none. */
  post(...posts: Post[]): void;
  /** The place of the first of these posts that `post` would refuse, and the PostFault; null where it would refuse none. */
  check(...posts: Post[]): { which: number; why: number } | null;
  /** Makes the edits of the turn, and answers its requests on what they leave. */
  endTurn(): Turn;
  /** Lets at most so many posts wait for the end of a turn: `post` throws PAST_LIMIT where there would be more. */
  limitPosts(most: number): void;
  /** The turns that have ended as the bytes of a script, which a TextMatch or the program answers alike. */
  journal(): Uint8Array;
  /** Lets go of the journal, and keeps none from then on: `journal` throws NO_JOURNAL. `forget` begins one again. */
  keepNoJournal(): void;
  /** Begins the journal anew, with one turn that adds what stands: the next turn is the second. */
  forget(): void;
  /** The digest of the turn that ended last; 0n where none has ended. */
  digest(): bigint;
}

/** What stood when it was made, to be looked at beside its match. */
export class View extends Owner {
  /** Another view of the same. */
  again(): View;
  /** What stands as the bytes of a script: the map, and one turn in which caller 0 adds all that stands. */
  snapshot(): Uint8Array;
  /** The digest of the snapshot: where two players have the same, the same stands. */
  digest(): bigint;
  passable(classNumber: number, i: number, j: number): boolean;
  /** The number of the cell's region in its chunk, or 0. */
  region(classNumber: number, i: number, j: number): number;
  /** The number of the cell's area, or 0: cells of one area can be reached from one another. */
  area(classNumber: number, i: number, j: number): number;
  /** Which cells of a row are passable: 1 or 0 of each. */
  row(classNumber: number, j: number, width: number): Uint8Array;
  /** The cell in which a path of a class from the point (x, z) starts: the one that holds it, or else the passable one nearest to
   * it. Null where there is none, or the point is not on the map. */
  nearest(classNumber: number, x: number, z: number): Cell | null;
  /** How a path would end, without a search: the kind of the reply that `find` gives, and the cell where it ends near its goal.
   * A post that asks for no path throws BAD_VALUE. */
  reachable(post: Post): { kind: "refused" | "nowhere" | "at-goal" | "near-goal"; end?: Cell };
  /** How many columns and rows the map has; 0 of a closed view. */
  size(): { width: number; height: number };
  /** The post by which caller 0 adds what stands under a number, or null. */
  standingAt(id: number): Post | null;
  /** All that stands, as the posts by which caller 0 adds it, by rising number. */
  standing(): Post[];
  /** Answers a path or a region at once, as a turn without edits would. The match knows nothing of it. */
  find(post: Post): Reply;
  /** The flow field of a path, one for a whole group, on a map of this size. Null where no path is answered: `find` says why. */
  field(post: Post, width: number, height: number): FlowField | null;
  /** Whether a straight line between the middles of two cells touches passable cells alone. */
  clear(classNumber: number, from: Cell, to: Cell): boolean;
  /** The fewest of a walk's waypoints that clear straight lines join. Failed with BAD_VALUE where these are those of no legal walk
   * from the start. */
  smooth(classNumber: number, start: Cell, waypoints: readonly Cell[]): Cell[];
}

/** Answers paths and regions by views, as `View.find` does and faster: see `Library.finder`. */
export class Finder extends Owner {
  /** What `view.find` answers to the post. */
  find(view: View, post: Post): Reply;
  /** What `view.find` answers to the post, if that is no path that costs more than `most`; else a reply of the kind "too-far". */
  findWithin(view: View, post: Post, most: number): Reply;
  /** What `view.find` answers to each of the posts, in their order. A reply's `post` is the place of its post. */
  findAll(view: View, posts: readonly Post[]): Reply[];
}
