/** A text: a string, or bytes that are UTF-8. */
export type Text = string | Uint8Array;

/** A line, and a column in it, both from 0. A column counts UTF-16 code units, as the index of a string does. */
export interface Position {
  readonly line: number;
  readonly column: number;
}

/** A position, or a pair of its line and its column. */
export type PositionLike = Position | readonly [line: number, column: number];

/** What a column counts: bytes, UTF-16 code units, or scalar values. */
export type Bits = 8 | 16 | 32;

/** A match in the whole text, which may span lines. */
export interface Match {
  readonly start: Position;
  readonly stop: Position;
}

/** A match in a line: the columns where it starts and ends. */
export interface Span {
  readonly line: number;
  readonly start: number;
  readonly stop: number;
}

/** A group of a match in a line. If it takes no part in the match, it is not found, and the columns are 0. */
export interface Group extends Span {
  readonly found: boolean;
}

/** A match of the report, with its number in its line, from 0. */
export interface Listed extends Span {
  readonly number: number;
}

/** A match's number among all matches of the report, from 0, and the number of all. */
export interface ListIndex {
  readonly index: number;
  readonly count: number;
}

/** Rows that were replaced: `removed` rows from `first` on gave way to `added` rows. */
export interface Stretch {
  readonly first: number;
  readonly removed: number;
  readonly added: number;
}

/** A range of the old text, in bytes, and the range of the new text that took its place. */
export interface TextChange {
  readonly oldStart: number;
  readonly oldEnd: number;
  readonly newStart: number;
  readonly newEnd: number;
}

/** The rows that were made, and the searches of a whole text. */
export interface Counts {
  readonly rows: number;
  readonly wholes: number;
}

/** An edit of several that are made as one, or a triple of its positions and its text. */
export type TextEdit =
  | { readonly start: PositionLike; readonly stop: PositionLike; readonly text: Text }
  | readonly [start: PositionLike, stop: PositionLike, text: Text];

/** The byte of a pattern at which the first character begins that can't be there, and why. */
export interface PatternError {
  readonly place: number;
  readonly reason: string;
}

/** Why a text is no pattern. */
export const REASONS: readonly string[];

/** The word of a refusal, as the protocol has it. */
export type Word = "none" | "range" | "utf8" | "pattern" | "limit" | "size" | "memory" | "closed";

/** A call was refused. The session is as it was before. The name of the class is that of the refusal. */
export class Refused extends Error {
  readonly word: Word;
  /** The call, by its name in C. */
  readonly call: string;
}

/** There is no such buffer, no pattern, or no text to go back or forward to. */
export class Nothing extends Refused {}
/** A position is nowhere in the text, or positions are out of order. */
export class Range extends Refused {}
/** The text has a lone surrogate, or the bytes are not UTF-8. */
export class Utf8 extends Refused {}
/** The text is no pattern. */
export class Pattern extends Refused implements PatternError {
  readonly place: number;
  readonly reason: string;
}
/** The pattern has more than 65,536 bytes, or weighs too much. */
export class Limit extends Refused {}
/** The text or the template would have more bytes than the limit. */
export class Size extends Refused {}
/** Memory was refused, by the module's heap or by the engine. */
export class Memory extends Refused {}
/** The session is closed. */
export class Closed extends Refused {}

/**
 * A call did not return: it ran out of stack, or the module has a fault. No call of the library is made after
 * it, and its sessions are lost. `load` gives another library.
 */
export class Broken extends Error {}

/** Whether this engine has what the module needs: 64-bit memories. */
export function isSupported(): boolean;

/** Where the module is: its URL, a response, its bytes, or a compiled module, which loads at once. */
export type Source = URL | string | Response | ArrayBuffer | ArrayBufferView | WebAssembly.Module;

/** Loads the library. Without a source it is `rope_search.wasm` beside this file, else in `bin/` of the repository. */
export function load(source?: Source): Promise<Library>;

/** The library, loaded once. Its sessions share one memory, which grows and never shrinks. */
export class Library {
  private constructor();

  /**
   * Opens a session of one buffer, with an empty text and no pattern, whose texts have at most `limit` bytes:
   * 1 GiB if it is left out. Refused: Size, Memory.
   */
  open(options?: { readonly limit?: number }): Session;

  /** How many bytes the memory has. */
  readonly memoryBytes: number;

  /** The version: 1,000,000 times its first number, 1,000 times its second, and its third. */
  version(): number;

  /** Returns where and why a text is no pattern, or null. Refused: Utf8, Memory. */
  patternError(pattern: Text): PatternError | null;

  /**
   * Returns a pattern that matches that text only: the text with a backslash before each character that has a
   * meaning of its own in a pattern. Refused: Utf8; Limit, if the pattern would have more than 65,536 bytes; Memory.
   */
  escape(text: Text): string;
}

/**
 * Buffers, of which one is chosen. All calls are about that one. The methods are the calls of rope_search.h,
 * which says what each does; each throws Closed once the session is closed. A number that is no line, column or
 * offset throws RangeError, and what is no text TypeError; the module is not called then.
 */
export class Session {
  private constructor();

  readonly library: Library;

  /** Closes the session, and frees its memory for other sessions of the library. It may be called again. */
  close(): void;

  // ---- commands

  /** Sets the text, and empties the history; the pattern stays. Refused: Utf8, Size, Memory. */
  setText(text: Text): void;
  /** Replaces the text from one position to another. Refused: Range, Utf8, Size, Memory. */
  edit(start: PositionLike, stop: PositionLike, text: Text): void;
  /**
   * Makes several edits as one, all or none. Their positions are in the text before any of them, and ascend.
   * Refused: Range, Utf8, Size, Memory.
   */
  editAll(edits: Iterable<TextEdit>): void;
  /** Replaces a range of bytes. Refused: Range, Utf8, Size, Memory. */
  editBytes(from: number, to: number, text: Text): void;
  /** Goes one text back. Refused: Nothing, Memory. */
  undo(): void;
  /** Goes one text forward. Refused: Nothing, Memory. */
  redo(): void;
  /** Sets the pattern. Refused: Utf8, Pattern, Limit, Memory. */
  setPattern(pattern: Text): void;
  /** Drops the pattern, if there is one. */
  off(): void;
  /** Finds the first match in the whole text from a position on. Refused: Nothing, Range, Memory. */
  next(from: PositionLike): Match | null;
  /**
   * Finds the first matches in the whole text from a position on, at most `room`, or 1,024 if it is left out: of
   * those that `replace` replaces, found from the text's start in one search. Refused: Nothing, Range, Memory.
   */
  nextAll(from: PositionLike, room?: number): Match[];
  /** Replaces all matches in the whole text, and returns their number. Refused: Nothing, Utf8, Size, Memory. */
  replace(template: Text): number;
  /** Replaces the match of a number in a line's row. Refused: Nothing, Range, Utf8, Size, Memory. */
  replaceMatch(line: number, number: number, template: Text): void;
  /**
   * Replaces the matches that the report lists in the lines `from` up to, not including, `to`, and returns their
   * number. Refused: Nothing, Utf8, Size, Memory.
   */
  replaceListed(from: number, to: number, template: Text): number;
  /** Adds a buffer with the chosen one's text, and returns its number. Refused: Memory. */
  fork(): number;
  /** Chooses a buffer. Refused: Nothing. */
  choose(number: number): void;
  /** Drops the history. */
  forget(): void;
  /** Drops all undo steps but the last ones. */
  keep(steps: number): void;
  /** Makes the last undo steps one. Refused: Nothing, Memory. */
  join(steps: number): void;

  // ---- buffers and history

  buffers(): number;
  chosen(): number;
  canUndo(): boolean;
  canRedo(): boolean;
  undoSteps(): number;
  redoSteps(): number;

  // ---- the text

  /** The bytes of the text. */
  textLen(): number;
  /** The lines of the text: at least 1. */
  textLines(): number;
  /** The text, or a range of its bytes. Refused: Range, Memory. */
  text(from?: number, to?: number): string;
  /** The same as UTF-8. Refused: Range, Memory. */
  copyText(from: number, to: number): Uint8Array;
  /** A line's text, without its break. Refused: Range, Memory. */
  line(line: number): string;
  /** The same as UTF-8. Refused: Range, Memory. */
  copyLine(line: number): Uint8Array;
  /** The length of a line's text, in UTF-16 code units by default. Refused: Range. */
  lineLen(line: number, bits?: Bits): number;
  /** The byte at a position. Refused: Range. */
  byteOf(position: PositionLike): number;
  /** The position of a byte. Refused: Range. */
  positionOf(byte: number): Position;
  /** The column of a position, counted otherwise. Refused: Range. */
  columnIn(position: PositionLike, bits?: Bits): number;
  /** The position of a line and a column that is counted otherwise. Refused: Range. */
  positionIn(position: PositionLike, bits?: Bits): Position;
  /** The position nearest to a line and a column. Refused: Range, for other bits. */
  clamp(position: PositionLike, bits?: Bits): Position;

  // ---- the report

  /** The rows of the report: one for each line, or 0 without a pattern. */
  rows(): number;
  countMatches(from: number, to: number): number;
  /** The matches of all rows, or of some. Refused: Memory. */
  matches(from?: number, to?: number): Span[];
  copyMatches(from: number, to: number): Span[];
  copyMatchesIn(from: number, to: number, bits?: Bits): Span[];
  /** The groups 0 to 9 of a match, by its line and its number there. Refused: Nothing, Range, Memory. */
  groupsAt(line: number, number: number): Group[];
  /** The first listed match that starts at a position or after it. */
  listedFrom(position: PositionLike): Listed | null;
  /** The last listed match that starts before a position. */
  listedBefore(position: PositionLike): Listed | null;
  /** The number of a match, by its line and its number there, among all. */
  listIndex(line: number, number: number): ListIndex | null;
  /** The rows that the last accepted command on the chosen buffer replaced. */
  changed(): Stretch;
  /** The ranges in which the last accepted command on the chosen buffer replaced its text. Refused: Memory. */
  textChanges(): TextChange[];
  /** Begins a text that arrives in parts, such as a file read in slices. The buffer's text stays until `endText`. */
  beginText(): void;
  /**
   * Adds the next bytes of the text that arrives, which may end inside a character. Refused: Nothing if no text was
   * begun; Utf8, Size, Memory, as soon as it is known that `endText` will be.
   */
  appendPart(part: Text): void;
  /** Sets the text to the one that arrived. After this none arrives. Refused: Nothing, Utf8, Size, Memory. */
  endText(): void;
  /** Drops the text that arrives, if one was begun. */
  cancelText(): void;
  /** Makes a pattern pending: `advance` makes its report in slices. Refused: Utf8, Pattern, Limit, Memory. */
  beginPattern(pattern: Text): void;
  /** Searches further lines for the pending pattern, and returns whether all are done. Refused: Nothing, Memory. */
  advance(maxLines: number): boolean;
  /** Drops the pending pattern. */
  cancel(): void;
  /** The number of lines that are done for the pending pattern. */
  pending(): number | null;
  /** The number of matches in lines that are done. Refused: Nothing. */
  countPending(from: number, to: number): number;
  /** The matches in lines that are done. Refused: Nothing, Memory. */
  copyPending(from: number, to: number): Span[];
  /** The matches of lines under the pending pattern. Lines that are not done are searched. Refused: Nothing, Memory. */
  window(from: number, to: number): Span[];
  counted(): Counts;
}
