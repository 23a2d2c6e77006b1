/** A text: a string, or bytes that are UTF-8. */
export type Text = string | Uint8Array;

/** A line, and a column in it, both from 0. A column counts UTF-16 code units, as the index of a string does. */
export interface Position {
  readonly line: number;
  readonly column: number;
}

/** A position, or a pair of its line and its column. */
export type PositionLike = Position | readonly [line: number, column: number];

/** A match in the whole text, which may span lines. */
export interface Match {
  readonly start: Position;
  readonly stop: Position;
}

/** A match in a line: the columns where it starts and ends. */
export interface Span {
  readonly line: number;
  readonly start: number;
  readonly stop: number;
}

/**
 * Why a command is refused: `none`: there is no such buffer, no pattern, or no text to go back or forward to;
 * `range`: a position is nowhere, or positions are out of order; `utf8`: the text has a lone surrogate, or the
 * bytes are not UTF-8; `pattern`: the text is no pattern; `limit`: the pattern is too long, or weighs too
 * much; `size`: the text would be too long; `memory`: memory was refused.
 */
export type Word = "none" | "range" | "utf8" | "pattern" | "limit" | "size" | "memory";

/** What each word of a refusal says. */
export const REASONS: Readonly<Record<Word, string>>;

/** A command was refused. The session is as it was before. */
export class Refused extends Error {
  readonly name: "Refused";
  /** Why. */
  readonly word: Word;
  /** The word of the command, as the protocol has it: `text`, `edit`, `use` .. */
  readonly command: string;
}

/** How a program ended: its exit status, or the signal that ended it; both null if it was not started. */
export interface Exit {
  readonly status: number | null;
  readonly signal: string | null;
}

/** The program has ended, could not be started, or was closed. No command is carried out any more. */
export class Ended extends Error implements Exit {
  readonly name: "Ended";
  readonly status: number | null;
  readonly signal: string | null;
}

export interface Options {
  /**
   * The program. If it is not given: the file that the environment's `ROPE_SEARCH` names, else that of `bin/`
   * of the repository or release that this module is part of, else `rope-search` on the path.
   */
  readonly program?: string;
  /**
   * The milliseconds after which a program that has not replied is killed; 0, which is the default, waits as
   * long as it takes. A command can't be stopped otherwise.
   */
  readonly timeout?: number;
}

/** Returns where the program is if no other is named. */
export function programPath(): string;

/**
 * A session: buffers, of which one is chosen. All calls are about that one. The first buffer has an empty text
 * and no pattern.
 *
 * Commands are carried out in the order of the calls, and their promises are settled in that order. A call does
 * not wait for the one before; who awaits each promise has one command under way. A command that is refused
 * rejects with `Refused`, and all that have no reply when the program ends reject with `Ended`. A number that
 * is no line, column or buffer rejects with `RangeError`, and what is no text with `TypeError`; nothing is sent
 * then.
 */
export class Session {
  /** Starts the program. If that fails, each command rejects with `Ended`. */
  constructor(options?: Options);

  /** How many commands have no reply yet. */
  readonly pending: number;

  /** The number of the process, unless it could not be started. */
  readonly pid: number | undefined;

  /** Sets the text, and empties the history; the pattern stays. Refused: utf8, size, memory. */
  setText(text: Text): Promise<void>;

  /**
   * Replaces the text from one position to another, as one step of the history. Refused: range, utf8, size,
   * memory.
   */
  edit(start: PositionLike, stop: PositionLike, text: Text): Promise<void>;

  /** Goes one text back. Refused: none, memory. */
  undo(): Promise<void>;

  /** Goes one text forward. Refused: none, memory. */
  redo(): Promise<void>;

  /** Sets the pattern, in place of any other. Refused: utf8, pattern, limit, memory. */
  setPattern(pattern: Text): Promise<void>;

  /** Drops the pattern, if there is one. */
  off(): Promise<void>;

  /**
   * Finds the first match in the whole text that starts at a position or after it; null if there is none.
   * Refused: none, range, memory.
   */
  next(from: PositionLike): Promise<Match | null>;

  /**
   * Replaces all matches in the whole text, as one step of the history, and gives their number. In the
   * template, `$` and a digit are that group's text, `$$` is a dollar. Refused: none, utf8, size, memory.
   */
  replace(template: Text): Promise<number>;

  /**
   * Adds a buffer with the chosen one's text, and neither its history nor its pattern, and gives its number.
   * The chosen one stays chosen. Refused: memory.
   */
  fork(): Promise<number>;

  /** Chooses a buffer by its number, from 0. Refused: none. */
  choose(number: number): Promise<void>;

  /** Gives the text. */
  text(): Promise<string>;

  /** Gives the text as UTF-8. */
  textBytes(): Promise<Uint8Array>;

  /** Gives all matches of the report, line by line. Refused: none. */
  matches(): Promise<Span[]>;

  /**
   * Ends the session once all commands before are carried out, and gives how the program ended: with status 0.
   * It may be called again; further commands reject with `Ended`.
   */
  close(): Promise<Exit>;

  /** Ends the program at once. Commands without a reply reject with `Ended`. */
  kill(): Promise<Exit>;
}
