/** Turns C++ symbols, as Microsoft's compiler mangles them, into declarations. */

/** The version of the library. */
export declare const version: string;

/** Chooses how a declaration is printed. Flags are combined with |. */
export declare const Flags: {
  /** Drops `__cdecl` and the like, of pointers to functions too. */
  readonly NO_MS_KEYWORDS: 0x2;
  /** Drops everything before the name. */
  readonly NO_FUNCTION_RETURNS: 0x4;
  /** Changes nothing alone. */
  readonly NO_MS_THISTYPE: 0x20;
  /** Changes nothing alone. */
  readonly NO_CV_THISTYPE: 0x40;
  /** NO_MS_THISTYPE and NO_CV_THISTYPE: drops `const` and the like of member functions. */
  readonly NO_THISTYPE: 0x60;
  /** Drops `public` and the like, of functions only. */
  readonly NO_ACCESS_SPECIFIERS: 0x80;
  /** Drops `static` and `virtual`, of functions only. */
  readonly NO_MEMBER_TYPE: 0x200;
  /** Prints `__int64` and `__int128`. */
  readonly MS_TYPENAMES: 0x400;
  /** Changes nothing. */
  readonly DECODE_32_BIT: 0x800;
  /** Prints the name only. */
  readonly NAME_ONLY: 0x1000;
  /** Drops `class`, `struct`, `union` and `enum`. */
  readonly NO_CLASS_TYPE: 0x100000;
  /** Prints a space after each comma. */
  readonly SPACE_AFTER_COMMA: 0x200000;
  /** Drops the space before `*` and `&`. */
  readonly HUG_TYPE: 0x400000;
  /** Drops the space after `*` and `&`; under HUG_TYPE prints one before them after a word. */
  readonly SPACE_BEFORE_POINTER: 0x800000;
  /** Prints `__ptr64` after the parameters of a member function. */
  readonly WITH_PTR64: 0x1000000;
  /** Four of these: spelling near that of `llvm-undname`. */
  readonly LLVM: 0xE00400;
};

/** An error of a call, with its message. */
export declare class DemangleError extends Error {
  /**
   * INVALID: the text begins with no symbol of the grammar, under any limit. NOT_UTF8: bytes are not UTF-8.
   * TOO_MANY_NODES: it begins with no symbol of at most maxNodes nodes. TOO_LONG: the declaration has more than
   * maxBytes bytes.
   */
  readonly code: 'INVALID' | 'NOT_UTF8' | 'TOO_MANY_NODES' | 'TOO_LONG';
  /** Where in the symbol that is: in code units of a string, or in bytes. For TOO_LONG it is where the symbol ends. */
  readonly offset: number;
}

/** Limits for symbols that are not trusted. Infinity is no limit. */
export interface Limits {
  /** Limit on the nodes of the tree: each name and each type is a node. The default is 10,000. */
  maxNodes?: number;
  /** Limit on the bytes of the declaration in UTF-8. The default is 65,536. */
  maxBytes?: number;
}

/** Chooses how symbols are read. */
export interface Reading {
  /**
   * Names the grammar. 'full', the default, is what today's compilers write; its texts follow the compilers. 'crate' is
   * that of the Rust crate msvc-demangler 0.11.0; its texts never change, so a service that stores texts pins it.
   */
  grammar?: 'full' | 'crate';
}

/** Bytes, as a call takes them. */
export type Bytes = ArrayBufferLike | ArrayBufferView;

/**
 * Returns the declaration of the symbol that the text begins with.
 *
 * @throws {DemangleError} if there is none
 * @throws {RangeError} if memory or the stack runs out
 */
export declare function demangle(symbol: string | Bytes, flags?: number, options?: Reading & Limits): string;

/**
 * Returns the text with each symbol in it replaced by its declaration; all else stays. Bytes need not be UTF-8. A
 * symbol that exceeds a default limit or the stack stays.
 *
 * @throws {RangeError} if memory runs out
 */
export declare function filter(text: string, flags?: number, options?: Reading): string;
export declare function filter(text: Bytes, flags?: number, options?: Reading): Uint8Array;
export declare function filter(text: string | Bytes, flags?: number, options?: Reading): string | Uint8Array;

/**
 * Returns how much of the text the symbol takes that it begins with: in code units of a string, or in bytes.
 *
 * @throws {DemangleError} if it begins with none
 * @throws {RangeError} if memory or the stack runs out
 */
export declare function symbolLength(symbol: string | Bytes, options?: Reading & Pick<Limits, 'maxNodes'>): number;

/**
 * Returns the tree of the symbol that the text begins with, on one line, for a person to read. Its form may change.
 *
 * @throws {DemangleError} if it begins with none
 * @throws {RangeError} if memory or the stack runs out
 */
export declare function tree(symbol: string | Bytes, options?: Reading & Pick<Limits, 'maxNodes'>): string;

/** A digit that stands for a parameter before it. All are offsets, in code units of a string, or in bytes. */
export interface Reference {
  /** Where the digit is. */
  at: number;
  /** Where the parameter starts. */
  start: number;
  /** Where it ends. */
  end: number;
}

/**
 * Returns the back references of the symbol that the text begins with, in their order: the digits that stand for whole
 * parameters.
 *
 * @throws {DemangleError} if it begins with none
 * @throws {RangeError} if memory or the stack runs out
 */
export declare function references(symbol: string | Bytes, options?: Reading & Pick<Limits, 'maxNodes'>): Reference[];
