/* wmod: checks WebAssembly 1.0 modules, and converts them to their canonical binary and to text.
 *
 * Link with -lwmod. The library calls only malloc, realloc, free, memcpy, memmove and memset of the program. It uses no
 * file, no clock, no environment, no printing, no lock, no thread and no global data. It never ends the program and
 * never unwinds. C89 and C++ read this file alike.
 *
 * Rules of every call
 *   Pointers      No pointer is NULL, except that one passed with length 0 may be. The caller owns what a call writes:
 *                 an answer, an output or a buffer. It may be uninitialised.
 *   Overlap       What a call writes, a handle too, overlaps no other argument. Bytes and options, which a call only
 *                 reads, may overlap.
 *   Heap          malloc, realloc and free belong to one allocator. A block from malloc or realloc is aligned to each
 *                 power of two up to 16 that divides its size: a block of 24 bytes to 8.
 *   Threads       There is no shared state. Calls may run at once if they share nothing that one of them writes.
 *   Signals       Calls allocate. Make none in a signal handler, or in the child of a fork of a threaded program.
 *   Memory        A call without a handle keeps nothing after it returns. If memory is refused, the status is
 *                 WMOD_MEMORY, and all that the call allocated is freed.
 *   Stack         A call needs less than 64 KiB of stack, however deeply the module is nested.
 */
#ifndef WMOD_H
#define WMOD_H

#include <stddef.h>
#include <stdint.h>

#ifdef __cplusplus
extern "C" {
#endif

/* The version of the interface in this file; wmod_version() returns that of the library. A change that breaks callers
 * raises the major number, an addition the minor one. */
#define WMOD_VERSION_MAJOR 1
#define WMOD_VERSION_MINOR 3
#define WMOD_VERSION (WMOD_VERSION_MAJOR * 65536u + WMOD_VERSION_MINOR)

/* The release, as `wmod --version` and `pkg-config --modversion wmod` print it. */
#define WMOD_RELEASE "0.1"

/* How a call ended. The exit statuses 0, 1, 2 and 4 of the command `wmod` mean the same. */
#define WMOD_VALID 0u    /* valid or written; from wmod_feed: nothing is refused so far */
#define WMOD_REFUSED 1u  /* the input is refused: not valid, or outside the profile or the limits */
#define WMOD_MISUSE 2u   /* an argument is out of range, or the handle is empty or finished; nothing was read */
#define WMOD_MEMORY 4u   /* memory was refused: nothing is known of the input */
#define WMOD_NO_ROOM 5u  /* from conversions only: the output is longer than the buffer; nothing was written */

/* The instructions and value types that a module may use: the number of a profile. Features are added to it by |, as in
 * WMOD_PROFILE_3 | WMOD_SIGN_EXT. */
#define WMOD_PROFILE_1 1u /* WebAssembly 1.0 without f32, f64 and the instructions on them */
#define WMOD_PROFILE_2 2u /* profile 1 and the five sign-extension instructions */
#define WMOD_PROFILE_3 3u /* all of WebAssembly 1.0 */
#define WMOD_PROFILE_4 4u /* profile 3 and the five sign-extension instructions */

/* The features, with the words for them that `wmod --features` takes: LLVM's, and compilers. Any other bit is
 * WMOD_MISUSE: an older library takes no feature that it does not know. */
#define WMOD_SIGN_EXT 0x100u /* sign-ext: the five sign-extension instructions, such as i32.extend8_s */
#define WMOD_CALL_INDIRECT_OVERLONG 0x200u /* call-indirect-overlong: a table index of several bytes in call_indirect, as clang writes it */
#define WMOD_NONTRAPPING_FPTOINT 0x400u /* nontrapping-fptoint: the eight truncations that saturate, such as i32.trunc_sat_f64_s */
#define WMOD_BULK_MEMORY_OPT 0x800u /* bulk-memory-opt: memory.copy and memory.fill */
#define WMOD_BULK_MEMORY 0x1800u /* bulk-memory: bulk-memory-opt, passive segments, and their instructions, such as memory.init */
#define WMOD_COMPILERS 0x3F00u /* compilers: all of the above, and floats: what clang and rustc emit by default */

/* Limits of an input, in bytes. A longer binary is refused as WMOD_WHY_TOO_LONG, unless its first bytes are refused for
 * another reason. A longer text is always refused as WMOD_WHY_TOO_LONG. */
#define WMOD_LIMIT_DEFAULT ((uint64_t)0xFFFFFFFFu)
#define WMOD_LIMIT_MOST ((uint64_t)1 << 62)

/* Why an input is refused. wmod_explain explains each reason. docs/REFUSALS.md also has a small input that gives it. */
enum {
  WMOD_WHY_MAGIC = 1, /* Magic */
  WMOD_WHY_VERSION = 2, /* Version */
  WMOD_WHY_SECTION_ID = 3, /* SectionId */
  WMOD_WHY_SECTION_ORDER = 4, /* SectionOrder */
  WMOD_WHY_SECTION_END = 5, /* SectionEnd */
  WMOD_WHY_BAD_NUMBER = 6, /* BadNumber */
  WMOD_WHY_BAD_UTF8 = 7, /* BadUtf8 */
  WMOD_WHY_BAD_BYTE = 8, /* BadByte */
  WMOD_WHY_FLOAT = 9, /* Float */
  WMOD_WHY_BAD_OPCODE = 10, /* BadOpcode */
  WMOD_WHY_TRUNCATED = 11, /* Truncated */
  WMOD_WHY_CODE_COUNT = 12, /* CodeCount */
  WMOD_WHY_BODY_END = 13, /* BodyEnd */
  WMOD_WHY_TOO_MANY_LOCALS = 14, /* TooManyLocals */
  WMOD_WHY_INDEX = 15, /* Index */
  WMOD_WHY_TYPE = 16, /* Type */
  WMOD_WHY_ARITY = 17, /* Arity */
  WMOD_WHY_LIMITS = 18, /* Limits */
  WMOD_WHY_SECOND = 19, /* Second */
  WMOD_WHY_DUPLICATE_EXPORT = 20, /* DuplicateExport */
  WMOD_WHY_START_TYPE = 21, /* StartType */
  WMOD_WHY_NOT_CONST = 22, /* NotConst */
  WMOD_WHY_IMMUTABLE = 23, /* Immutable */
  WMOD_WHY_ALIGN = 24, /* Align */
  WMOD_WHY_ELSE_PLACE = 25, /* ElsePlace */
  WMOD_WHY_TOO_LONG = 26, /* TooLong */
  WMOD_WHY_OUT_OF_MEMORY = 27, /* Memory */
  WMOD_WHY_MANY_FUNCTIONS = 28, /* ManyFunctions: more than the options allow */
  WMOD_WHY_MANY_LOCALS = 29, /* ManyLocals */
  WMOD_WHY_DEEP = 30, /* Deep */
  WMOD_WHY_DATA_COUNT = 31, /* DataCount */
  /* only from wmod_build: the contents of a section of the module's binary have 2^32 bytes or more */
  WMOD_WHY_TOO_LARGE = 100, /* TooLarge */
  /* only from wmod_build: the text writes no module of the profile, or memory was refused */
  WMOD_TEXT_NOT_UTF8 = 101, /* NotUtf8 */
  WMOD_TEXT_BAD_TOKEN = 102, /* BadToken */
  WMOD_TEXT_OPEN_COMMENT = 103, /* OpenComment */
  WMOD_TEXT_OPEN_STRING = 104, /* OpenString */
  WMOD_TEXT_BAD_ESCAPE = 105, /* BadEscape */
  WMOD_TEXT_EXPECTED = 106, /* Expected */
  WMOD_TEXT_UNKNOWN_WORD = 107, /* UnknownWord */
  WMOD_TEXT_BAD_INTEGER = 108, /* BadInteger */
  WMOD_TEXT_BAD_NAME = 109, /* BadName */
  WMOD_TEXT_UNKNOWN_ID = 110, /* UnknownId */
  WMOD_TEXT_REPEATED_ID = 111, /* RepeatedId */
  WMOD_TEXT_TYPE_USE = 112, /* TypeUse */
  WMOD_TEXT_IMPORT_PLACE = 113, /* ImportPlace */
  WMOD_TEXT_SECOND_START = 114, /* SecondStart */
  WMOD_TEXT_NOT_CONST = 115, /* NotConst */
  WMOD_TEXT_BAD_ALIGN = 116, /* BadAlign */
  WMOD_TEXT_LABEL_END = 117, /* LabelEnd */
  WMOD_TEXT_TOO_MANY_LOCALS = 118, /* TooManyLocals */
  WMOD_TEXT_FLOAT = 119, /* Float */
  WMOD_TEXT_OUT_OF_MEMORY = 120, /* Memory */
  WMOD_TEXT_BAD_FLOAT = 121 /* BadFloat */
};

/* The answer to an input. If the status is WMOD_VALID, `why` and `at` are 0. Otherwise the figures are 0. */
typedef struct wmod_answer {
  uint32_t status;    /* WMOD_VALID .. WMOD_MEMORY */
  uint32_t why;       /* WMOD_WHY_MAGIC .. WMOD_WHY_DATA_COUNT, or 0 */
  uint64_t at;        /* the bytes read up to and including the one that decided */
  uint64_t functions; /* the functions with a body */
  uint64_t moves;     /* the most pushes and pops on the two stacks in one body */
  uint64_t operands;  /* the greatest height of the operand stack in one body */
  uint64_t controls;  /* the greatest height of the control stack in one body */
  uint64_t probes;    /* the most probes of one search for a local */
} wmod_answer;

/* Judges an input that is in memory as a whole. Returns the answer's status: WMOD_MISUSE if `profile` is not a number of
 * a profile with features added, or the limit is above WMOD_LIMIT_MOST.
 *
 * Proved: WMOD_VALID comes only for valid modules of the profile within the limit, and WMOD_REFUSED only for other
 * inputs. With either status, the bytes alone determine the refusal, the offset and the figures. The meaning of a
 * refusal's name is proved as far as docs/REFUSALS.md says. WMOD_MISUSE comes if and only if the profile or the limit
 * is out of range. Tested, and not proved: WMOD_MEMORY comes only if memory was refused. */
uint32_t wmod_validate(const uint8_t *bytes, size_t length, uint32_t profile, uint64_t limit, wmod_answer *answer);

/* The options of a call. Start from the defaults, so that a field added later has its default too:
 *
 *   wmod_options options = WMOD_OPTIONS;
 *   options.profile = WMOD_PROFILE_2;
 *   options.functions = 10000;
 */
typedef struct wmod_options {
  uint64_t size;      /* sizeof(wmod_options); another size is WMOD_MISUSE */
  uint64_t profile;   /* WMOD_PROFILE_1 to WMOD_PROFILE_4, and features added by | */
  uint64_t max_bytes; /* at most WMOD_LIMIT_MOST */
  uint64_t functions; /* the most functions, imported ones counted */
  uint64_t locals;    /* the most declared locals of a function; parameters are not counted */
  uint64_t depth;     /* the most open blocks, loops and ifs in a function */
  uint64_t old_words; /* for wmod_build: 1 to read keywords of older tools too, such as get_local; else 0 */
} wmod_options;

/* No limit, for functions, locals and depth. Any number from 2^32 up means the same. */
#define WMOD_NO_LIMIT ((uint64_t)-1)
#define WMOD_OPTIONS \
  { sizeof(wmod_options), WMOD_PROFILE_1, WMOD_LIMIT_DEFAULT, WMOD_NO_LIMIT, \
    WMOD_NO_LIMIT, WMOD_NO_LIMIT, 0 }

/* Judges an input as wmod_validate does, by options. The same is proved, but for valid modules within all limits of the
 * options. WMOD_MISUSE comes if and only if `size`, `profile`, `max_bytes` or `old_words` is out of range. */
uint32_t wmod_validate_with(const uint8_t *bytes, size_t length, const wmod_options *options, wmod_answer *answer);

/* How a conversion ended. `why` and `at` are 0 unless the status is WMOD_REFUSED or WMOD_MEMORY. With WMOD_MEMORY, `at`
 * has no meaning. */
typedef struct wmod_output {
  uint32_t status; /* WMOD_VALID: written; WMOD_REFUSED, WMOD_MISUSE, WMOD_MEMORY or WMOD_NO_ROOM */
  uint32_t why;    /* WMOD_WHY_..; from wmod_build also WMOD_TEXT_.. */
  uint64_t at;     /* as in wmod_answer; from wmod_build as below */
  uint64_t length; /* WMOD_VALID: the bytes written. WMOD_NO_ROOM: the bytes that need room. Else 0 */
} wmod_output;

/* Conversions: each writes to the front of a buffer, which does not overlap the input, and leaves the rest of it
 * unchanged. It returns the output's status. With any but WMOD_VALID nothing is written to the buffer. A call with a
 * buffer of length 0 gives the length. It costs as much as a whole call: the bytes are made in memory first.
 *
 * wmod_canon: the canonical binary of a valid module. A buffer as long as the input is enough.
 * wmod_show: the text of a valid module. Thirty bytes may declare 2^32 - 1 locals: 17 GB of text. Limit the locals of
 *   a stranger's module by the options.
 * wmod_build: the canonical binary of the valid module that a text writes. It is refused with this `why`:
 *   WMOD_WHY_TOO_LONG   The text is longer than the limit. `at` is the limit plus 1.
 *   WMOD_TEXT_..        The text writes no module of the profile. `at` counts the bytes before the token that decided.
 *   WMOD_WHY_TOO_LARGE  A section of the module's binary would be too large. `at` is 0.
 *   any other           The module is refused. `at` is an offset in its canonical binary as the profile reads it.
 *
 * Proved: the bytes written are the canonical binary or the text of the module that the input spells or writes. This
 * module is valid, of the profile and within the limits. A refusal from wmod_canon or wmod_show is the one that
 * wmod_validate_with gives, if memory is refused to neither. wmod_build refuses only for the reasons above. A refusal
 * of the module is that of its canonical binary, whose length no option limits. The meaning of the name of a module's
 * refusal is proved as far as docs/REFUSALS.md says.
 *
 * Proved for a text within the limit, if the options are in range and memory was not refused: WMOD_TEXT_NOT_UTF8 comes
 * if and only if the text is not UTF-8. The next four come if and only if the text has a lexical error, each at its
 * offset. If the text writes no module, none of these five comes and `at` is the text's length, `why` is
 * WMOD_TEXT_EXPECTED. Tested: which other WMOD_TEXT_.. comes, and its `at`.
 * WMOD_TEXT_TOO_MANY_LOCALS is tested with a function that may have only two locals. */
uint32_t wmod_canon(const uint8_t *bytes, size_t length, const wmod_options *options, uint8_t *out, size_t room,
                    wmod_output *output);
uint32_t wmod_show(const uint8_t *bytes, size_t length, const wmod_options *options, uint8_t *out, size_t room,
                   wmod_output *output);
uint32_t wmod_build(const uint8_t *text, size_t length, const wmod_options *options, uint8_t *out, size_t room,
                    wmod_output *output);

/* Writes the name of a refusal, such as `BadOpcode`, and a 0 after it, as far as there is room. The last byte written
 * is 0 unless capacity is 0. Returns the length of the name, or 0 if the number is none of the above. */
size_t wmod_why_name(uint32_t why, char *name, size_t capacity);

/* Writes what a refusal means, a line feed, what to do about it, and a 0, as far as there is room: the sentences of
 * `wmod explain NAME`. They name the options of the command, such as `--max-locals` for `locals` of wmod_options. In
 * the sentences on a text, N is `at`. The last byte written is 0 unless capacity is 0. Returns the length of the text,
 * or 0 if the number is none of the above. WMOD_EXPLAIN_ROOM is a capacity that suffices for each text of this
 * release. */
#define WMOD_EXPLAIN_ROOM 1024
size_t wmod_explain(uint32_t why, char *text, size_t capacity);

/* Returns WMOD_VERSION of the library. */
uint32_t wmod_version(void);

/* The handle of an input in pieces (chunks of any length). It is a variable of the caller, and starts as
 * WMOD_VALIDATOR_EMPTY (all bytes 0). Do not copy it once it is begun: pass its address. Any thread may use a handle,
 * but one at a time: what passes it on, such as a lock or a join, orders the calls.
 *
 *   wmod_validator v = WMOD_VALIDATOR_EMPTY;
 *   wmod_answer answer;
 *   wmod_begin(&v, WMOD_PROFILE_1, WMOD_LIMIT_DEFAULT);
 *   while ((n = read(fd, piece, sizeof piece)) > 0 && wmod_feed(&v, piece, n) == WMOD_VALID) {}
 *   wmod_finish(&v, &answer);
 *   wmod_end(&v);
 *   if (n < 0) return 3;
 *
 * The last line is needed: if reading fails, the bytes before are not the whole input, and the answer is not for it.
 */
typedef struct wmod_validator {
  void *state;
} wmod_validator;
#define WMOD_VALIDATOR_EMPTY {0}

/* Begins an input. A handle in use is begun anew. WMOD_VALID: the handle takes pieces. WMOD_MISUSE comes if and only if
 * the profile or the limit is out of range: nothing changed. WMOD_MEMORY: the handle is empty. */
uint32_t wmod_begin(wmod_validator *v, uint32_t profile, uint64_t limit);

/* Begins an input as wmod_begin does, by options. WMOD_MISUSE comes if and only if `size`, `profile`, `max_bytes` or
 * `old_words` is out of range. */
uint32_t wmod_begin_with(wmod_validator *v, const wmod_options *options);

/* Takes the next piece, of any length, 0 too. WMOD_VALID: nothing is refused so far. WMOD_REFUSED and WMOD_MEMORY stay:
 * each later feed returns the same and reads nothing, and wmod_finish gives the reason. WMOD_MISUSE: the handle is
 * empty or its input was finished, and nothing changed. A handle takes pieces from its begin until wmod_finish. */
uint32_t wmod_feed(wmod_validator *v, const uint8_t *piece, size_t length);

/* Ends the input. The answer is the one that wmod_validate gives to the joined pieces, if memory is refused to neither.
 * A second call gives it again. WMOD_MISUSE: the handle is empty. */
uint32_t wmod_finish(wmod_validator *v, wmod_answer *answer);

/* The part of the format that a byte belongs to. */
enum {
  WMOD_AWAITS_NUMBER = 1,       /* a size, a count, an index or an immediate, in LEB128 */
  WMOD_AWAITS_NAME = 2,         /* a name */
  WMOD_AWAITS_VALUE_TYPE = 3,   /* a value type */
  WMOD_AWAITS_BLOCK_TYPE = 4,   /* a block type */
  WMOD_AWAITS_TYPE_FORM = 5,    /* the byte 60 that begins a function type */
  WMOD_AWAITS_LIMITS_FLAG = 6,  /* the flag of limits */
  WMOD_AWAITS_ELEMENT_TYPE = 7, /* the element type of a table */
  WMOD_AWAITS_MUTABILITY = 8,   /* the mutability of a global */
  WMOD_AWAITS_OPCODE = 9,       /* the first byte of an instruction */
  WMOD_AWAITS_TABLE_BYTE = 10,  /* a table index of a call_indirect, table.init or table.copy */
  WMOD_AWAITS_MEMORY_BYTE = 11, /* a byte 00 of a memory instruction */
  WMOD_AWAITS_KIND = 12,        /* the kind of an import, an export or the elements of a segment */
  WMOD_AWAITS_ANY = 13,         /* any byte: of a float constant, a data segment, or a custom section after its name */
  WMOD_AWAITS_OPCODE_NUMBER = 14 /* the first byte of the number behind the byte FC of an instruction */
};

/* The place of a byte in a module. WMOD_NONE stands for no value. */
struct wmod_place {
  uint32_t section; /* the id of its section: 0 for a custom section, else 1 to 12. WMOD_NONE in the header of the
                       module and at the id of a section */
  uint32_t item;    /* how many members of the section come before it, such as types or function bodies. WMOD_NONE in
                       the size and the count of a section, in a custom section, and outside of sections */
  uint32_t index;   /* the index of its member: `item`, and for a function or a global the imported ones before it.
                       WMOD_NONE where `item` is */
  uint32_t awaits;  /* WMOD_AWAITS_NUMBER .. WMOD_AWAITS_OPCODE_NUMBER, or 0 where `section` is WMOD_NONE */
  uint32_t byte;    /* the byte that was refused. WMOD_NONE if none was: the end of the input, the limit or memory
                       decided, or nothing is refused so far */
};
#define WMOD_NONE ((uint32_t)-1)

/* Gives the place of the byte that was refused; its offset is `at` of the answer. If none was, it is the place of the
 * next byte or, after wmod_finish, of the end of the input. A call before wmod_finish gives the same as one after it.
 * The handle stays as it is. Returns WMOD_VALID, or WMOD_MISUSE if the handle is empty: the place is then that of no
 * byte.
 *
 * Proved, unless memory was refused: the byte lies in `section`, after `item` members of it, if these are not
 * WMOD_NONE. The profile and the bytes before the byte alone determine `section`, `item` and `awaits`. Tested: the
 * meaning of `awaits`, and the other fields. */
uint32_t wmod_place(wmod_validator *v, struct wmod_place *place);

/* Writes what a refused byte begins in a later version of the standard, the features that this needs, what to do, and a
 * 0, as far as there is room. The three are lines, with line feeds between them. `why` is that of the answer, and
 * `place` is that of the byte. The features are the words of `wmod --features`, or else those of LLVM, such as
 * `reference-types`, with `, ` between them. What to do names the options of the command and of compilers. The last
 * byte written is 0 unless capacity is 0. Returns the length of the text, or 0 if the byte begins nothing of a later
 * version there. WMOD_EXPLAIN_ROOM is a capacity that suffices.
 *
 * Proved: the text is a line of the table of docs/LIMITS.md, and that line speaks of `why`. Tested: which line. */
size_t wmod_hint(uint32_t why, const struct wmod_place *place, char *text, size_t capacity);

/* Frees what the handle holds, at any moment, and leaves it empty. Does nothing if the handle is empty. */
void wmod_end(wmod_validator *v);

#ifdef __cplusplus
}
#endif
#endif
