/*
 * Fimbrast: MIDI Time Code and MIDI Machine Control for a cue desk.
 *
 * Link with libfimbrast.a, which `make library` writes to target/staticlib. Every call is total: it ends, stays inside the
 * bytes lent to it, and asks nothing of its caller beyond what is said here. Nothing is allocated and nothing is kept
 * between calls. Records go in and come back by value, but for those behind a pointer, which must point to a live one; a call
 * changes only one that is not const, and no other thread may use it meanwhile.
 *
 * Bytes are lent as a pointer and a length. The pointer may be null or dangling where the length is 0. A buffer that is
 * written must not overlap one that is read in the same call. A bool must be 0 or 1, as C's bool is.
 *
 * A name such as `MtcReader::receive` is that of the call in the Rust that the library was translated from. What that Rust does not
 * have, as `InfoFieldIndex::build`, is named as in the Rust crate of this library.
 *
 * `make write-bindings` makes this file from the Rattle source.
 */
#ifndef FIMBRAST_H
#define FIMBRAST_H

#if !defined(__x86_64__) || !defined(__LP64__) || !defined(__linux__)
#error "libfimbrast.a is built for x86-64 Linux, and this is another platform"
#endif

#include <stdbool.h>
#include <stddef.h>
#include <stdint.h>

#ifdef __cplusplus
extern "C" {
#endif

#define FIMBRAST_VERSION @NUMBER@
#define FIMBRAST_VERSION_STRING "@TEXT@"

/* The refusals by their numbers. 0 is none; with 4 the needed length is given. A later version may have more. */
@refusals

/* An answer that is no refusal: the message is of another kind, or for another device, or the field has no set of tracks. */
#define FIMBRAST_NOT_THIS 255
/* No piece, or no direction. */
#define FIMBRAST_NONE 255
#define FIMBRAST_FORWARD 0
#define FIMBRAST_REVERSE 1

@module version

/* The archive must be of this version: where it is not, the linker misses this call. `retain` keeps it where the linker drops unused sections. */
#if defined(__has_attribute)
#if __has_attribute(retain)
__attribute__((retain))
#endif
#endif
__attribute__((used)) static uint32_t (*const fimbrast_needed_version)(void) = @SYMBOL@;

@module time

@module generator

@module reader

/* The parts of an event's number. Of a refused byte the refusal is 13 and all else 0: ask for the refusal before the piece. */
#define FIMBRAST_EVENT_PIECE(event) ((uint8_t)((event) & 0xFF))
#define FIMBRAST_EVENT_BOUNDARY(event) (((event) & 0x100) != 0)
#define FIMBRAST_EVENT_REPORT(event) (((event) & 0xFFFFFFFFFFFFFF) >> 9)
#define FIMBRAST_EVENT_REFUSAL(event) ((uint8_t)((event) >> 56))

@module feed

@heading message

/* What fimbrast_mmc_kind answers for a message. */
#define FIMBRAST_COMMANDS 0
#define FIMBRAST_RESPONSES 128

@module message

@module code

@heading string

/* The kinds of a command, and what each uses. */
enum {
    FIMBRAST_STOP = 0,
    FIMBRAST_PLAY = 1,
    FIMBRAST_DEFERRED_PLAY = 2,
    FIMBRAST_FAST_FORWARD = 3,
    FIMBRAST_REWIND = 4,
    FIMBRAST_RECORD_STROBE = 5,
    FIMBRAST_RECORD_EXIT = 6,
    FIMBRAST_PAUSE = 7,
    FIMBRAST_RESET = 8,
    FIMBRAST_WRITE = 9,          /* data */
    FIMBRAST_LOCATE_FIELD = 10,  /* first: the register */
    FIMBRAST_LOCATE_TARGET = 11, /* code */
    FIMBRAST_MOVE = 12,          /* first: the destination, second: the source */
    FIMBRAST_OTHER_COMMAND = 13  /* name and data; any kind above 13 is taken as this */
};

/* The kinds of an information field, and what each uses. */
enum {
    FIMBRAST_TIME_CODE = 0,  /* field, code */
    FIMBRAST_SHORT = 1,      /* field, short_code */
    FIMBRAST_OTHER_FIELD = 2 /* name and data; any kind above 2 is taken as this */
};

@module string

@module index

@heading track_set

/* The name of the field that has a set of tracks, 4FH, and the most data bytes of a set. */
#define FIMBRAST_TRACK_RECORD_READY 79
#define FIMBRAST_TRACK_BYTES 9
/* The positions below the tracks. Track n, 1 to 58, is position n + 4. */
#define FIMBRAST_POSITION_VIDEO 0
#define FIMBRAST_POSITION_RESERVED 1
#define FIMBRAST_POSITION_TIME_CODE 2
#define FIMBRAST_POSITION_AUX_A 3
#define FIMBRAST_POSITION_AUX_B 4

@module track_set

@module write

@module apply

@module obey

#ifdef __cplusplus
}
#endif

#endif
