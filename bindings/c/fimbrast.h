/*
 * Fimbrast: MIDI Time Code and MIDI Machine Control for a cue desk.
 *
 * Link with libfimbrast.a, which `make library` writes to target/staticlib. Every call is total: it ends, stays inside the
 * bytes lent to it, and asks nothing of its caller beyond what is said here. Nothing is allocated and nothing is kept
 * between calls. Records go in and come back by value, but for those behind a pointer, which must point to a live one; a call
 * changes only one that is not const, and no other thread may use it meanwhile.
 *
 * Bytes are lent as a pointer and a length. The pointer may be null or dangling where the length is 0. A buffer that is
 * written must not overlap one that is read in the same call. A bool must be 0 or 1, as C's bool is.
 *
 * A name such as `MtcReader::receive` is that of the call in the Rust that the library was translated from. What that Rust does not
 * have, as `InfoFieldIndex::build`, is named as in the Rust crate of this library.
 *
 * `make write-bindings` makes this file from the Rattle source.
 */
#ifndef FIMBRAST_H
#define FIMBRAST_H

#if !defined(__x86_64__) || !defined(__LP64__) || !defined(__linux__)
#error "libfimbrast.a is built for x86-64 Linux, and this is another platform"
#endif

#include <stdbool.h>
#include <stddef.h>
#include <stdint.h>

#ifdef __cplusplus
extern "C" {
#endif

#define FIMBRAST_VERSION 700
#define FIMBRAST_VERSION_STRING "0.7.0"

/* The refusals by their numbers. 0 is none; with 4 the needed length is given. A later version may have more. */
enum {
    FIMBRAST_REFUSED_DATA_BYTE = 1,          /* a byte above 7FH in a written name or data */
    FIMBRAST_REFUSED_LENGTH = 2,             /* a length that the format does not allow */
    FIMBRAST_REFUSED_OUT_OF_RANGE = 3,       /* a value outside the range of its field */
    FIMBRAST_REFUSED_BUFFER_TOO_SMALL = 4,   /* the buffer is shorter than the whole output */
    FIMBRAST_REFUSED_DEVICE = 5,             /* a device above 127 */
    FIMBRAST_REFUSED_SOURCE = 6,             /* a start and length that are not inside the lent source */
    FIMBRAST_REFUSED_TARGET = 7,             /* a Locate target that is blank or not valid */
    FIMBRAST_REFUSED_STOPPED = 8,            /* the generator is stopped */
    FIMBRAST_REFUSED_END = 9,                /* the reading place is at or past the end */
    FIMBRAST_REFUSED_ITEM_LIMIT = 10,        /* 256 items were already accepted in this writing */
    FIMBRAST_REFUSED_NO_FIELD = 11,          /* an index has no field under this name */
    FIMBRAST_REFUSED_TRACK = 12,             /* more than nine bytes of tracks, a track outside 1 to 58, or no armed track to be the lowest */
    FIMBRAST_REFUSED_STATUS_BYTE = 13,       /* a quarter frame's byte of 80H or more, which is a status byte */
};

/* An answer that is no refusal: the message is of another kind, or for another device, or the field has no set of tracks. */
#define FIMBRAST_NOT_THIS 255
/* No piece, or no direction. */
#define FIMBRAST_NONE 255
#define FIMBRAST_FORWARD 0
#define FIMBRAST_REVERSE 1

/* ---- The version */

/* The version as one number: 10,000 for each whole version, 100 for each minor one, and the patch. */
uint32_t fimbrast_version(void);
/* The same under a name that has the version. A program refers to it, so that an archive of another version does not link. */
uint32_t fimbrast_version_0_7_0(void);

/* The archive must be of this version: where it is not, the linker misses this call. `retain` keeps it where the linker drops unused sections. */
#if defined(__has_attribute)
#if __has_attribute(retain)
__attribute__((retain))
#endif
#endif
__attribute__((used)) static uint32_t (*const fimbrast_needed_version)(void) = fimbrast_version_0_7_0;

/* ---- Labels, and the quarter frames of a label */

/* A label. Rates: 0 is 24, 1 is 25, 2 is 30 drop-frame, 3 is 30 frames per second. Only the two low bits of a rate are read. */
typedef struct {
    uint8_t hours;
    uint8_t minutes;
    uint8_t seconds;
    uint8_t frames;
    uint8_t rate;
} fimbrast_time;

/* A quarter frame's piece and value. */
typedef struct {
    uint8_t piece;
    uint8_t value;
} fimbrast_quarter_frame;

/* What a byte is read as: refusal 0 and a quarter frame, or a refusal and zeros. */
typedef struct {
    uint8_t refusal;
    fimbrast_quarter_frame frame;
} fimbrast_read_frame;

/* The data bytes of pieces 0 to 7. */
typedef struct {
    uint8_t bytes[8];
} fimbrast_eight_bytes;

/* The frames of a counting second: 24, 25 or 30. */
uint8_t fimbrast_frames_per_second(uint8_t rate);
/* `MtcTime::new`: 0, or 3 for a label that is not valid. */
uint8_t fimbrast_time_new(fimbrast_time time);
/* `MtcTime::is_valid`: each count is in its range, and drop-frame does not skip the number. */
bool fimbrast_is_valid(fimbrast_time time);
/* `MtcTime::next_valid`: frame 02 for a number that drop-frame skips, else the label itself. */
fimbrast_time fimbrast_next_valid(fimbrast_time time);
/* `MtcTime::to_frame_count`: the frames from 00:00:00:00 to the label. */
uint32_t fimbrast_to_frame_count(const fimbrast_time *time);
/* `MtcTime::from_frame_count`: the label of a count, round midnight. */
fimbrast_time fimbrast_from_frame_count(uint32_t count, uint8_t rate);
/* `MtcTime::add_frames`: the label so many frames later, or earlier, round midnight. */
fimbrast_time fimbrast_add_frames(fimbrast_time time, int32_t delta);
/* `QuarterFrame::from_byte`: the piece and value of a data byte, or refusal 13 and zeros for a byte of 80H or more. */
fimbrast_read_frame fimbrast_quarter_frame_read(uint8_t byte);
/* `QuarterFrame::to_byte`: the data byte of a piece and value. */
uint8_t fimbrast_quarter_frame_byte(fimbrast_quarter_frame frame);
/* `QuarterFrame::pieces`: the data bytes of pieces 0 to 7. */
fimbrast_eight_bytes fimbrast_pieces(fimbrast_time time);

/* ---- The quarter frame generator */

/* A generator. Direction 0 is forward, any other reverse. A last piece above 7 is none, and an answer has 255 for it. */
typedef struct {
    fimbrast_time time;
    uint8_t direction;
    uint8_t last;
    bool running;
} fimbrast_generator;

/* Refusal 0 and a data byte, or a refusal and byte 0. */
typedef struct {
    uint8_t refusal;
    uint8_t byte;
} fimbrast_next;

/* `MtcGenerator::new`, forward: a running generator, whose first sequence encodes the time. */
fimbrast_generator fimbrast_generator_forward(fimbrast_time time);
/* The same in reverse. */
fimbrast_generator fimbrast_generator_reverse(fimbrast_time time);
/* `MtcGenerator::next_byte`: the next data byte, or refusal 8 and byte 0 while stopped. */
fimbrast_next fimbrast_next_byte(fimbrast_generator *generator);
/* `MtcGenerator::set_running`: runs or stops it. */
fimbrast_generator fimbrast_set_running(fimbrast_generator generator, bool running);
/* `MtcGenerator::set_direction`, forward. The next piece is the one beside the last in that direction. */
fimbrast_generator fimbrast_set_forward(fimbrast_generator generator);
/* The same in reverse. */
fimbrast_generator fimbrast_set_reverse(fimbrast_generator generator);
/* `MtcGenerator::locate`: moves to the time. The next piece is the first of the direction. */
fimbrast_generator fimbrast_locate(fimbrast_generator generator, fimbrast_time time);
/* `MtcGenerator::time`: what the current or next sequence encodes. */
fimbrast_time fimbrast_generator_time(fimbrast_generator generator);

/* ---- The quarter frame reader */

/* A reader in fifteen words: eight nibbles, the order, the first piece, the lock, and a mark and a word each for the previous and the
 * current label. Any words are a reader in its ranges; `fimbrast_reader_parts` says which. */
typedef struct {
    uint32_t words[15];
} fimbrast_reader;

/* What a byte gives, as one number, which comes back in a register: the piece in the lowest byte, the boundary in bit 8, and from bit 9
 * on the report of the sequence that it ends. The highest byte is the refusal, 0 for none; a refused byte gives nothing else. */
typedef uint64_t fimbrast_event;

/* A time, where `present` is true. Where it is false the time is all zeros in an answer, and is not read in an argument. */
typedef struct {
    bool present;
    fimbrast_time time;
} fimbrast_maybe_time;

/* A reader field by field. A last piece above 7 is none; direction 0 is forward, 1 reverse, any other none.
 * An answer has 255 for none. */
typedef struct {
    uint8_t nibbles[8];
    uint8_t count;
    uint8_t first;
    uint8_t last;
    uint8_t direction;
    bool locked;
    bool running;
    fimbrast_maybe_time previous;
    fimbrast_maybe_time time;
} fimbrast_reader_fields;

/* A report as one number; 0 is no report. From the lowest bit: 1, the direction, the discontinuity. Its labels stay in the reader;
 * `fimbrast_report_parts` takes both together. */
typedef uint64_t fimbrast_report;

/* The end of a full sequence: the label as it was assembled, the current one, the direction, and whether the assembled label does not
 * follow the one before it. */
typedef struct {
    fimbrast_time raw;
    fimbrast_time current;
    uint8_t direction;
    bool discontinuity;
} fimbrast_sequence;

/* A report, where `present` is true. Where it is false the sequence is all zeros. */
typedef struct {
    bool present;
    fimbrast_sequence sequence;
} fimbrast_maybe_sequence;

/* `MtcReader::new`: not locked, and stopped. */
fimbrast_reader fimbrast_reader_new(void);
/* `MtcReader::receive`: takes one byte. One of 80H or more is refused by 13, in the number's highest byte, and leaves the reader as it was. */
fimbrast_event fimbrast_receive(fimbrast_reader *reader, uint8_t byte);
/* `MtcReader::full_message`, with the message's time: the reader is then stopped at it. */
void fimbrast_reader_full_message(fimbrast_reader *reader, fimbrast_time time);
/* `MtcReader::is_locked`: true after a full sequence, until a broken order, a turn or a full message. */
bool fimbrast_is_locked(fimbrast_reader reader);
/* `MtcReader::is_running`: true after a data byte, false after a full message. */
bool fimbrast_is_running(fimbrast_reader reader);
/* `MtcReader::direction`: 0 forward, 1 reverse, 255 none. */
uint8_t fimbrast_reader_direction(fimbrast_reader reader);
/* `MtcReader::time`: the current time of the last full sequence, or the time of a full message after it. */
fimbrast_maybe_time fimbrast_reader_time(fimbrast_reader reader);
/* The reader field by field. */
fimbrast_reader_fields fimbrast_reader_parts(fimbrast_reader reader);
/* The report of a number with the labels of the reader that it left, before the reader gets anything more. It is none where the
 * number's lowest bit is 0. */
fimbrast_maybe_sequence fimbrast_report_parts(fimbrast_reader reader, fimbrast_report report);

/* The parts of an event's number. Of a refused byte the refusal is 13 and all else 0: ask for the refusal before the piece. */
#define FIMBRAST_EVENT_PIECE(event) ((uint8_t)((event) & 0xFF))
#define FIMBRAST_EVENT_BOUNDARY(event) (((event) & 0x100) != 0)
#define FIMBRAST_EVENT_REPORT(event) (((event) & 0xFFFFFFFFFFFFFF) >> 9)
#define FIMBRAST_EVENT_REFUSAL(event) ((uint8_t)((event) >> 56))

/* ---- A list of bytes given to a reader */

/* Of a list of bytes: how many sequences it reported, how many of those with a discontinuity, the last report, whose labels stand in the
 * reader, and how many bytes were refused. */
typedef struct {
    size_t reports;
    size_t discontinuities;
    fimbrast_report last;
    size_t refused;
} fimbrast_fed;

/* `MtcReader::receive` for each of the bytes, which must not overlap the reader. A refused byte is counted, and the others are received. */
fimbrast_fed fimbrast_feed(fimbrast_reader *reader, const uint8_t *bytes, size_t bytes_length);

/* ---- Universal messages, full messages, user bits, and machine control messages, by their split parts */

/* What fimbrast_mmc_kind answers for a message. */
#define FIMBRAST_COMMANDS 0
#define FIMBRAST_RESPONSES 128

/* The split parts of a Universal message but its data. */
typedef struct {
    bool real_time;
    uint8_t device_id;
    uint8_t sub_id1;
    bool has_sub_id2;
    uint8_t sub_id2;
} fimbrast_universal;

/* What a writing answers: refusal 0 and the length; 4 and the needed length; any other refusal and 0. */
typedef struct {
    uint8_t refusal;
    size_t length;
} fimbrast_written;

/* A full message as it was read. Answer 0 is a message, 255 another kind, any other number a refusal.
 * Without a message all else is 0. */
typedef struct {
    uint8_t answer;
    uint8_t device_id;
    fimbrast_time time;
} fimbrast_full_message;

/* Binary Groups 1 to 8, four bits each, and the two flag bits. */
typedef struct {
    uint8_t device_id;
    uint8_t groups[8];
    uint8_t flags;
} fimbrast_user_bits;

/* User bits as they were read; the answer is as in a full message. */
typedef struct {
    uint8_t answer;
    fimbrast_user_bits bits;
} fimbrast_read_user_bits;

/* The groups as four bytes. */
typedef struct {
    uint8_t bytes[4];
} fimbrast_four_bytes;

/* A message of commands or of responses; the answer is as in a full message. */
typedef struct {
    uint8_t answer;
    bool responses;
    uint8_t device_id;
} fimbrast_mmc_message;

/* `addressed`: a message for `device_id` is for the device `own`. */
bool fimbrast_addressed(uint8_t device_id, uint8_t own);
/* `has_sub_id2`: messages of this family carry a Sub-ID#2. */
bool fimbrast_has_sub_id2(bool real_time, uint8_t sub_id1);
/* `Universal::write`: the whole message, F0H to F7H. */
fimbrast_written fimbrast_universal_write(fimbrast_universal header, const uint8_t *data, size_t data_length, uint8_t *out,
                                          size_t out_length);
/* `FullMessage::from_universal`: the full message of these parts. */
fimbrast_full_message fimbrast_full_message_read(fimbrast_universal header, const uint8_t *data, size_t data_length);
/* `FullMessage::write`: the whole full message, F0H to F7H. */
fimbrast_written fimbrast_full_message_write(uint8_t device_id, fimbrast_time time, uint8_t *out, size_t out_length);
/* `UserBits::from_universal`: the user bits of these parts. */
fimbrast_read_user_bits fimbrast_user_bits_read(fimbrast_universal header, const uint8_t *data, size_t data_length);
/* `UserBits::write`: the whole user bits message, F0H to F7H. */
fimbrast_written fimbrast_user_bits_write(fimbrast_user_bits bits, uint8_t *out, size_t out_length);
/* `UserBits::to_bytes`: the groups as `hhhhgggg ffffeeee ddddcccc bbbbaaaa`. */
fimbrast_four_bytes fimbrast_user_bits_bytes(fimbrast_user_bits bits);
/* `MmcMessage::from_universal`: the machine control message of these parts. */
fimbrast_mmc_message fimbrast_mmc_message_read(fimbrast_universal header, const uint8_t *data, size_t data_length);
/* The same as one number, for a caller that has the device, which decides nothing: 0 commands, 128 responses, 255 another kind, any
 * other number a refusal. */
uint8_t fimbrast_mmc_kind(bool real_time, uint8_t sub_id1, const uint8_t *data, size_t data_length);

/* ---- Time code fields of machine control */

/* The flags of a time code's status byte. */
typedef struct {
    bool estimated;
    bool invalid;
    bool video_field1;
    bool no_time_code;
} fimbrast_status;

/* The bytes of a time code. */
typedef struct {
    uint8_t bytes[5];
} fimbrast_five_bytes;

/* A time code. The last byte is the status byte where `status` is true, else subframes. */
typedef struct {
    fimbrast_time time;
    bool color_frame;
    bool blank;
    bool negative;
    bool status;
    uint8_t last;
} fimbrast_code;

/* A written time code. The bytes are zeros where the refusal is not 0. */
typedef struct {
    uint8_t refusal;
    fimbrast_five_bytes code;
} fimbrast_code_bytes;

/* The bytes of a short time code. */
typedef struct {
    uint8_t bytes[2];
} fimbrast_two_bytes;

/* A short time code. The last byte is the status byte where `status` is true, else subframes. */
typedef struct {
    uint8_t frames;
    bool negative;
    bool status;
    uint8_t last;
} fimbrast_short_code;

/* A written short time code. The bytes are zeros where the refusal is not 0. */
typedef struct {
    uint8_t refusal;
    fimbrast_two_bytes code;
} fimbrast_short_code_bytes;

/* `short_name`: a field's name plus 20H, or 0 for one that has no short name. */
uint8_t fimbrast_short_name(uint8_t field);
/* `full_name`: the field of a short name, or 0 for what is none. */
uint8_t fimbrast_full_name(uint8_t short_name);
/* `TimeCodeStatus::from_byte`: the flags of a status byte. */
fimbrast_status fimbrast_status_read(uint8_t byte);
/* `TimeCodeStatus::to_byte`: the status byte of flags. */
uint8_t fimbrast_status_byte(fimbrast_status status);
/* `StandardTimeCode::from_bytes`: each count is masked to its width. */
fimbrast_code fimbrast_code_read(fimbrast_five_bytes bytes);
/* `StandardTimeCode::to_bytes`: refuses subframes above 99 and a time that is not valid. */
fimbrast_code_bytes fimbrast_code_write(fimbrast_code code);
/* `ShortTimeCode::from_bytes`: the frames are masked to 5 bits. */
fimbrast_short_code fimbrast_short_code_read(fimbrast_two_bytes bytes);
/* `ShortTimeCode::to_bytes`: refuses frames above 29 and subframes above 99. */
fimbrast_short_code_bytes fimbrast_short_code_write(fimbrast_short_code code);
/* `StandardTimeCode::short`: its frames, sign and last byte. */
fimbrast_short_code fimbrast_code_short(fimbrast_code code);
/* `StandardTimeCode::with_short`: the code with the frames, sign and last byte of a short one. */
fimbrast_code fimbrast_code_with_short(fimbrast_code code, fimbrast_short_code short_code);
/* `StandardTimeCode::to_subframes_form`: a status becomes subframes 00. */
fimbrast_code fimbrast_to_subframes_form(fimbrast_code code);
/* `StandardTimeCode::to_status_form`: subframes become a status with this video field, marked as no time code. */
fimbrast_code fimbrast_to_status_form(fimbrast_code code, bool video_field1);

/* ---- Command and field strings: one item after another */

/* The kinds of a command, and what each uses. */
enum {
    FIMBRAST_STOP = 0,
    FIMBRAST_PLAY = 1,
    FIMBRAST_DEFERRED_PLAY = 2,
    FIMBRAST_FAST_FORWARD = 3,
    FIMBRAST_REWIND = 4,
    FIMBRAST_RECORD_STROBE = 5,
    FIMBRAST_RECORD_EXIT = 6,
    FIMBRAST_PAUSE = 7,
    FIMBRAST_RESET = 8,
    FIMBRAST_WRITE = 9,          /* data */
    FIMBRAST_LOCATE_FIELD = 10,  /* first: the register */
    FIMBRAST_LOCATE_TARGET = 11, /* code */
    FIMBRAST_MOVE = 12,          /* first: the destination, second: the source */
    FIMBRAST_OTHER_COMMAND = 13  /* name and data; any kind above 13 is taken as this */
};

/* The kinds of an information field, and what each uses. */
enum {
    FIMBRAST_TIME_CODE = 0,  /* field, code */
    FIMBRAST_SHORT = 1,      /* field, short_code */
    FIMBRAST_OTHER_FIELD = 2 /* name and data; any kind above 2 is taken as this */
};

/* A part of lent bytes. */
typedef struct {
    size_t start;
    size_t length;
} fimbrast_part;

/* One command. The kinds are FIMBRAST_STOP, 0, to FIMBRAST_OTHER_COMMAND, 13; a kind above 13 is taken as 13. What a kind does not
 * use is 0 in an answer, and is not read in an argument. */
typedef struct {
    uint8_t kind;
    uint8_t first;
    uint8_t second;
    fimbrast_code code;
    fimbrast_part name;
    fimbrast_part data;
} fimbrast_command;

/* Refusal 0 and the command, with the place to read on from; 2 where the string is cut short, with the end as its place;
 * 9 at or past the end. */
typedef struct {
    uint8_t refusal;
    fimbrast_command command;
    size_t place;
} fimbrast_next_command_answer;

/* A command or a refusal as one number, which comes back in registers, and the place to read on from. The number's lowest byte is the
 * kind of the command, 0 to 13, or 128 plus the refusal's number. The bytes above it are, the lowest first:
 *    9 Write              0 and the length of the data
 *   10 Locate, register   the register
 *   11 Locate, target     hours, minutes, seconds, frames, the last byte, and two bytes of marks: bits 0 and 1 are the rate, 3 the
 *                         blank, 9 the colour frame, 10 whether the last byte is a status, 11 the sign
 *   12 Move               the destination and the source
 *   13 any other          the lengths of the name and of the data
 * A name begins at the place that was read, and data ends at the place to read on from. A Locate, a Move and a name alone are written
 * by the same word. */
typedef struct {
    uint64_t word;
    size_t place;
} fimbrast_next_word_answer;

/* One information field. The kinds are FIMBRAST_TIME_CODE, 0, to FIMBRAST_OTHER_FIELD, 2; a kind above 2 is taken as 2. What a kind does
 * not use is 0 in an answer, and is not read in an argument. */
typedef struct {
    uint8_t kind;
    uint8_t field;
    fimbrast_code code;
    fimbrast_short_code short_code;
    fimbrast_part name;
    fimbrast_part data;
} fimbrast_field;

/* Refusal 0 and the field, with the place to read on from; 2 and 9 as for a command. */
typedef struct {
    uint8_t refusal;
    fimbrast_field field;
    size_t place;
} fimbrast_next_field_answer;

/* The next of `Commands`: the command at a place of a message's data, 0 at first and then the place that came back. */
fimbrast_next_command_answer fimbrast_next_command(const uint8_t *body, size_t body_length, size_t place);
/* The same as one number: its record says how it is made. */
fimbrast_next_word_answer fimbrast_next_word(const uint8_t *body, size_t body_length, size_t place);
/* The next of `InfoFields`: the field at a place of a string of fields, likewise. */
fimbrast_next_field_answer fimbrast_next_field(const uint8_t *body, size_t body_length, size_t place);

/* ---- An index beside a field string: where the first field of each one-byte name begins */

/* An index of 128 cells, one for each name of one byte up to 7FH: 0 where there is no field of that name, else the place where the first
 * one begins, plus 1. Cells that are all 0 are an index without fields. */
typedef struct {
    size_t cells[128];
} fimbrast_field_index;

/* Where a field begins, with refusal 0; or refusal 11, and place 0. */
typedef struct {
    uint8_t refusal;
    size_t place;
} fimbrast_field_place;

/* `InfoFieldIndex::new`: an index without fields. */
fimbrast_field_index fimbrast_field_index_new(void);
/* `InfoFieldIndex::build`: makes the index of a field string from one walk, and answers 0; or 2 for a string that cannot be split,
 * and then leaves the index as before. The bytes must not overlap the index. */
uint8_t fimbrast_field_index_build(fimbrast_field_index *field_index, const uint8_t *body, size_t body_length);
/* `InfoFieldIndex::place`: where the first field of a name begins, counted from the first byte of the last string that was accepted; 11
 * for a name without a field, or above 7FH. A name with prefixes is another name; a short time code has one of its own, 20H above its
 * field's. Where the refusal is 0, `fimbrast_next_field` at this place of that string reads the field. */
fimbrast_field_place fimbrast_field_index_place(const fimbrast_field_index *field_index, uint8_t name);

/* ---- Sets of tracks: which tracks of a recorder are ready to record */

/* The name of the field that has a set of tracks, 4FH, and the most data bytes of a set. */
#define FIMBRAST_TRACK_RECORD_READY 79
#define FIMBRAST_TRACK_BYTES 9
/* The positions below the tracks. Track n, 1 to 58, is position n + 4. */
#define FIMBRAST_POSITION_VIDEO 0
#define FIMBRAST_POSITION_RESERVED 1
#define FIMBRAST_POSITION_TIME_CODE 2
#define FIMBRAST_POSITION_AUX_A 3
#define FIMBRAST_POSITION_AUX_B 4

/* A set of tracks: position p of the bitmap is bit p. Position 0 is video, 1 reserved, 2 time code, 3 and 4 auxiliaries, and n + 4 track n,
 * 1 to 58. Bit 63 is no position: every call takes it as clear, and none gives a set with it. A record of 0 is an empty set. */
typedef struct {
    uint64_t positions;
} fimbrast_track_set;

/* Answer 0 and a set; or a refusal. Beside a refusal, a call that arms or disarms gives the set that it got, without bit 63, and any other
 * call an empty set. 255 says that the field has no set, and stands beside an empty one. */
typedef struct {
    uint8_t answer;
    fimbrast_track_set set;
} fimbrast_track_set_answer;

/* Whether a track is armed, with refusal 0; or refusal 12, and no. */
typedef struct {
    uint8_t refusal;
    bool armed;
} fimbrast_track_armed;

/* A track, with refusal 0; or refusal 12, and track 0. */
typedef struct {
    uint8_t refusal;
    uint8_t track;
} fimbrast_lowest_track;

/* `TrackSet::new`: an empty set. */
fimbrast_track_set fimbrast_track_set_new(void);
/* `TrackSet::read`: the set of data bytes as field 4FH has them. Missing bytes are zeros, and bit 7 of each is ignored. More than nine
 * are 12. */
fimbrast_track_set_answer fimbrast_track_set_read(const uint8_t *data, size_t data_length);
/* `TrackSet::arm`: the set with one more track; 12, and the same set, for a track outside 1 to 58. */
fimbrast_track_set_answer fimbrast_track_set_arm(fimbrast_track_set set, uint8_t track);
/* `TrackSet::disarm`: the set without a track, likewise. */
fimbrast_track_set_answer fimbrast_track_set_disarm(fimbrast_track_set set, uint8_t track);
/* `TrackSet::is_armed`: whether a track is armed; 12 for one outside 1 to 58. */
fimbrast_track_armed fimbrast_track_set_is_armed(fimbrast_track_set set, uint8_t track);
/* `TrackSet::armed_count`: how many tracks are armed. */
uint32_t fimbrast_track_set_armed_count(fimbrast_track_set set);
/* `TrackSet::lowest_armed`: the lowest armed track; 12 where none is armed. */
fimbrast_lowest_track fimbrast_track_set_lowest_armed(fimbrast_track_set set);
/* `TrackSet::has_position`: whether a position of the bitmap is set, as 2 for time code. From 63 on there is none. */
bool fimbrast_track_set_has_position(fimbrast_track_set set, uint8_t position);
/* `TrackSet::write`: the data bytes at the start of the buffer, without the zero bytes at their end, and how many they are: none of an empty
 * set, and at most nine. A buffer that is too short is 4 with the needed length, and stays as found. */
fimbrast_written fimbrast_track_set_write(fimbrast_track_set set, uint8_t *out, size_t out_length);
/* `InfoField::tracks`: the set of a field that is named by the one byte 4FH, as it was read from these bytes; 255 for any other field. The
 * field itself stays another field. 12 for more than nine data bytes, 6 for a name or data that are no part of the bytes. */
fimbrast_track_set_answer fimbrast_field_tracks(const uint8_t *source, size_t source_length, fimbrast_field field);

/* ---- Writing a string: opened, given its items one at a time, and closed, with one buffer throughout, left alone between the calls */

/* A writer as one number: the position in the lowest four bytes, the items accepted in the next two, and in the byte above them the
 * first refusal, which it repeats. A number that is no refusal's is taken as 10. */
typedef uint64_t fimbrast_writer;

/* `write_commands` opens: F0H, 7FH, the device, 06H. */
fimbrast_writer fimbrast_open_commands(uint8_t *out, size_t out_length, uint8_t device_id);
/* `write_responses` opens: F0H, 7FH, the device, 07H. */
fimbrast_writer fimbrast_open_responses(uint8_t *out, size_t out_length, uint8_t device_id);
/* `write_info_fields` opens: it has no envelope, and no byte is put. */
fimbrast_writer fimbrast_open_fields(void);
/* Any command by its record; its name and data are parts of the source. */
fimbrast_writer fimbrast_put_command(fimbrast_writer writer, uint8_t *out, size_t out_length, const uint8_t *source,
                                     size_t source_length, fimbrast_command command);
/* One command by its word, as `fimbrast_next_word` gives it. A number that is no word of a name alone, of a Locate or of a Move is
 * refused with 3, and nothing goes out of it. */
fimbrast_writer fimbrast_put_word(fimbrast_writer writer, uint8_t *out, size_t out_length, uint64_t word);
/* A Write of these fields. */
fimbrast_writer fimbrast_put_write(fimbrast_writer writer, uint8_t *out, size_t out_length, const uint8_t *data,
                                   size_t data_length);
/* Another command, whose name and then its data, of these lengths, stand at the front of the source. */
fimbrast_writer fimbrast_put_other(fimbrast_writer writer, uint8_t *out, size_t out_length, const uint8_t *source,
                                   size_t source_length, size_t name, size_t data);
/* Any field by its record; its name and data are parts of the source. */
fimbrast_writer fimbrast_put_field(fimbrast_writer writer, uint8_t *out, size_t out_length, const uint8_t *source,
                                   size_t source_length, fimbrast_field field);
/* `write_commands` and `write_responses` close: F7H. */
fimbrast_written fimbrast_close_message(fimbrast_writer writer, uint8_t *out, size_t out_length);
/* `write_info_fields` closes: no byte is put, and the answer is the length. */
fimbrast_written fimbrast_close_fields(fimbrast_writer writer, const uint8_t *out, size_t out_length);
/* `write_commands` in one call: opened, given a command for each word, closed. A word is what `fimbrast_next_word` gives for a name
 * alone (the kinds 0 to 8), a Locate (10 and 11) or a Move (12). Each byte counts with all its bits: hours 40 are refused with 3. Any other number, one of a Write or of
 * another command too, is refused with 3, and nothing goes out of it. */
fimbrast_written fimbrast_write_words(uint8_t *out, size_t out_length, uint8_t device_id, const uint64_t *words,
                                      size_t words_length);

/* ---- The transport */

/* The generator after a command. Answer 0 is done, 255 for another device, any other number a refusal: 5 or 7. */
typedef struct {
    fimbrast_generator generator;
    uint8_t answer;
} fimbrast_applied;

/* `apply`: one command of a message for `device_id`, to the generator of the device `own`. A negative Locate target is counted back from
 * midnight. */
fimbrast_applied fimbrast_apply(fimbrast_generator generator, uint8_t device_id, uint8_t own, fimbrast_command command);

/* ---- The transport, given a whole string */

/* The generator after all commands of a string, how many were read, how many of those were refused, and the refusal that ended the
 * reading: 9 at the end, 2 where the string is cut short. */
typedef struct {
    fimbrast_generator generator;
    size_t commands;
    size_t refused;
    uint8_t stop;
} fimbrast_run;

/* `obey`: a message's data, read from the front to its end, each command applied as it is read, as by `fimbrast_apply`. */
fimbrast_run fimbrast_obey(fimbrast_generator generator, uint8_t device_id, uint8_t own, const uint8_t *body,
                           size_t body_length);

#ifdef __cplusplus
}
#endif

#endif
