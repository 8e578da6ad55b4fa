/*
 * A desk's round in little: Locate 01:00:00:00 at 25 and Play are written, read back and obeyed by a generator, whose bytes a
 * reader gets. Then fields of a response are looked up by an index, and a track is disarmed. It must print example.out. Build it where
 * libfimbrast.a is found:
 *
 *     gcc -std=c11 -Wall -Wextra -Wpedantic -O2 example.c -L ../../target/staticlib -lfimbrast
 */
#include <stdio.h>
#include <string.h>

#include "fimbrast.h"

/* A recorder, and the device that addresses all of them. */
#define RECORDER 0x05
#define ALL_DEVICES 0x7F

static void print_time(const char *name, fimbrast_time time)
{
    printf("%s %02u:%02u:%02u:%02u", name, (unsigned)time.hours, (unsigned)time.minutes, (unsigned)time.seconds,
           (unsigned)time.frames);
}

/* Writes Locate and Play for all devices. */
static fimbrast_written write_string(uint8_t *out, size_t length)
{
    const fimbrast_time hour = {.hours = 1, .rate = 1};
    const fimbrast_command locate = {.kind = FIMBRAST_LOCATE_TARGET, .code = {.time = hour}};
    const fimbrast_command play = {.kind = FIMBRAST_PLAY};

    fimbrast_writer writer = fimbrast_open_commands(out, length, ALL_DEVICES);
    writer = fimbrast_put_command(writer, out, length, NULL, 0, locate);
    writer = fimbrast_put_command(writer, out, length, NULL, 0, play);
    return fimbrast_close_message(writer, out, length);
}

/* The same in one call. A Locate's word has its hours in the second byte and its rate in the highest but one. */
static fimbrast_written write_words(uint8_t *out, size_t length)
{
    const uint64_t hour = 1, rate = 1;
    const uint64_t words[] = {FIMBRAST_LOCATE_TARGET | hour << 8 | rate << 48, FIMBRAST_PLAY};

    return fimbrast_write_words(out, length, ALL_DEVICES, words, sizeof words / sizeof words[0]);
}

/* Reads the commands of a message's data, and gives the refusal that ends them. */
static uint8_t print_commands(const uint8_t *body, size_t length)
{
    fimbrast_next_command_answer next = fimbrast_next_command(body, length, 0);
    while (next.refusal == 0) {
        printf("command %u", (unsigned)next.command.kind);
        if (next.command.kind == FIMBRAST_LOCATE_TARGET) {
            print_time(" to", next.command.code.time);
        }
        putchar('\n');
        next = fimbrast_next_command(body, length, next.place);
    }
    return next.refusal;
}

/* Looks up fields of a recorder's response: a field 4FH with two bytes, and 01:00:00:00 at 25 in GP0. */
static void look_up(void)
{
    const uint8_t response[] = {0x4F, 0x02, 0x20, 0x01, 0x08, 0x21, 0x00, 0x00, 0x00, 0x00};
    const uint8_t cut[] = {0x08, 0x21};
    const uint8_t names[] = {0x4F, 0x08, 0x01, 0xFF};
    fimbrast_field_index index = fimbrast_field_index_new();

    printf("index: answer %u", (unsigned)fimbrast_field_index_build(&index, response, sizeof response));
    printf(", and %u for one cut short\n", (unsigned)fimbrast_field_index_build(&index, cut, sizeof cut));
    for (size_t i = 0; i < sizeof names; i++) {
        const fimbrast_field_place field = fimbrast_field_index_place(&index, names[i]);
        if (field.refusal != 0) {
            printf("field %02XH: refusal %u\n", (unsigned)names[i], (unsigned)field.refusal);
        } else {
            printf("field %02XH: place %zu\n", (unsigned)names[i], field.place);
        }
    }
}

/* Takes a track from those that a field 4FH has, and writes them again. An answer that is not 0 is looked at before its set is used. */
static void disarm(void)
{
    const uint8_t fields[] = {FIMBRAST_TRACK_RECORD_READY, 0x04, 0x64, 0x00, 0x00, 0x01};
    uint8_t out[FIMBRAST_TRACK_BYTES];

    const fimbrast_next_field_answer next = fimbrast_next_field(fields, sizeof fields, 0);
    const fimbrast_track_set_answer read = fimbrast_field_tracks(fields, sizeof fields, next.field);
    if (next.refusal != 0 || read.answer != 0) {
        printf("no tracks: answers %u and %u\n", (unsigned)next.refusal, (unsigned)read.answer);
        return;
    }
    const fimbrast_lowest_track lowest = fimbrast_track_set_lowest_armed(read.set);
    printf("tracks: %u armed, time code %s, refusal %u of the lowest, track %u\n",
           (unsigned)fimbrast_track_set_armed_count(read.set),
           fimbrast_track_set_has_position(read.set, FIMBRAST_POSITION_TIME_CODE) ? "on" : "off", (unsigned)lowest.refusal,
           (unsigned)lowest.track);
    printf("track 59: refusal %u\n", (unsigned)fimbrast_track_set_arm(read.set, 59).answer);

    const fimbrast_track_set_answer less = fimbrast_track_set_disarm(read.set, 17);
    const fimbrast_written written = fimbrast_track_set_write(less.set, out, sizeof out);
    printf("without track 17: answers %u and %u,", (unsigned)less.answer, (unsigned)written.refusal);
    for (size_t i = 0; written.refusal == 0 && i < written.length; i++) {
        printf(" %02X", (unsigned)out[i]);
    }
    putchar('\n');
}

int main(void)
{
    uint8_t out[16];

    printf("version: %s\n", fimbrast_version() == FIMBRAST_VERSION ? "the header's" : "another");
    const fimbrast_written small = write_string(NULL, 0);
    printf("no room: refusal %u, %zu bytes needed\n", (unsigned)small.refusal, small.length);

    const fimbrast_written written = write_string(out, sizeof out);
    if (written.refusal != 0) {
        printf("refusal %u\n", (unsigned)written.refusal);
        return 1;
    }
    printf("written:");
    for (size_t i = 0; i < written.length; i++) {
        printf(" %02X", (unsigned)out[i]);
    }
    putchar('\n');

    uint8_t again[16];
    const fimbrast_written whole = write_words(again, sizeof again);
    printf("in one call: %s\n",
           whole.length == written.length && memcmp(again, out, written.length) == 0 ? "the same" : "something else");

    /* The data lies between the four opening bytes and F7H. */
    const uint8_t *body = out + 4;
    const size_t length = written.length - 5;
    const fimbrast_universal header = {.real_time = true, .device_id = out[2], .sub_id1 = out[3]};
    const fimbrast_mmc_message message = fimbrast_mmc_message_read(header, body, length);
    printf("message: answer %u, %s, device %02XH\n", (unsigned)message.answer, message.responses ? "responses" : "commands",
           (unsigned)message.device_id);
    printf("ended by %u\n", (unsigned)print_commands(body, length));

    const fimbrast_time idle = {.rate = 1};
    fimbrast_generator generator = fimbrast_generator_reverse(idle);
    const fimbrast_run run = fimbrast_obey(generator, message.device_id, RECORDER, body, length);
    printf("obeyed: %zu commands, %zu refused, ended by %u\n", run.commands, run.refused, (unsigned)run.stop);
    generator = run.generator;

    fimbrast_reader reader = fimbrast_reader_new();
    for (int i = 1; i <= 24; i++) {
        const fimbrast_next next = fimbrast_next_byte(&generator);
        const fimbrast_event event = fimbrast_receive(&reader, next.byte);
        const fimbrast_maybe_sequence report = fimbrast_report_parts(reader, FIMBRAST_EVENT_REPORT(event));
        if (report.present) {
            const fimbrast_sequence sequence = report.sequence;
            printf("byte %d:", i);
            print_time(" raw", sequence.raw);
            print_time(" current", sequence.current);
            printf("%s\n", sequence.discontinuity ? " discontinuity" : "");
        }
    }
    /* A status byte among the quarter frames is refused, and leaves the reader as it was. */
    const fimbrast_event slipped = fimbrast_receive(&reader, 0xF6);
    printf("F6H: refused by %u, %s\n", (unsigned)FIMBRAST_EVENT_REFUSAL(slipped), fimbrast_is_locked(reader) ? "still locked" : "not locked");
    printf("its report %u, its piece %u\n", (unsigned)FIMBRAST_EVENT_REPORT(slipped), (unsigned)FIMBRAST_EVENT_PIECE(slipped));
    const uint8_t mixed[] = {0x06, 0xF8, 0x11, 0x24, 0xC0};
    printf("of five bytes %zu are refused\n", fimbrast_feed(&reader, mixed, sizeof mixed).refused);
    (void)fimbrast_receive(&reader, 0x33);
    const fimbrast_event heard = fimbrast_receive(&reader, 0x45);
    printf("45H: piece %u, boundary %u, report %u, refused by %u\n", (unsigned)FIMBRAST_EVENT_PIECE(heard), (unsigned)FIMBRAST_EVENT_BOUNDARY(heard),
           (unsigned)FIMBRAST_EVENT_REPORT(heard), (unsigned)FIMBRAST_EVENT_REFUSAL(heard));
    printf("F6H is no quarter frame: %u\n", (unsigned)fimbrast_quarter_frame_read(0xF6).refusal);

    look_up();
    disarm();
    return 0;
}
