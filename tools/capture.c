#include "capture.h"

#include <errno.h>
#include <pcap/pcap.h>
#include <string.h>

#include "commands.h"
#include "file.h"
#include "say.h"

enum { SNAPPED_SAID = 5 };

/* Looks at the first octet and puts it back. What begins as gzip's does is no capture, so its second octet is not missed. */
static bool is_gzip(FILE *file)
{
    const int first = getc(file);
    if (file_is_gzip(first, 0x8B))
        return file_is_gzip(first, getc(file));
    if (first != EOF)
        ungetc(first, file);
    return false;
}

static int refuse_gzip(const struct capture_reader *reader, FILE *file)
{
    say_error_at(reader->name, 0, "%s", file_gzip_fault);
    if (file != stdin)
        fclose(file);
    return EXIT_INPUT;
}

/* Opens the file and reads its head; the exit code. libpcap closes the file of a capture; after a fault it is left to us. */
static int open_pcap(struct capture_reader *reader, const char *name)
{
    char fault[PCAP_ERRBUF_SIZE] = "";
    FILE *file = strcmp(name, "-") == 0 ? stdin : fopen(name, "rb");
    if (file == NULL) {
        say_error_at(reader->name, 0, "%s", strerror(errno));
        return EXIT_SYSTEM;
    }
    if (is_gzip(file))
        return refuse_gzip(reader, file);
    reader->pcap = pcap_fopen_offline_with_tstamp_precision(file, PCAP_TSTAMP_PRECISION_NANO, fault);
    if (reader->pcap != NULL)
        return EXIT_DONE;
    const bool failed = ferror(file) != 0;
    say_error_at(reader->name, 0, failed ? "%s" : "not a pcap or pcapng capture: %s", fault);
    if (file != stdin)
        fclose(file);
    return failed ? EXIT_SYSTEM : EXIT_INPUT;
}

static int judge_link(struct capture_reader *reader)
{
    reader->link = pcap_datalink(reader->pcap);
    if (frame_link_known(reader->link))
        return EXIT_DONE;
    const char *name = pcap_datalink_val_to_name(reader->link);
    say_error_at(reader->name, 0, "link type %d (%s) cannot be read; Ethernet, Linux cooked and raw IP can", reader->link,
                 name != NULL ? name : "unknown");
    capture_close(reader);
    return EXIT_INPUT;
}

int capture_open(struct capture_reader *reader, const char *name)
{
    *reader = (struct capture_reader){.name = file_shown_name(name, "standard input")};
    const int code = open_pcap(reader, name);
    return code == EXIT_DONE ? judge_link(reader) : code;
}

static void say_snapped(struct capture_reader *reader)
{
    say_error_at(reader->name, 0, "packet %lu is snapped, %u octets of %u: it is left out%s", reader->counts.frames, reader->header->caplen,
                 reader->header->len, reader->counts.snapped == SNAPPED_SAID ? "; more are only counted" : "");
}

/* Whether the frame holds an IP packet, whole; it is counted as what it is. */
static bool take(struct capture_reader *reader, const uint8_t *octets, struct capture_packet *packet)
{
    const struct pcap_pkthdr *header = reader->header;
    struct capture_counts *counts = &reader->counts;
    counts->frames++;
    if (header->caplen < header->len) {
        counts->snapped++;
        if (counts->snapped <= SNAPPED_SAID) /* of the first few: where one is snapped, most are */
            reader->words = say_snapped;
        return false;
    }
    const struct frame frame = frame_read(reader->link, octets, header->caplen);
    if (frame.version == 0) {
        if (frame.wrapping == FRAME_PLAIN)
            counts->not_ip++;
        else
            counts->wrapped[frame.wrapping]++;
        return false;
    }
    counts->packets++;
    counts->padded += frame.padding > 0;
    /* libpcap was asked for nanoseconds, and keeps them in tv_usec */
    const struct timespec time = {header->ts.tv_sec, header->ts.tv_usec};
    *packet = (struct capture_packet){counts->frames, time, frame.version, frame.packet, frame.length};
    return true;
}

/* Says what is wrong with the next frame. Where the file has ended within it, all before it is as it should be. */
static void say_fault(struct capture_reader *reader)
{
    FILE *file = pcap_file(reader->pcap);
    const bool failed = ferror(file) != 0;
    reader->counts.cut = !failed && feof(file) != 0;
    if (!reader->counts.cut)
        reader->code = failed ? EXIT_SYSTEM : EXIT_INPUT;
    say_error_at(reader->name, 0, "packet %lu: %s%s", reader->counts.frames + 1, pcap_geterr(reader->pcap),
                 reader->counts.cut ? ": the capture is cut here, and only what comes before is used" : "");
}

/* Says what is due; true: it is the end. */
static bool say_words(struct capture_reader *reader)
{
    void (*words)(struct capture_reader *) = reader->words;
    reader->words = NULL;
    if (words != NULL)
        words(reader);
    return words == say_fault;
}

enum capture_step capture_step(struct capture_reader *reader, struct capture_packet *packet)
{
    const u_char *octets = NULL;
    int result = 1;
    if (say_words(reader))
        return CAPTURE_END;
    while (reader->words == NULL && (result = pcap_next_ex(reader->pcap, &reader->header, &octets)) == 1)
        if (take(reader, octets, packet))
            return CAPTURE_PACKET;
    if (result == PCAP_ERROR_BREAK)
        return CAPTURE_END;
    if (result != 1)
        reader->words = say_fault;
    return CAPTURE_WORDS;
}

bool capture_next(struct capture_reader *reader, struct capture_packet *packet)
{
    enum capture_step step = CAPTURE_WORDS;
    while (step == CAPTURE_WORDS)
        step = capture_step(reader, packet);
    return step == CAPTURE_PACKET;
}

int capture_end_code(const struct capture_reader *reader)
{
    return reader->counts.cut ? EXIT_INPUT : EXIT_DONE;
}

void capture_close(struct capture_reader *reader)
{
    pcap_close(reader->pcap);
    reader->pcap = NULL;
}

void capture_say_counts(FILE *to, const struct capture_counts *counts)
{
    fprintf(to, "frames %lu: IP packets %lu, not IP %lu, snapped %lu; padding cut %lu\n", counts->frames, counts->packets, counts->not_ip,
            counts->snapped, counts->padded);
    for (unsigned int i = 0; i < FRAME_WRAPPINGS; i++) {
        if (counts->wrapped[i] == 0)
            continue;
        fprintf(to, "%8lu  ", counts->wrapped[i]);
        if (frame_wrapping_ethertype(i) != 0)
            fprintf(to, "0x%04x ", frame_wrapping_ethertype(i));
        fprintf(to, "%s: may hold IP, but is not looked into\n", frame_wrapping_name(i));
    }
    if (counts->cut)
        fprintf(to, "the capture is cut in frame %lu, which is not counted\n", counts->frames + 1);
}

static void json_wrapped(struct json *json, const unsigned long wrapped[FRAME_WRAPPINGS])
{
    json_array(json, "wrapped");
    for (unsigned int i = 0; i < FRAME_WRAPPINGS; i++) {
        if (wrapped[i] == 0)
            continue;
        json_object(json, NULL);
        if (frame_wrapping_ethertype(i) != 0)
            json_number(json, "ethertype", frame_wrapping_ethertype(i));
        json_text(json, "name", frame_wrapping_name(i));
        json_number(json, "frames", wrapped[i]);
        json_close(json);
    }
    json_close(json);
}

void capture_json(struct json *json, const struct capture_reader *reader)
{
    const struct capture_counts *counts = &reader->counts;
    json_object(json, "capture");
    json_text(json, "name", reader->name);
    json_number(json, "frames", counts->frames);
    json_number(json, "ip_packets", counts->packets);
    json_number(json, "not_ip", counts->not_ip);
    json_number(json, "snapped", counts->snapped);
    json_number(json, "padding_cut", counts->padded);
    json_wrapped(json, counts->wrapped);
    if (counts->cut)
        json_number(json, "cut_in_frame", counts->frames + 1);
    json_close(json);
}

/*
 * The pcap format (draft-ietf-opsawg-pcap), in this machine's octet order as its magic number shows. libpcap's pcap_dump does not say
 * whether a write failed.
 */

enum { SNAP_LENGTH = 262144, LINKTYPE_RAW = 101 };

static const uint32_t magic_nanoseconds = 0xA1B23C4D;

bool capture_begin(FILE *file)
{
    const struct {
        uint32_t magic;
        uint16_t major, minor;
        uint32_t reserved[2], snap_length, link_type;
    } header = {magic_nanoseconds, PCAP_VERSION_MAJOR, PCAP_VERSION_MINOR, {0, 0}, SNAP_LENGTH, LINKTYPE_RAW};
    return fwrite(&header, sizeof header, 1, file) == 1;
}

bool capture_add(FILE *file, struct timespec time, const uint8_t *octets, size_t length)
{
    const uint32_t header[4] = {(uint32_t)time.tv_sec, (uint32_t)time.tv_nsec, (uint32_t)length, (uint32_t)length};
    return fwrite(header, sizeof header, 1, file) == 1 && fwrite(octets, 1, length, file) == length;
}
