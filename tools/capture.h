/* Captures: the packets of a pcap or pcapng file, and a pcap file of raw IP packets. */
#ifndef CAPTURE_H
#define CAPTURE_H

#include <stdbool.h>
#include <stddef.h>
#include <stdint.h>
#include <stdio.h>
#include <time.h>

#include "frame.h"
#include "json.h"

struct capture_packet {
    unsigned long number; /* of the frame in its capture, from 1 */
    struct timespec time;
    unsigned int version;  /* 4 or 6 */
    const uint8_t *octets; /* good until the next packet is read */
    size_t length;
};

/* How many frames of a capture were what. A padded one is a packet too. */
struct capture_counts {
    unsigned long frames, packets, padded, not_ip, snapped;
    unsigned long wrapped[FRAME_WRAPPINGS]; /* frames that may hold IP, by what is around it */
    bool cut; /* the capture ends within the next frame; that was reported, and the frames before it are good */
};

struct capture_reader {
    const char *name; /* for messages */
    struct pcap *pcap;
    int link;
    struct capture_counts counts;
    int code;                               /* not 0: a fault was reported, and this is the exit code */
    struct pcap_pkthdr *header;             /* of the last frame */
    void (*words)(struct capture_reader *); /* what is said at the next step; NULL: nothing */
};

/* Opens a capture; "-" is standard input. 0, or the exit code after the fault was reported. */
int capture_open(struct capture_reader *reader, const char *name);

enum capture_step {
    CAPTURE_PACKET,
    CAPTURE_WORDS, /* something is to be said of a frame, at the next step: who is behind with packets can catch up before that */
    CAPTURE_END,
};

/* The next IP packet. Other frames and snapped ones are counted and left out. The end is also that of a capture that is cut there, or a
   fault; the reader's code says which. */
enum capture_step capture_step(struct capture_reader *reader, struct capture_packet *packet);

/* The same for who is not behind. False: the end. */
bool capture_next(struct capture_reader *reader, struct capture_packet *packet);

/* The exit code of a capture that was read to its end. */
int capture_end_code(const struct capture_reader *reader);

void capture_close(struct capture_reader *reader);

/* A line about the frames that were read, one for each wrapping among them, and one where the capture is cut. */
void capture_say_counts(FILE *to, const struct capture_counts *counts);

/* The same as a JSON object, with the name of the capture. */
void capture_json(struct json *json, const struct capture_reader *reader);

/* Begins a capture of raw IP packets in an open file; false: the write failed. */
bool capture_begin(FILE *file);

/* Adds a packet with the time of the packet that it was made of; false: the write failed. */
bool capture_add(FILE *file, struct timespec time, const uint8_t *octets, size_t length);

#endif
