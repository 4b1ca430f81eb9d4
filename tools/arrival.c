#include "arrival.h"

#include <string.h>

#include "describe.h"

static bool same_address(const struct packet_reading *in, const struct packet_reading *out, const uint8_t *a, const uint8_t *b)
{
    return in->version != 0 && in->version == out->version && memcmp(a, b, in->version == 4 ? 4 : 16) == 0;
}

static bool same_inner(const struct packet_reading *in, const struct packet_reading *out)
{
    return in->inner != NULL && out->inner != NULL && in->inner_length == out->inner_length &&
           memcmp(in->inner, out->inner, in->inner_length) == 0;
}

/* Names what differs between what went in and what came out. What one of them does not have differs. */
static void compare(const struct packet_reading *in, const struct packet_reading *out, struct differences *differences)
{
    const bool gtpu = in->has_gtpu && out->has_gtpu;
    const bool container = in->has_container && out->has_container;
    const struct {
        const char *name;
        bool same;
    } parts[] = {
        /* over IPv4 the source is carried too; over IPv6 it is the far gateway's */
        {"source", in->version != 4 || same_address(in, out, in->source, out->source)},
        {"destination", same_address(in, out, in->destination, out->destination)},
        {"TEID", gtpu && in->teid == out->teid},
        {"QFI", container && in->qfi == out->qfi},
        {"R", container && in->reflective == out->reflective},
        {"direction", !container || in->pdu_type == out->pdu_type}, /* of a container that is missing QFI and R tell */
        {"traffic class", in->traffic_class == out->traffic_class},
        {"inner octets", same_inner(in, out)},
    };
    for (size_t i = 0; i < sizeof parts / sizeof parts[0]; i++)
        if (!parts[i].same)
            differences_add(differences, "%s", parts[i].name);
}

struct verdict arrival_judge(const struct capture_packet *packet, const struct arrival *arrival)
{
    static struct promise promise;
    const struct packet_reading in = packet_read(packet->octets, packet->length);
    const struct parcel *out = &arrival->out;
    struct verdict verdict = {
        .arrived = out->octets != NULL,
        .echo_answered = arrival->echo_answered,
        .inner_length = in.inner_length,
    };
    if (!verdict.arrived)
        return verdict;
    const struct packet_reading came_out = packet_read(out->octets, out->length);
    if (!promise_make(&promise, &in, arrival->near, arrival->far))
        compare(&in, &came_out, &verdict.differences);
    else if (!promise_kept(&promise, out->octets, out->length))
        promise_differences(&promise, out->octets, out->length, &verdict.differences);
    return verdict;
}

bool verdict_unchanged(const struct verdict *verdict)
{
    return verdict->arrived && verdict->differences.count == 0;
}

void verdict_say(FILE *to, const struct verdict *verdict)
{
    const struct differences *differences = &verdict->differences;
    if (!verdict->arrived)
        return;
    if (differences->count == 0)
        fprintf(to, "  arrived with the destination, TEID, QFI, R, traffic class and %zu inner octets that went in", verdict->inner_length);
    for (size_t i = 0; i < differences->count; i++)
        fprintf(to, "%s%s", i == 0 ? "  arrived, but not as it went in: " : ", ", differences->words[i]);
    fputc('\n', to);
}

void verdict_json(struct json *json, const struct verdict *verdict)
{
    json_flag(json, "arrived", verdict->arrived);
    if (verdict->echo_answered)
        json_flag(json, "echo_answered", true);
    if (!verdict->arrived)
        return;
    json_flag(json, "unchanged", verdict_unchanged(verdict));
    if (verdict_unchanged(verdict))
        json_number(json, "inner_octets", verdict->inner_length);
    json_array(json, "differing");
    for (size_t i = 0; i < verdict->differences.count; i++)
        json_text(json, NULL, verdict->differences.words[i]);
    json_close(json);
}
