#include "echo_ledger.h"

static uint16_t number_of(const struct echo_ledger *ledger, uint64_t request)
{
    return (uint16_t)((ledger->first + request) % ECHO_NUMBERS);
}

void ledger_begin(struct echo_ledger *ledger, uint16_t first, int64_t timeout)
{
    ledger->first = first;
    ledger->timeout = timeout;
    ledger->least = INT64_MAX;
}

uint16_t ledger_add(struct echo_ledger *ledger, int64_t now)
{
    const uint16_t number = number_of(ledger, ledger->sent++);
    ledger->requests[number].sent_at = now;
    ledger->requests[number].state = ECHO_AWAITED;
    return number;
}

static void count_received(struct echo_ledger *ledger, int64_t took)
{
    ledger->received++;
    ledger->sum += took;
    ledger->least = took < ledger->least ? took : ledger->least;
    ledger->most = took > ledger->most ? took : ledger->most;
}

enum echo_arrival ledger_take(struct echo_ledger *ledger, uint16_t number, int64_t now, int64_t *took)
{
    const enum echo_state before = ledger->requests[number].state;
    if (before == ECHO_UNSENT) {
        ledger->not_valid++;
        return ECHO_NOT_SENT;
    }
    *took = now - ledger->requests[number].sent_at;
    ledger->requests[number].state = ECHO_ANSWERED;
    if (before == ECHO_AWAITED) {
        count_received(ledger, *took);
        return ECHO_RECEIVED;
    }
    if (before == ECHO_LOST) {
        ledger->late++;
        return ECHO_LATE;
    }
    ledger->duplicate++;
    return ECHO_DUPLICATE;
}

bool ledger_fail(struct echo_ledger *ledger, uint16_t number)
{
    if (ledger->requests[number].state != ECHO_AWAITED)
        return false;
    ledger->requests[number].state = ECHO_LOST;
    ledger->lost++;
    return true;
}

bool ledger_expire(struct echo_ledger *ledger, int64_t now, uint16_t *number)
{
    while (ledger->settled < ledger->sent) {
        *number = number_of(ledger, ledger->settled);
        if (ledger->requests[*number].state == ECHO_AWAITED && now - ledger->requests[*number].sent_at < ledger->timeout)
            return false;
        ledger->settled++;
        if (ledger_fail(ledger, *number))
            return true;
    }
    return false;
}

int64_t ledger_deadline(const struct echo_ledger *ledger)
{
    if (ledger->settled == ledger->sent)
        return INT64_MAX;
    return ledger->requests[number_of(ledger, ledger->settled)].sent_at + ledger->timeout;
}

uint64_t ledger_awaited(const struct echo_ledger *ledger)
{
    return ledger->sent - ledger->received - ledger->lost;
}
