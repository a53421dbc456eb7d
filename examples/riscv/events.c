#include "events.h"

#include "report.h"
#include "routing.h"

#include <ctype.h>
#include <inttypes.h>
#include <string.h>

/* The limits of source document 002. A span has at most a page; data that is longer than that is the library's to refuse. */
enum { KIND_MAX = 100, DATA_MAX = 16384 };

struct answer {
    uint64_t discriminant;
    char text[64];
};

/* One span each: of a record, or of the bytes that a descriptor names. */
static uint8_t load_bytes(struct machine *m, hekthumar_buffer from, uint8_t *to) {
    remember(m);
    hekthumar_outcome outcome = hekthumar_load_span(LENT(m->buffers), from.pointer, to, from.length);
    return told(m, (struct access){HEKTHUMAR_LOAD_SPAN, from.pointer, from.length, 0}, outcome);
}

static uint8_t store_bytes(struct machine *m, hekthumar_buffer to, const char *from) {
    remember(m);
    hekthumar_outcome outcome = hekthumar_store_span(LENT(m->buffers), to.pointer, (const uint8_t *)from, to.length);
    return told(m, (struct access){HEKTHUMAR_STORE_SPAN, to.pointer, to.length, 0}, outcome);
}

static uint8_t read_event(struct machine *m, uint64_t address, hekthumar_event *event) {
    remember(m);
    hekthumar_read_event_answer got = hekthumar_read_event(LENT(m->buffers), address);
    *event = got.record;
    return told(m, (struct access){HEKTHUMAR_LOAD_SPAN, address, sizeof *event, 0}, (hekthumar_outcome){got.distance, got.number});
}

static uint8_t read_buffer(struct machine *m, uint64_t address, hekthumar_buffer *buffer) {
    remember(m);
    hekthumar_read_buffer_answer got = hekthumar_read_buffer(LENT(m->buffers), address);
    *buffer = got.record;
    return told(m, (struct access){HEKTHUMAR_LOAD_SPAN, address, sizeof *buffer, 0}, (hekthumar_outcome){got.distance, got.number});
}

static uint8_t write_returned(struct machine *m, uint64_t address, hekthumar_returned returned) {
    remember(m);
    hekthumar_outcome outcome = hekthumar_write_returned(LENT(m->buffers), address, returned);
    return told(m, (struct access){HEKTHUMAR_STORE_SPAN, address, sizeof returned, 0}, outcome);
}

/* True if a part of the event is there; else the answer says why it is not. */
static bool accepted(const char *part, uint8_t number, struct answer *answer) {
    if (number != 0) snprintf(answer->text, sizeof answer->text, "%s refused with %u, %s", part, (unsigned)number, sentence(number));
    return number == 0;
}

/* The length is tested before the bytes are asked for. An empty buffer is not asked for: its pointer may be anything. */
static bool load_part(struct machine *m, const char *part, hekthumar_buffer from, uint8_t *to, size_t most, struct answer *answer) {
    if (from.length > most) {
        snprintf(answer->text, sizeof answer->text, "%s of %" PRIu64 " bytes, and at most %zu are taken", part, from.length, most);
        return false;
    }
    return from.length == 0 || accepted(part, load_bytes(m, from, to), answer);
}

/* The guest's bytes, without what a terminal would obey. */
static void print_bytes(const uint8_t *bytes, uint64_t length) {
    putchar('"');
    for (uint64_t i = 0; i < length; i++) putchar(isprint(bytes[i]) ? bytes[i] : '.');
    putchar('"');
}

static struct answer take_event(struct machine *m, uint64_t address) {
    static uint8_t kind[KIND_MAX], data[DATA_MAX];
    struct answer answer = {HEKTHUMAR_RETURNED_ERR, ""};
    hekthumar_event event;
    if (!accepted("record", read_event(m, address, &event), &answer)) return answer;
    if (!load_part(m, "kind", event.kind, kind, sizeof kind, &answer)) return answer;
    if (!load_part(m, "data", event.data, data, sizeof data, &answer)) return answer;
    printf(": ");
    print_bytes(kind, event.kind.length);
    printf(", ");
    print_bytes(data, event.data.length);
    answer.discriminant = HEKTHUMAR_RETURNED_OK;
    snprintf(answer.text, sizeof answer.text, "noted as %u", ++m->events);
    return answer;
}

/* As much of the text as there is room for. */
static uint8_t give_answer(struct machine *m, const struct answer *answer, uint64_t returned, uint64_t room) {
    hekthumar_buffer buffer;
    uint8_t number = read_buffer(m, room, &buffer);
    if (number != 0) return number;
    size_t length = strlen(answer->text);
    if (buffer.length > length) buffer.length = length;
    number = store_bytes(m, buffer, answer->text);
    return number != 0 ? number : write_returned(m, returned, (hekthumar_returned){answer->discriminant, buffer});
}

uint8_t route_emit(struct machine *m, uint64_t event, uint64_t returned, uint64_t room) {
    printf("  event at 0x%012" PRIx64, event);
    struct answer answer = take_event(m, event);
    uint8_t number = give_answer(m, &answer, returned, room);
    printf("\n    %s: %s\n", answer.discriminant == HEKTHUMAR_RETURNED_OK ? "Ok" : "Err", answer.text);
    if (number != 0) printf("    this answer is refused with %u, %s\n", (unsigned)number, sentence(number));
    return number;
}
