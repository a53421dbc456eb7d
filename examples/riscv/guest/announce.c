/* The announcing program: passes events to its host, good ones and bad ones, and goes on after each answer. */
#include "guest.h"

#include "hekthumar.h"

/* On the heap: how many answers said Ok and how many Err, an event, its answer, room for the answer's bytes, most events' data. */
struct mailbox {
    uint64_t answers[2];
    hekthumar_event event;
    hekthumar_returned returned;
    hekthumar_buffer room;
    char answer[64];
    char note[16];
};

/* Volatile: each access below is one that the machine makes. */
typedef volatile struct mailbox mailbox;
typedef volatile hekthumar_event event_record;
typedef volatile hekthumar_buffer buffer_record;

static const char note[] = "Minh, slot 129";

enum { NOTE_BYTES = sizeof note - 1, UNANSWERED = 2 };

#define BOX ((mailbox *)HEAP)
#define TEXT(text) (uint64_t)(text), sizeof(text) - 1

static void put_buffer(buffer_record *to, uint64_t pointer, uint64_t length) {
    to->pointer = pointer;
    to->length = length;
}

/* Gives the event's address. */
static uint64_t put_event(event_record *to, uint64_t kind, uint64_t kind_length, uint64_t data, uint64_t data_length) {
    put_buffer(&to->kind, kind, kind_length);
    put_buffer(&to->data, data, data_length);
    return (uint64_t)to;
}

/* Passes an event, and reads its answer; 1 if it has none. */
static int64_t emit(uint64_t event, uint64_t returned) {
    BOX->returned.discriminant = UNANSWERED;
    if (service_emit(event, returned, (uint64_t)&BOX->room) != 0) return 1;
    uint64_t discriminant = BOX->returned.discriminant;
    if (discriminant >= UNANSWERED || BOX->returned.buffer.pointer != BOX->room.pointer) return 1;
    BOX->answers[discriminant]++;
    return 0;
}

/* The number of events without an answer. */
int64_t main(void) {
    event_record *across = (event_record *)(HEAP + PAGE_BYTES - 16);
    uint64_t data = (uint64_t)BOX->note, returned = (uint64_t)&BOX->returned;
    int64_t missing = 0;
    service_heap(HEAP_PAGES + 1); /* both halves of the event that crosses a page are there */
    put_buffer(&BOX->room, (uint64_t)BOX->answer, sizeof BOX->answer);
    for (int i = 0; i < NOTE_BYTES; i++) BOX->note[i] = note[i];

    missing += emit(put_event(&BOX->event, TEXT("booked"), data, NOTE_BYTES), returned);
    missing += emit(put_event(&BOX->event, TEXT("booked"), data | 1ull << 48, NOTE_BYTES), returned); /* 49 bits */
    missing += emit(put_event(across, TEXT("booked"), data, NOTE_BYTES), returned);
    missing += emit(put_event(&BOX->event, PROGRAM, 101, data, NOTE_BYTES), returned);
    missing += emit(put_event(&BOX->event, TEXT("booked"), HEAP, PAGE_BYTES + 1), returned);
    missing += emit(put_event(&BOX->event, TEXT("booked"), data, NOTE_BYTES), PROGRAM); /* never stored to */
    missing += emit(put_event(&BOX->event, TEXT("all booked"), 0, 0), returned);
    return missing;
}
