/* The calls to the library by which a guest passes an event to its host and gets an answer, as source document 002 passes data. */
#ifndef EVENTS_H
#define EVENTS_H

#include "machine.h"

/* Reads an event and the bytes that it names, prints them, and answers: the answer's bytes go where the descriptor at `room` says, a
 * returned value that names them to `returned`. A refusal does not end the run: one of the event is answered with an Err, one of the answer
 * is the number given back. */
uint8_t route_emit(struct machine *m, uint64_t event, uint64_t returned, uint64_t room);

#endif
