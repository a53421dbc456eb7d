/* What the guests and the host agree on: addresses, records, services. All numbers are little-endian. */
#ifndef LAYOUT_H
#define LAYOUT_H

#include <stdint.h>

/* An address: type in bits 47..40, index in 39..24, offset in 23..0. */
#define ADDRESS(type, index, offset) ((uint64_t)(type) << 40 | (uint64_t)(index) << 24 | (uint64_t)(offset))

#define SEGMENT_BYTES 0x1000000
#define PAGE_BYTES 4096

#define TRANSACTION ADDRESS(0, 1, 0)
#define ACCOUNT_DATA(account) ADDRESS(3, account, 0)
#define PROGRAM ADDRESS(0, 3, 0) /* where a guest runs in the newer edition */
#define OLDER_PROGRAM ACCOUNT_DATA(PROGRAM_ACCOUNT) /* and in the older */
#define STACK_END (ADDRESS(5, 0, 0) + SEGMENT_BYTES)
#define HEAP ADDRESS(7, 0, 0)
#define LIST (HEAP + PAGE_BYTES * HEAP_PAGES) /* the page that the weighing guest's helper grows */

enum { HEAP_PAGES = 1 }; /* that a guest begins with */

/* The guest is account 5, as the program in source document 001's example; accounts 0 and 4 do not exist. */
enum { SLOT_ACCOUNT = 1, FOREIGN_ACCOUNT = 2, FOREIGN_PROGRAM = 3, PROGRAM_ACCOUNT = 5, ACCOUNTS = 6 };

/* A booking that the transaction asks for. The transaction is a u64 count and then that many of these. */
struct request {
    uint32_t slot;
    uint32_t weight; /* kg */
    char driver[16];
};

/* A slot of the slot account. 32 divides 4,096, so that no record crosses a page. */
struct slot {
    uint32_t taken; /* 0 or 1 */
    uint32_t weight;
    char driver[16];
    uint64_t reserved;
};

/* A cell of the weighing guest's list. Its transaction is a u64 count and then that many weights, a u64 each. */
struct cell {
    uint64_t weight; /* kg */
    uint64_t sum;    /* of the weights from the first cell to this one */
    uint64_t next;   /* address of the next cell, or 0 */
};

enum { SLOT_ACCOUNT_BYTES = 6000, SLOTS = SLOT_ACCOUNT_BYTES / 32, REQUESTS_MAX = 8 };

/* The announcing guest leaves at the heap's start how many answers said Ok, and after it how many said Err, a u64 each. */
#define ANSWERS_OK HEAP
#define ANSWERS_ERR (HEAP + 8)

/* Services of the host: number in a7, arguments in a0 to a2. */
#define SERVICE_END 0        /* a0: status */
#define SERVICE_STORE_SPAN 1 /* a0: to, a1: from, a2: length; one span load and one span store */
#define SERVICE_CALL 2       /* sp is moved to the callee's stack page */
#define SERVICE_RETURN 3     /* a0: result; every other register is again what it was at the call */
#define SERVICE_HEAP 4       /* a0: pages */
#define SERVICE_EMIT 5       /* a0: an event, a1: where its answer goes, a2: descriptor of room for the answer's bytes; result in a0 */

/* The first byte of the transaction tells the misbehaving guest what to try. */
enum misbehaviour {
    STORE_FOREIGN = 1,
    RUN_OFF_STACK,
    LOAD_MISALIGNED,
    SPAN_ACROSS_PAGES,
    STORE_PROGRAM,
    LOAD_PAST_END,
    LOAD_NULL,
    LOAD_UPPER_BITS,
    RUN_HEAP,
    RUN_PAST_PROGRAM,
    MISBEHAVIOURS = RUN_PAST_PROGRAM
};

#endif
