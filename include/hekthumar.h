/* Hekthumar: a proved memory layer for a virtual machine with segmented memory.
 *
 * The host lends three byte buffers and calls. The library keeps nothing of its own: no heap, no global, no copy that was not asked for.
 *
 *   snapshot  read only: account entries, block contexts, the transaction, the accounts' data
 *   control   the VM's control block: header, 17 shadow records, the frame table; length 4,512 + 8 F
 *   pool      F frames of 4,096 bytes, F being 0 to 1,024
 *
 * A buffer is a pointer and a length; a null pointer with length 0 is an empty buffer. A buffer that a call writes overlaps no other buffer of
 * the call. Every function accepts every input and returns, and needs at most some 14 KB of stack. docs/FORMATS.md has every byte format. Each
 * function answers a number:
 *
 *    0  done                                    7  not permitted
 *    1  a buffer, header, entry is not valid    8  too few free frames
 *    2  wrong kind, length, edition or pages    9  call at 16 invocations, return at 1
 *    3  upper 16 bits set, offset too large    10  region above 4,096 pages
 *    4  no such segment, account or program    11  output too short
 *    5  misaligned                             12  bad change list
 *    6  crosses a 4,096 boundary               13  a byte absent
 *                                              14  a returned value's discriminant
 *
 * Every number but 0 changes no lent byte; a value is then 0, a view is empty and a record is zeros. With 13 an access also gives the distance
 * from its first byte to the first absent one: that many of its bytes come before it. With every other number the distance is 0.
 */
#ifndef HEKTHUMAR_H
#define HEKTHUMAR_H

#include <stddef.h>
#include <stdint.h>

#ifdef __cplusplus
extern "C" {
#endif

/* Kinds of access, for hekthumar_translate. */
#define HEKTHUMAR_LOAD 0
#define HEKTHUMAR_STORE 1
#define HEKTHUMAR_FETCH 2
#define HEKTHUMAR_LOAD_SPAN 3
#define HEKTHUMAR_STORE_SPAN 4

/* Regions, for hekthumar_resize. */
#define HEKTHUMAR_STACK 2
#define HEKTHUMAR_HEAP 3

/* Editions, for hekthumar_begin. */
#define HEKTHUMAR_OLDER 1 /* a program executes from its account's data */
#define HEKTHUMAR_NEWER 2 /* a program executes from a segment of its own */

/* Places, in hekthumar_place. */
#define HEKTHUMAR_NOWHERE 0     /* refused */
#define HEKTHUMAR_IN_SNAPSHOT 1 /* at: from the snapshot's start */
#define HEKTHUMAR_IN_CONTROL 2  /* at: from the control block's start */
#define HEKTHUMAR_ZEROS 3       /* every byte is 0 */
#define HEKTHUMAR_IN_POOL 4     /* at: from the pool's start */
#define HEKTHUMAR_TAKE 5        /* at: in the pool, once `frame`, the highest free one, is taken for a copy of the account's page */

/* Holders, in hekthumar_view. */
#define HEKTHUMAR_VIEW_NONE 0
#define HEKTHUMAR_VIEW_SNAPSHOT 1
#define HEKTHUMAR_VIEW_POOL 2

/* Segments: the type of an address, and in type 0 the index. In types 2 and 3 the index is an account, in 5 and 7 it is 0. */
#define HEKTHUMAR_TYPE_VM 0
#define HEKTHUMAR_TYPE_METADATA 2
#define HEKTHUMAR_TYPE_DATA 3
#define HEKTHUMAR_TYPE_STACK 5
#define HEKTHUMAR_TYPE_HEAP 7
#define HEKTHUMAR_INDEX_TRANSACTION 1
#define HEKTHUMAR_INDEX_SHADOW 2
#define HEKTHUMAR_INDEX_PROGRAM 3 /* no segment in the older edition */
#define HEKTHUMAR_INDEX_CONTEXTS 4

/* The address of fields that are in range, as a constant; hekthumar_join tests the offset. */
#define HEKTHUMAR_ADDRESS(type, index, offset) (((uint64_t)(type) << 40) | ((uint64_t)(index) << 24) | (uint64_t)(offset))

/* The layout, in bytes and counts; docs/FORMATS.md says what lies where. */
#define HEKTHUMAR_PAGE 4096        /* a page, a frame of the pool, the longest span */
#define HEKTHUMAR_SEGMENT 16777216 /* 2^24: offsets lie below this */
#define HEKTHUMAR_MAX_REGION (HEKTHUMAR_SEGMENT / HEKTHUMAR_PAGE) /* pages of the stack, and of the heap */

/* Snapshot. */
#define HEKTHUMAR_MAX_ACCOUNTS 64
#define HEKTHUMAR_MAX_CONTEXTS 512
#define HEKTHUMAR_MAX_TRANSACTION 65536
#define HEKTHUMAR_MAX_ACCOUNT_DATA HEKTHUMAR_SEGMENT
#define HEKTHUMAR_MAX_SNAPSHOT 2147483648u
#define HEKTHUMAR_SNAPSHOT_HEADER 32 /* the account entries start here */
#define HEKTHUMAR_METADATA_AT 16     /* in an account entry */
#define HEKTHUMAR_METADATA 64
#define HEKTHUMAR_ACCOUNT_ENTRY (HEKTHUMAR_METADATA_AT + HEKTHUMAR_METADATA)
#define HEKTHUMAR_EXISTS 1 /* flags of an account entry */
#define HEKTHUMAR_WRITABLE 2
#define HEKTHUMAR_CONTEXT 120 /* a block context as stored; in its segment each has a page */
#define HEKTHUMAR_CONTEXTS_AT(accounts) (HEKTHUMAR_SNAPSHOT_HEADER + (size_t)(accounts) * HEKTHUMAR_ACCOUNT_ENTRY)
#define HEKTHUMAR_TRANSACTION_AT(accounts, contexts) (HEKTHUMAR_CONTEXTS_AT(accounts) + (size_t)(contexts) * HEKTHUMAR_CONTEXT)
#define HEKTHUMAR_DATA_AT(accounts, contexts, transaction) (HEKTHUMAR_TRANSACTION_AT(accounts, contexts) + (size_t)(transaction))

/* Control block and pool. */
#define HEKTHUMAR_MAX_FRAMES 1024
#define HEKTHUMAR_MAX_INVOCATIONS 16
#define HEKTHUMAR_SHADOW_AT 24   /* the header's length; record 0 starts here, and is no invocation's */
#define HEKTHUMAR_REGISTERS_AT 8 /* in a shadow record */
#define HEKTHUMAR_REGISTERS 256
#define HEKTHUMAR_SHADOW (HEKTHUMAR_REGISTERS_AT + HEKTHUMAR_REGISTERS)
#define HEKTHUMAR_TABLE_AT (HEKTHUMAR_SHADOW_AT + (HEKTHUMAR_MAX_INVOCATIONS + 1) * HEKTHUMAR_SHADOW)
/* A frame entry: u8 use, u8 tag, u16 account, u16 page, u16 depth. The last is, of a copy, the depth at the store that took it, that is the
 * calls since begin less the returns; of stack and heap pages, whose depth is the tag, it is 0. */
#define HEKTHUMAR_FRAME_ENTRY 8
#define HEKTHUMAR_FREE 0 /* use byte of a frame entry: this, */
#define HEKTHUMAR_COPY 1 /* this, HEKTHUMAR_STACK or HEKTHUMAR_HEAP */
#define HEKTHUMAR_CONTROL_LENGTH(frames) (HEKTHUMAR_TABLE_AT + (size_t)(frames) * HEKTHUMAR_FRAME_ENTRY)
#define HEKTHUMAR_POOL_LENGTH(frames) ((size_t)(frames) * HEKTHUMAR_PAGE)

/* Change list: a header of four u32 (n, 16, 16 + 12 n where the pages start, the total 16 + 4,108 n), n entries that ascend by account and
 * page, and their n pages of 4,096 bytes in the same order, each the live bytes and then zeros. An entry, by its offsets: 0 u16 account,
 * 2 u16 page, 4 u32 live bytes, 8 u16 depth at the first store to the page, 10 u16 zero. With the frame count for the pages, the length is
 * room for any list. */
#define HEKTHUMAR_LIST_HEADER 16
#define HEKTHUMAR_LIST_ENTRY 12
#define HEKTHUMAR_LIST_LENGTH(pages) (HEKTHUMAR_LIST_HEADER + (size_t)(pages) * (HEKTHUMAR_LIST_ENTRY + HEKTHUMAR_PAGE))

typedef struct {
    uint64_t address;
    uint8_t number;
} hekthumar_address;

typedef struct {
    uint32_t offset;
    uint16_t index;
    uint8_t type;
    uint8_t number;
} hekthumar_fields;

/* Of a load or a fetch. */
typedef struct {
    uint64_t value;
    uint16_t distance;
    uint8_t number;
} hekthumar_value;

/* Of a store, a span load, a span store or a record's write. */
typedef struct {
    uint16_t distance;
    uint8_t number;
} hekthumar_outcome;

/* A field that the place does not name is 0; but where the access would be told 13, `at` is its distance. */
typedef struct {
    uint64_t at;
    uint16_t frame;
    uint16_t account;
    uint16_t page;
    uint8_t place;
    uint8_t number;
} hekthumar_place;

/* The part of the holder that the view is: `length` bytes from `start` on. */
typedef struct {
    uint64_t start;
    uint64_t length;
    uint8_t holder;
    uint8_t number;
} hekthumar_view;

/* Records that programs pass data by, in their memory as here in C: little-endian, without a gap. */

/* A buffer descriptor: where `length` bytes start. The pointer is an address of the machine, and is passed on unchecked. */
typedef struct {
    uint64_t pointer;
    uint64_t length;
} hekthumar_buffer;

typedef struct {
    hekthumar_buffer kind;
    hekthumar_buffer data;
} hekthumar_event;

typedef struct {
    hekthumar_buffer file;
    uint32_t line;
    uint32_t column;
} hekthumar_location;

typedef struct {
    hekthumar_buffer context_id;
    hekthumar_buffer function;
    hekthumar_buffer params;
} hekthumar_call_record;

typedef struct {
    uint64_t discriminant; /* HEKTHUMAR_RETURNED_OK or HEKTHUMAR_RETURNED_ERR */
    hekthumar_buffer buffer;
} hekthumar_returned;

#define HEKTHUMAR_RETURNED_OK 0
#define HEKTHUMAR_RETURNED_ERR 1

/* Of a record's read. */
typedef struct {
    hekthumar_buffer record;
    uint16_t distance;
    uint8_t number;
} hekthumar_read_buffer_answer;

typedef struct {
    hekthumar_event record;
    uint16_t distance;
    uint8_t number;
} hekthumar_read_event_answer;

typedef struct {
    hekthumar_location record;
    uint16_t distance;
    uint8_t number;
} hekthumar_read_location_answer;

typedef struct {
    hekthumar_call_record record;
    uint16_t distance;
    uint8_t number;
} hekthumar_read_call_record_answer;

typedef struct {
    hekthumar_returned record;
    uint16_t distance;
    uint8_t number;
} hekthumar_read_returned_answer;

/* The address of a type, an index and an offset below 2^24; else 3 and the address 0. */
hekthumar_address hekthumar_join(uint8_t type, uint16_t index, uint32_t offset);

/* The fields of an address below 2^48; else 3 and zero fields. */
hekthumar_fields hekthumar_split(uint64_t address);

/* Begins a program of an edition with one stack page: hekthumar_begin_pages with 1. */
uint8_t hekthumar_begin(const uint8_t *snapshot, size_t snapshot_len, uint8_t *control, size_t control_len, uint8_t *pool, size_t pool_len,
                        uint16_t program, uint32_t edition);

/* Begins a program with 0 or 1 stack pages: writes the whole control block, reads no byte of it or of the pool. The edition holds until the
 * next begin, for every program called. With 1 page, frame 0 is taken for stack page 4,095, with tag 0, and its 4,096 bytes are zeroed; every
 * other byte of the pool stays. With 0 the pool stays whole. Refusals: 1 for the snapshot and both lengths, 2 for another edition or more than
 * 1 page, then 4, 1, 4 for the program's account, last 8 for 1 page and no frame. */
uint8_t hekthumar_begin_pages(const uint8_t *snapshot, size_t snapshot_len, uint8_t *control, size_t control_len, uint8_t *pool,
                              size_t pool_len, uint16_t program, uint32_t edition, size_t pages);

/* Where an access of this kind would go, and the number that it would give. Changes nothing. */
hekthumar_place hekthumar_translate(const uint8_t *snapshot, size_t snapshot_len, const uint8_t *control, size_t control_len,
                                    const uint8_t *pool, size_t pool_len, uint8_t kind, uint64_t address, size_t length);

/* Loads 1, 2, 4 or 8 bytes as a little-endian number. */
hekthumar_value hekthumar_load(const uint8_t *snapshot, size_t snapshot_len, const uint8_t *control, size_t control_len,
                               const uint8_t *pool, size_t pool_len, uint64_t address, size_t size);

/* Fetches 1, 2, 4 or 8 bytes of the current program. In the newer edition they are its original data, in type 0 with index 3; in the older
 * they are its account's data, in type 3, and it reads what a load reads. No other segment permits a fetch. */
hekthumar_value hekthumar_fetch(const uint8_t *snapshot, size_t snapshot_len, const uint8_t *control, size_t control_len,
                                const uint8_t *pool, size_t pool_len, uint64_t address, size_t size);

/* Stores the `size` lowest bytes of a value, 1, 2, 4 or 8. The first store to a page of an account takes the highest free frame for a copy of
 * the page, or gives 8, last, if none is free. The frame's entry keeps the depth of that store; later ones leave it. */
hekthumar_outcome hekthumar_store(const uint8_t *snapshot, size_t snapshot_len, uint8_t *control, size_t control_len, uint8_t *pool,
                                  size_t pool_len, uint64_t address, size_t size, uint64_t value);

/* Fills `out`, of 1 to 4,096 bytes. */
hekthumar_outcome hekthumar_load_span(const uint8_t *snapshot, size_t snapshot_len, const uint8_t *control, size_t control_len,
                                      const uint8_t *pool, size_t pool_len, uint64_t address, uint8_t *out, size_t out_len);

/* Stores all of `bytes`, 1 to 4,096 of them; takes a frame as hekthumar_store does. */
hekthumar_outcome hekthumar_store_span(const uint8_t *snapshot, size_t snapshot_len, uint8_t *control, size_t control_len, uint8_t *pool,
                                       size_t pool_len, uint64_t address, const uint8_t *bytes, size_t bytes_len);

/* A record's read is one span load of its bytes, its write one span store: refused for the same reasons in the same order, all or nothing, at
 * any address, aligned or not. A returned value's discriminant other than 0 and 1 is 14, read or written, after every other refusal. */
hekthumar_read_buffer_answer hekthumar_read_buffer(const uint8_t *snapshot, size_t snapshot_len, const uint8_t *control, size_t control_len,
                                                   const uint8_t *pool, size_t pool_len, uint64_t address);
hekthumar_read_event_answer hekthumar_read_event(const uint8_t *snapshot, size_t snapshot_len, const uint8_t *control, size_t control_len,
                                                 const uint8_t *pool, size_t pool_len, uint64_t address);
hekthumar_read_location_answer hekthumar_read_location(const uint8_t *snapshot, size_t snapshot_len, const uint8_t *control,
                                                       size_t control_len, const uint8_t *pool, size_t pool_len, uint64_t address);
hekthumar_read_call_record_answer hekthumar_read_call_record(const uint8_t *snapshot, size_t snapshot_len, const uint8_t *control,
                                                             size_t control_len, const uint8_t *pool, size_t pool_len, uint64_t address);
hekthumar_read_returned_answer hekthumar_read_returned(const uint8_t *snapshot, size_t snapshot_len, const uint8_t *control,
                                                       size_t control_len, const uint8_t *pool, size_t pool_len, uint64_t address);
hekthumar_outcome hekthumar_write_buffer(const uint8_t *snapshot, size_t snapshot_len, uint8_t *control, size_t control_len, uint8_t *pool,
                                         size_t pool_len, uint64_t address, hekthumar_buffer record);
hekthumar_outcome hekthumar_write_event(const uint8_t *snapshot, size_t snapshot_len, uint8_t *control, size_t control_len, uint8_t *pool,
                                        size_t pool_len, uint64_t address, hekthumar_event record);
hekthumar_outcome hekthumar_write_location(const uint8_t *snapshot, size_t snapshot_len, uint8_t *control, size_t control_len,
                                           uint8_t *pool, size_t pool_len, uint64_t address, hekthumar_location record);
hekthumar_outcome hekthumar_write_call_record(const uint8_t *snapshot, size_t snapshot_len, uint8_t *control, size_t control_len,
                                              uint8_t *pool, size_t pool_len, uint64_t address, hekthumar_call_record record);
hekthumar_outcome hekthumar_write_returned(const uint8_t *snapshot, size_t snapshot_len, uint8_t *control, size_t control_len,
                                           uint8_t *pool, size_t pool_len, uint64_t address, hekthumar_returned record);

/* Calls a program with 256 bytes of registers. Refusals: 1, 2, 9, 4, 1, 4. */
uint8_t hekthumar_call(const uint8_t *snapshot, size_t snapshot_len, uint8_t *control, size_t control_len, const uint8_t *pool,
                       size_t pool_len, uint16_t program, const uint8_t *registers, size_t registers_len);

/* Returns from the current invocation; its 256 bytes of registers go into `registers`. Its stack pages are freed; its heap pages stay and are
 * the caller's. Refusals: 1, 2, 9. */
uint8_t hekthumar_return(const uint8_t *snapshot, size_t snapshot_len, uint8_t *control, size_t control_len, const uint8_t *pool,
                         size_t pool_len, uint8_t *registers, size_t registers_len);

/* Resizes the stack or the heap of the current invocation. New pages take the lowest free frames, zeroed. Refusals: 1, 2, 10, then 8, or 1
 * and 7. */
uint8_t hekthumar_resize(const uint8_t *snapshot, size_t snapshot_len, uint8_t *control, size_t control_len, uint8_t *pool,
                         size_t pool_len, uint8_t region, size_t pages);

/* Writes the change list: 16 + 4,108 n bytes for n pages. Each has the depth that its frame's entry holds, whatever that is. Bytes of `out`
 * past them stay. Refusals: 1, 11. */
uint8_t hekthumar_change_list(const uint8_t *snapshot, size_t snapshot_len, const uint8_t *control, size_t control_len,
                              const uint8_t *pool, size_t pool_len, uint8_t *out, size_t out_len);

/* Applies a change list to an account's data. Refusal: 12 unless the four words agree, the buffer is not shorter than the total, the
 * entries ascend strictly, every entry, this account's or not, has 1 to 4,096 live bytes and ends in a zero u16, and each of this account
 * has the live bytes that the data's length gives. Any depth is taken. */
uint8_t hekthumar_apply(const uint8_t *list, size_t list_len, uint16_t account, uint8_t *data, size_t data_len);

/* Where the live bytes of an account's page lie now. Refusals: 1, 4, 1, 13. */
hekthumar_view hekthumar_page_view(const uint8_t *snapshot, size_t snapshot_len, const uint8_t *control, size_t control_len,
                                   const uint8_t *pool, size_t pool_len, uint16_t account, uint16_t page);

#ifdef __cplusplus
}
#endif

#endif
