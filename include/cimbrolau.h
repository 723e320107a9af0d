/*
 * Cimbrolau: AEROSNAP version 1 snapshots, DSKC disk-controller wrappers and AIPC messages.
 *
 * Link with target/staticlib/libcimbrolau.a, which `tools/library` makes; `tools/install PREFIX` puts it, this header and a file for
 * pkg-config below PREFIX. examples/list.c is a whole program. Of other libraries it wants memcpy, memmove and memset.
 * It keeps no state and allocates nothing, so several threads may call it at once. A call takes at most 125 KiB of stack,
 * cimbrolau_add_devices_of 221 KiB.
 *
 * Every call takes every input, ends, and answers with a number and a place:
 *
 *   number 0    taken. The place is the number of bytes written to the lent buffer, or 0 for a call that writes nothing.
 *   else        refused, for the first reason in the order of the rules. The place says where in the input; 0 where nothing names one;
 *               for CIMBROLAU_ROOM it is the length that the buffer has to have.
 *
 * A refused call leaves the lent buffer exactly as it was. A call that is taken writes from the buffer's start on and leaves the bytes
 * behind the written ones as they were; they are no part of what was written. To learn the length needed, lend a buffer of length 0.
 *
 * What a caller owes, and nothing can check:
 *   - each length is the number of bytes that the pointer before it points to; for a length of 0 any pointer will do, also a null one;
 *   - a buffer that is lent to be written (`out`, `losses`, `list`, `table` where it is not const) overlaps no input and no other buffer of the same call, and
 *     nothing else touches either while the call runs.
 * All else is checked by the call.
 */
#ifndef CIMBROLAU_H
#define CIMBROLAU_H

#include <stddef.h>
#include <stdint.h>

#ifdef __cplusplus
extern "C" {
#endif

/* The version of the library that this header is of. (CIMBROLAU_VERSION is a refusal.) */
#define CIMBROLAU_LIBRARY_VERSION "0.1.0"

/* ---- the refusals */

enum {
    CIMBROLAU_TAKEN = 0,
    CIMBROLAU_SHORT = 1,     /* file or wrapper under 16 bytes; at 0 */
    CIMBROLAU_MAGIC = 2,     /* letters wrong; at 0, or 8 for `DSKC` */
    CIMBROLAU_VERSION = 3,   /* file version, at 8; in wrappers a pair other than 1, 0, at 4 or 12 */
    CIMBROLAU_ENDIAN = 4,    /* endianness tag not 1; at 10 */
    CIMBROLAU_RESERVED = 5,  /* reserved number or known section's flags not 0; at its offset */
    CIMBROLAU_SIZE = 6,      /* file or wrapper too long; at 0 */
    CIMBROLAU_CUT = 7,       /* section header or payload passes the end; at the section's start */
    CIMBROLAU_MANY = 8,      /* 65th section; at its start */
    CIMBROLAU_TWICE = 9,     /* known id again, CPU with CPUS, MMU with MMUS; at the later section's start */
    CIMBROLAU_SECVER = 10,   /* version of a section not taken; at its offset */
    CIMBROLAU_SHAPE = 11,    /* field doesn't fit, at its start; state length wrong; bytes left over in wrappers and messages, at the first */
    CIMBROLAU_LIMIT = 12,    /* count or length over its bound, at its offset; message too long, at 0 */
    CIMBROLAU_KEY = 13,      /* key again; at the later entry's start */
    CIMBROLAU_TEXT = 14,     /* not UTF-8; at the first byte at which none continues, or the text's end; in adds and message writing at 0 */
    CIMBROLAU_VALUE = 15,    /* listed byte or number outside its values; at its offset */
    CIMBROLAU_ROOM = 16,     /* output shorter than needed; the place is the length needed */
    CIMBROLAU_HAVE = 17,     /* added key is there; at 0 */
    CIMBROLAU_TAG = 18,      /* unknown tag; at 0 */
    CIMBROLAU_REGION = 20,   /* broken region; at its first wrong field */
    CIMBROLAU_BIG = 21,      /* record above half the capacity; at 0 */
    CIMBROLAU_FULL = 22,     /* bytes in use and those needed exceed the capacity; at 0 */
    CIMBROLAU_EMPTY = 23,    /* nothing is committed; at 0 */
    CIMBROLAU_RECORD = 24,   /* committed record runs past commit or the ring's end, or a skip reaches commit; at 0 */
    CIMBROLAU_ABSENT = 25,   /* entry to be removed or replaced isn't there; at 0 */
    CIMBROLAU_PAYLOAD = 26,  /* of many devices at once: a payload lies outside the bytes that hold them; at 0 */
    CIMBROLAU_CARD = 28,     /* a number of an untrue card would leave its bounds; at 0 */
    CIMBROLAU_TURN = 29      /* cursors given out of turn; at 0 */
};

/* The name of a number as the card of refusals has it, "TAKEN" for 0; null for a number that no call answers. */
static inline const char *cimbrolau_name(uint32_t number) {
    switch (number) {
    case CIMBROLAU_TAKEN: return "TAKEN";
    case CIMBROLAU_SHORT: return "SHORT";
    case CIMBROLAU_MAGIC: return "MAGIC";
    case CIMBROLAU_VERSION: return "VERSION";
    case CIMBROLAU_ENDIAN: return "ENDIAN";
    case CIMBROLAU_RESERVED: return "RESERVED";
    case CIMBROLAU_SIZE: return "SIZE";
    case CIMBROLAU_CUT: return "CUT";
    case CIMBROLAU_MANY: return "MANY";
    case CIMBROLAU_TWICE: return "TWICE";
    case CIMBROLAU_SECVER: return "SECVER";
    case CIMBROLAU_SHAPE: return "SHAPE";
    case CIMBROLAU_LIMIT: return "LIMIT";
    case CIMBROLAU_KEY: return "KEY";
    case CIMBROLAU_TEXT: return "TEXT";
    case CIMBROLAU_VALUE: return "VALUE";
    case CIMBROLAU_ROOM: return "ROOM";
    case CIMBROLAU_HAVE: return "HAVE";
    case CIMBROLAU_TAG: return "TAG";
    case CIMBROLAU_REGION: return "REGION";
    case CIMBROLAU_BIG: return "BIG";
    case CIMBROLAU_FULL: return "FULL";
    case CIMBROLAU_EMPTY: return "EMPTY";
    case CIMBROLAU_RECORD: return "RECORD";
    case CIMBROLAU_ABSENT: return "ABSENT";
    case CIMBROLAU_PAYLOAD: return "PAYLOAD";
    case CIMBROLAU_CARD: return "CARD";
    case CIMBROLAU_TURN: return "TURN";
    default: return NULL;
    }
}

/* ---- what a call answers */

struct cimbrolau_answer {
    uint32_t number;
    uint64_t place;
};

/* ---- snapshot files */

/* Whether a file follows the rules. */
struct cimbrolau_answer cimbrolau_check(const uint8_t *file, size_t file_length);

/*
 * Tables: records of 32 bytes with no header, all numbers little-endian, offsets counted from the start of the file.
 * The whole file is checked first.
 *
 *   sections, in file order   u32 id, u16 version, u16 flags, u64 payload offset, u64 length
 *   devices, in key order     u32 id, u16 version, u16 flags, u64 payload offset, u64 length
 *   disks, in key order       u32 id, u32 base length, u64 base offset, u32 overlay length, u32 0
 *   CPUs, in key order        u32 APIC id, u32 state length, u64 state offset, u64 length of the internal blob
 *   MMUs, in key order        u32 APIC id, u32 state length, u64 state offset, u64 0
 *
 * and behind these 24 bytes, in each: u32 position, the number of the section in the file or of the entry in the file's own list, from 0; u32 0.
 * A file that has one CPU or one MMU, in a section CPU or MMU, has no record of it: the table of sections names its state.
 * The structs have that layout: an array of them may be lent as a table.
 */
struct cimbrolau_section {
    uint32_t id;
    uint16_t version, flags;
    uint64_t offset, length;
    uint32_t position, zero;
};

struct cimbrolau_device {
    uint32_t id;
    uint16_t version, flags;
    uint64_t offset, length;
    uint32_t position, zero;
};

struct cimbrolau_disk {
    uint32_t id, base_length;
    uint64_t base_offset; /* the overlay's name starts 4 bytes behind the base's */
    uint32_t overlay_length, zero;
    uint32_t position, zero_too;
};

struct cimbrolau_cpu {
    uint32_t apic, state_length;
    uint64_t state_offset, blob_length; /* the internal blob starts 8 bytes behind the state */
    uint32_t position, zero;
};

struct cimbrolau_mmu {
    uint32_t apic, state_length;
    uint64_t state_offset, zero;
    uint32_t position, zero_too;
};

/* The most records that a table has. */
enum { CIMBROLAU_MOST_SECTIONS = 64, CIMBROLAU_MOST_DEVICES = 4096, CIMBROLAU_MOST_DISKS = 256, CIMBROLAU_MOST_CPUS = 256, CIMBROLAU_MOST_MMUS = 256, CIMBROLAU_MOST_CONTROLLERS = 256 };

struct cimbrolau_answer cimbrolau_sections(const uint8_t *file, size_t file_length, uint8_t *table, size_t table_length);

struct cimbrolau_answer cimbrolau_devices(const uint8_t *file, size_t file_length, uint8_t *table, size_t table_length);

struct cimbrolau_answer cimbrolau_disks(const uint8_t *file, size_t file_length, uint8_t *table, size_t table_length);

struct cimbrolau_answer cimbrolau_cpus(const uint8_t *file, size_t file_length, uint8_t *table, size_t table_length);

struct cimbrolau_answer cimbrolau_mmus(const uint8_t *file, size_t file_length, uint8_t *table, size_t table_length);

/*
 * What META says of a snapshot. Beside a refusal, and in a file that has no META section, all else is 0.
 * The label is no text of C: it stands at label_place of the file, label_length bytes of UTF-8, with no zero behind it.
 */
struct cimbrolau_meta {
    uint32_t number;
    uint32_t present;    /* 1 where there is a META section */
    uint64_t place;
    uint64_t id;         /* of the snapshot */
    uint32_t has_parent; /* 1 where it has one */
    uint32_t has_label;
    uint64_t parent;     /* the id of its parent */
    uint64_t time;       /* in milliseconds, as the saver's clock had it */
    uint64_t label_place, label_length;
};

struct cimbrolau_meta cimbrolau_meta(const uint8_t *file, size_t file_length);

/* The canonical form of a file. It is never longer than the file. */
struct cimbrolau_answer cimbrolau_canonical(const uint8_t *file, size_t file_length, uint8_t *out, size_t out_length);

/*
 * A card: what is shown of a canonical file after each edit, with no walk over the file. cimbrolau_open makes that of a file's canonical form; each edit
 * takes a card and hands back the one of its result.
 */
struct cimbrolau_card {
    uint64_t length;   /* of the canonical form, 16 to 1024 MiB */
    uint64_t sections; /* how many it has, up to 64 */
    uint64_t devices;  /* up to 4096 */
    uint64_t payloads; /* the bytes of the devices' payloads together, up to 256 MiB */
};

/* What opening and editing answer. */
struct cimbrolau_edited {
    uint32_t number;
    uint32_t index; /* of many devices at once: the entry that is refused, from 0; else 0 */
    uint64_t place;
    struct cimbrolau_card card;
};

/* Whether a file follows the rules, and the card of its canonical form; beside a refusal the card's numbers are 0. */
struct cimbrolau_edited cimbrolau_open(const uint8_t *file, size_t file_length);

/*
 * ---- edits, each beside the card of the file
 *
 * Each number of the card moves by what the edit changes in the canonical form, so the card of the file becomes that of the result. The bytes written do
 * not depend on it. A card that is not that of the file moves as well; if one of its numbers would leave its bounds, the edit is CIMBROLAU_CARD at 0, which
 * comes after all else, CIMBROLAU_ROOM too. Beside every refusal the card comes back as it went in.
 */

/*
 * The canonical form of a file's content and one device or one disk more. What is wrong with the file comes first, with its own place; what is
 * wrong with the new entry or with the result is at 0: CIMBROLAU_LIMIT, CIMBROLAU_TEXT, CIMBROLAU_HAVE, CIMBROLAU_MANY, CIMBROLAU_SIZE.
 */
struct cimbrolau_edited cimbrolau_add_device(const uint8_t *file, size_t file_length, struct cimbrolau_card card, uint32_t id, uint16_t version, uint16_t flags, const uint8_t *payload, size_t payload_length, uint8_t *out, size_t out_length);

struct cimbrolau_edited cimbrolau_add_disk(const uint8_t *file, size_t file_length, struct cimbrolau_card card, uint32_t id, const uint8_t *base, size_t base_length, const uint8_t *overlay, size_t overlay_length, uint8_t *out, size_t out_length);

/*
 * The canonical form of a file's content and many devices more. The table has a record of 24 bytes for each new device, with no header; all numbers are
 * little-endian, and a part record at the table's end is no entry:
 *
 *   u32 id, u16 version, u16 flags, u64 place, u64 length
 *
 * The payload is that part of `store`; payloads may overlap, and be empty. The struct has that layout: an array of them may be lent as the table.
 *
 * The answer is that of cimbrolau_add_device for one entry after the other, each into a buffer of the output's length: the same bytes, or the first refusal
 * met, with the entry's number in `index`, from 0. Nothing is written before the last entry is taken. Before all that cimbrolau_add_device asks of an entry it
 * is CIMBROLAU_PAYLOAD at 0 if its payload lies outside `store`; an empty one at the very end is inside. A key that comes again in the table is
 * CIMBROLAU_HAVE at the later entry. CIMBROLAU_ROOM names the first of the files on the way for which there is no room: with so much memory the call gets
 * beyond that entry, and may ask for more behind it. With no entry the answer is the canonical form.
 *
 * The card moves by what all entries change together, and is asked behind all of them. The index is 0 beside what is wrong with the file, beside
 * CIMBROLAU_CARD, of a table with no entry, and in a call that is taken.
 *
 * cimbrolau_add_devices_of takes the entries as structs, by their count, and answers as cimbrolau_add_devices does for their records. It keeps the records on
 * its stack, 98,328 bytes, and looks at no more than 4,097 entries, since a file holds 4,096 devices.
 */
struct cimbrolau_new_device {
    uint32_t id;
    uint16_t version, flags;
    uint64_t place, length; /* of its payload in `store` */
};

struct cimbrolau_edited cimbrolau_add_devices(const uint8_t *file, size_t file_length, struct cimbrolau_card card, const uint8_t *table, size_t table_length, const uint8_t *store, size_t store_length, uint8_t *out, size_t out_length);

struct cimbrolau_edited cimbrolau_add_devices_of(const uint8_t *file, size_t file_length, struct cimbrolau_card card, const struct cimbrolau_new_device *table, size_t table_count, const uint8_t *store, size_t store_length, uint8_t *out, size_t out_length);

/*
 * The canonical form of a file's content without one of its devices or disks; the last entry's removal removes its section. What is wrong with the
 * file comes first; an entry that isn't there is CIMBROLAU_ABSENT at 0.
 */
struct cimbrolau_edited cimbrolau_remove_device(const uint8_t *file, size_t file_length, struct cimbrolau_card card, uint32_t id, uint16_t version, uint16_t flags, uint8_t *out, size_t out_length);

struct cimbrolau_edited cimbrolau_remove_disk(const uint8_t *file, size_t file_length, struct cimbrolau_card card, uint32_t id, uint8_t *out, size_t out_length);

/* The same with another payload in one of its devices, under the same key: CIMBROLAU_LIMIT, CIMBROLAU_ABSENT, CIMBROLAU_LIMIT, CIMBROLAU_SIZE, all at 0. */
struct cimbrolau_edited cimbrolau_replace_device(const uint8_t *file, size_t file_length, struct cimbrolau_card card, uint32_t id, uint16_t version, uint16_t flags, const uint8_t *payload, size_t payload_length, uint8_t *out, size_t out_length);

/*
 * Salvage: what can be kept of a damaged file. Each section is kept that would be accepted behind those kept before; each other one that fits in the
 * file is dropped; the first that does not fit takes all bytes to the end with it. `out` gets the canonical form of what is kept, which is always
 * accepted and never longer than the file; `losses` a record of 24 bytes for each loss, in the order of the file. An accepted file has none.
 *
 *   u64 start, u64 bytes lost, u32 number of the refusal, u32 0
 *
 * The struct has that layout: an array of them may be lent. A section with its header is one loss, at its header's start; what does not fit has
 * CIMBROLAU_CUT. Refused are a file that is too long or whose header is wrong, then CIMBROLAU_ROOM for `out`, then for `losses`; a refusal touches
 * neither. A file of n bytes has fewer than n / 16 losses, so that n + n / 2 bytes are room enough for the records.
 */
struct cimbrolau_loss {
    uint64_t start, bytes;
    uint32_t number, zero;
};

struct cimbrolau_salvaged {
    uint32_t number;
    uint64_t place;  /* the bytes written to `out` */
    uint64_t losses; /* the records written to `losses`; 0 beside a refusal */
};

struct cimbrolau_salvaged cimbrolau_salvage(const uint8_t *file, size_t file_length, uint8_t *out, size_t out_length, uint8_t *losses, size_t losses_length);

/* ---- disk-controller wrappers */

/* Whether a wrapper follows the rules. */
struct cimbrolau_answer cimbrolau_wrapper_check(const uint8_t *wrapper, size_t wrapper_length);

/*
 * The controllers in address order, 32 bytes each: u16 address, u16 0, four tag bytes, u64 payload offset, u64 length, u32 position in the
 * wrapper's own list, from 0, u32 0; offsets count from the wrapper's start. The struct has that layout.
 */
struct cimbrolau_controller {
    uint16_t address, zero;
    uint8_t tag[4];
    uint64_t offset, length;
    uint32_t position, zero_too;
};

struct cimbrolau_answer cimbrolau_controllers(const uint8_t *wrapper, size_t wrapper_length, uint8_t *table, size_t table_length);

/* The canonical form of a wrapper, in address order. It is as long as the wrapper. */
struct cimbrolau_answer cimbrolau_wrapper_canonical(const uint8_t *wrapper, size_t wrapper_length, uint8_t *out, size_t out_length);

/* ---- readiness */

/* Whether a file is ready to restore. */
struct cimbrolau_readiness {
    uint32_t number;
    uint32_t yes;    /* 1 for a yes; 0 for a no, and beside a refusal */
    uint64_t place;  /* the bytes written to the list: 0 for a yes */
};

/*
 * A yes exactly if the file is taken, its devices include an interrupt controller (2 or 21), PIT 3, RTC 4, i8042 13, ACPI PM 16, HPET 17 and exactly
 * one entry with id 6, whose payload is an accepted wrapper, and the disks 0 and 1 are there. For a no the list says what is missing, 8 bytes for each
 * thing, two u32: 1 and the id of a device, in the order 3, 4, 6, 13, 16, 17, 21, where 21 stands for either controller; then 2 and the id of a disk.
 * 72 bytes are enough for every list.
 */
struct cimbrolau_readiness cimbrolau_ready(const uint8_t *file, size_t file_length, uint8_t *list, size_t list_length);

/* ---- messages */

/*
 * A message is its tag and up to four numbers a, b, c, d: those of its kind in the order of its fields, 0 where the kind has fewer. Data
 * and texts stand beside them; their length field is no number of its own. The error code of DiskReadResp and DiskWriteResp is d, and is 0
 * where `ok` is 1.
 *
 *   tag     kind           a          b             c       d              data
 *   0x0000  Nop            u32 seq
 *   0x0001  Shutdown
 *   0x0100  MmioRead       u32 id     u64 addr      u32 size
 *   0x0101  MmioWrite      u32 id     u64 addr                             bytes
 *   0x0102  PortRead       u32 id     u16 port      u32 size
 *   0x0103  PortWrite      u32 id     u16 port      u32 size  u32 value
 *   0x0104  DiskRead       u32 id     u64 disk      u32 len   u64 guest
 *   0x0105  DiskWrite      u32 id     u64 disk      u32 len   u64 guest
 *   0x1000  Ack            u32 seq
 *   0x1100  MmioReadResp   u32 id                                          bytes
 *   0x1101  PortReadResp   u32 id     u32 value
 *   0x1102  MmioWriteResp  u32 id
 *   0x1103  PortWriteResp  u32 id
 *   0x1104  DiskReadResp   u32 id     u8 ok         u32 bytes u32 error
 *   0x1105  DiskWriteResp  u32 id     u8 ok         u32 bytes u32 error
 *   0x1200  FrameReady     u64 frame
 *   0x1300  IrqRaise       u8 irq
 *   0x1301  IrqLower       u8 irq
 *   0x1302  A20Set         u8 enabled
 *   0x1303  ResetRequest
 *   0x1400  Log            u8 level                                        UTF-8
 *   0x1500  SerialOutput   u16 port                                        bytes
 *   0x1FFE  Panic                                                          UTF-8
 *   0x1FFF  TripleFault
 */

/* A message read. Unless the number is 0 there is no reading, and all behind the place is 0. The data stands in the message at data_place. */
struct cimbrolau_message {
    uint32_t number;
    uint64_t place;
    uint32_t tag;
    uint64_t a, b, c, d;
    uint64_t data_place, data_length;
};

struct cimbrolau_message cimbrolau_message_read(const uint8_t *message, size_t message_length);

/*
 * A message written. Before all else an unknown tag is CIMBROLAU_TAG, and a number too wide for its field, or other than 0 beside a field
 * that is not there, is CIMBROLAU_VALUE, both at 0. Data for a kind that has none is CIMBROLAU_VALUE too.
 */
struct cimbrolau_answer cimbrolau_message_write(uint32_t tag, uint64_t a, uint64_t b, uint64_t c, uint64_t d, const uint8_t *data, size_t data_length, uint8_t *out, size_t out_length);

/*
 * ---- rings: one lent region of shared memory, and the number of a queue in it
 *
 * Every call checks the whole region first. A call that is taken and stores something answers how many bytes it stored; a refused one changes no byte of the
 * region, and the numbers beside number and place are 0. Each call is single: two threads that use a region take turns. What is promised of a producer that
 * stops is said over values, a cursor being one store; the library uses no atomic operation.
 */

/* Whether a region follows the rules. */
struct cimbrolau_answer cimbrolau_region_check(const uint8_t *region, size_t region_length);

/* A queue's cursors, signed, as hosts show them. */
struct cimbrolau_cursors {
    uint32_t number;
    uint64_t place;
    int32_t head, reserve, commit;
};

struct cimbrolau_cursors cimbrolau_ring_report(const uint8_t *region, size_t region_length, uint32_t queue);

/* Room for a payload of so many bytes: a start and an end, which fill and commit are given as they are answered here. */
struct cimbrolau_pair {
    uint32_t number;
    uint64_t place;
    uint32_t start, end;
};

struct cimbrolau_pair cimbrolau_ring_reserve(uint8_t *region, size_t region_length, uint32_t queue, uint64_t payload_length);

/* The payload into its pair; a pair may be filled again until it is committed. */
struct cimbrolau_answer cimbrolau_ring_fill(uint8_t *region, size_t region_length, uint32_t queue, uint32_t start, uint32_t end, const uint8_t *payload, size_t payload_length);

/* The records of a pair become the taker's. Pairs are committed in the order in which they were reserved. */
struct cimbrolau_answer cimbrolau_ring_commit(uint8_t *region, size_t region_length, uint32_t queue, uint32_t start, uint32_t end);

/* The next payload, by its place in the region and its length. A producer may write over it from then on: read it, or copy it, before the next reserve. */
struct cimbrolau_record {
    uint32_t number;
    uint64_t place;
    uint64_t payload_place, payload_length;
};

struct cimbrolau_record cimbrolau_ring_take(uint8_t *region, size_t region_length, uint32_t queue);

/*
 * ---- register sheets: the fields of CPU and MMU states of version 2, by number and index
 *
 * A CPU state has 1183 bytes, 1191 with the extension, or more with an extension's length that matches; an MMU state has 264. Any other length, a field or an index that the state lacks is CIMBROLAU_SHAPE
 * at 0. The fields are those of document 002 in its order; a field that stands once has index 0. Numbers are little-endian.
 */
enum cimbrolau_cpu_field_number {
    CIMBROLAU_CPU_GPR, /* 16: RAX RCX RDX RBX RSP RBP RSI RDI R8 to R15 */
    CIMBROLAU_CPU_RIP,
    CIMBROLAU_CPU_RFLAGS,
    CIMBROLAU_CPU_MODE,
    CIMBROLAU_CPU_HALTED,
    CIMBROLAU_CPU_SELECTOR, /* 6, as the next three: ES CS SS DS FS GS */
    CIMBROLAU_CPU_BASE,
    CIMBROLAU_CPU_LIMIT,
    CIMBROLAU_CPU_ACCESS,
    CIMBROLAU_CPU_FCW,
    CIMBROLAU_CPU_FSW,
    CIMBROLAU_CPU_FTW,
    CIMBROLAU_CPU_TOP,
    CIMBROLAU_CPU_FOP,
    CIMBROLAU_CPU_FIP,
    CIMBROLAU_CPU_FDP,
    CIMBROLAU_CPU_FCS,
    CIMBROLAU_CPU_FDS,
    CIMBROLAU_CPU_ST, /* 8 of 16 bytes */
    CIMBROLAU_CPU_MXCSR,
    CIMBROLAU_CPU_XMM, /* 16 of 16 bytes */
    CIMBROLAU_CPU_FXSAVE, /* 512 bytes */
    CIMBROLAU_CPU_A20, /* this and the next three only with the extension */
    CIMBROLAU_CPU_IRQ13,
    CIMBROLAU_CPU_BIOS_INT_VALID,
    CIMBROLAU_CPU_BIOS_INT
};

enum cimbrolau_mmu_field_number {
    CIMBROLAU_MMU_CR, /* 5: CR0 CR2 CR3 CR4 CR8 */
    CIMBROLAU_MMU_DR, /* 8 */
    CIMBROLAU_MMU_MSR, /* 13: EFER STAR LSTAR CSTAR SFMASK SYSENTER_CS _EIP _ESP FS_BASE GS_BASE KERNEL_GS_BASE APIC_BASE TSC */
    CIMBROLAU_MMU_GDTR_BASE,
    CIMBROLAU_MMU_GDTR_LIMIT,
    CIMBROLAU_MMU_IDTR_BASE,
    CIMBROLAU_MMU_IDTR_LIMIT,
    CIMBROLAU_MMU_SELECTOR, /* 2, as the next three: LDTR TR */
    CIMBROLAU_MMU_BASE,
    CIMBROLAU_MMU_LIMIT,
    CIMBROLAU_MMU_ACCESS
};

/* The bytes of a field into `out`; CIMBROLAU_VALUE at the first value of the state outside its range. */
struct cimbrolau_answer cimbrolau_cpu_field(const uint8_t *state, size_t state_length, uint32_t field, uint32_t index, uint8_t *out, size_t out_length);
struct cimbrolau_answer cimbrolau_mmu_field(const uint8_t *state, size_t state_length, uint32_t field, uint32_t index, uint8_t *out, size_t out_length);

/*
 * A field set to the value, in place; no other byte changes. A value that is not as wide as its field is CIMBROLAU_VALUE at the field. Then the state as it
 * would be is asked: CIMBROLAU_VALUE at its first value outside its range. A refused call changes nothing.
 */
struct cimbrolau_answer cimbrolau_cpu_set(uint8_t *state, size_t state_length, uint32_t field, uint32_t index, const uint8_t *value, size_t value_length);
struct cimbrolau_answer cimbrolau_mmu_set(uint8_t *state, size_t state_length, uint32_t field, uint32_t index, const uint8_t *value, size_t value_length);

/* The access word of a segment in its parts: bits 0 to 3, 5 and 6, 7, 13, 14, 15, 16, and all others where they stand. */
struct cimbrolau_access {
    uint32_t type, level, present, long_mode, size, granularity, unusable, rest;
};

struct cimbrolau_access cimbrolau_access(uint32_t word);

/* ---- the layout of the records, which a compiler that lays them out otherwise refuses here */

#if defined(__BYTE_ORDER__) && __BYTE_ORDER__ != __ORDER_LITTLE_ENDIAN__
#error "the records of tables have their low bytes first"
#endif

#define CIMBROLAU_LAYOUT_OF(size, record, member, place) \
    typedef char cimbrolau_layout_##record##_##member[offsetof(struct cimbrolau_##record, member) == (place) && sizeof(struct cimbrolau_##record) == (size) ? 1 : -1]
#define CIMBROLAU_LAYOUT(record, member, place) CIMBROLAU_LAYOUT_OF(32, record, member, place)

CIMBROLAU_LAYOUT(section, version, 4);
CIMBROLAU_LAYOUT(section, flags, 6);
CIMBROLAU_LAYOUT(section, offset, 8);
CIMBROLAU_LAYOUT(section, length, 16);
CIMBROLAU_LAYOUT(section, position, 24);
CIMBROLAU_LAYOUT(device, version, 4);
CIMBROLAU_LAYOUT(device, flags, 6);
CIMBROLAU_LAYOUT(device, offset, 8);
CIMBROLAU_LAYOUT(device, length, 16);
CIMBROLAU_LAYOUT(device, position, 24);
CIMBROLAU_LAYOUT(disk, base_length, 4);
CIMBROLAU_LAYOUT(disk, base_offset, 8);
CIMBROLAU_LAYOUT(disk, overlay_length, 16);
CIMBROLAU_LAYOUT(disk, position, 24);
CIMBROLAU_LAYOUT(cpu, state_length, 4);
CIMBROLAU_LAYOUT(cpu, state_offset, 8);
CIMBROLAU_LAYOUT(cpu, blob_length, 16);
CIMBROLAU_LAYOUT(cpu, position, 24);
CIMBROLAU_LAYOUT(mmu, state_length, 4);
CIMBROLAU_LAYOUT(mmu, state_offset, 8);
CIMBROLAU_LAYOUT(mmu, zero, 16);
CIMBROLAU_LAYOUT(mmu, position, 24);
CIMBROLAU_LAYOUT(controller, tag, 4);
CIMBROLAU_LAYOUT(controller, offset, 8);
CIMBROLAU_LAYOUT(controller, length, 16);
CIMBROLAU_LAYOUT(controller, position, 24);
CIMBROLAU_LAYOUT(card, sections, 8);
CIMBROLAU_LAYOUT(card, devices, 16);
CIMBROLAU_LAYOUT(card, payloads, 24);
CIMBROLAU_LAYOUT_OF(48, edited, index, 4);
CIMBROLAU_LAYOUT_OF(48, edited, place, 8);
CIMBROLAU_LAYOUT_OF(48, edited, card, 16);

#undef CIMBROLAU_LAYOUT
#undef CIMBROLAU_LAYOUT_OF

typedef char cimbrolau_layout_new_device[offsetof(struct cimbrolau_new_device, version) == 4 && offsetof(struct cimbrolau_new_device, flags) == 6 && offsetof(struct cimbrolau_new_device, place) == 8 && offsetof(struct cimbrolau_new_device, length) == 16 && sizeof(struct cimbrolau_new_device) == 24 ? 1 : -1];

typedef char cimbrolau_layout_loss[offsetof(struct cimbrolau_loss, bytes) == 8 && offsetof(struct cimbrolau_loss, number) == 16 && sizeof(struct cimbrolau_loss) == 24 ? 1 : -1];

#ifdef __cplusplus
}
#endif

#endif
