/*
 * Immuskade for a host in C or C++: dynamic virtual channels of [MS-RDPEDYC], client end and shore end, uncompressed; the
 * cutter; strict reading for firewalls; listener names in UTF-8, for log viewers; the link log on a panel's flash.
 *
 * Link target/staticlib/libimmuskade.a, which `host/archive` makes and `host/install PREFIX` puts under a prefix. It needs no
 * library but C's own.
 *
 * A panel calls dvc_start, then dvc_receive for each PDU from the server, and dvc_local_close to close a channel. A shore desk
 * calls dvc_shore_start, dvc_shore_request once, dvc_shore_receive for each PDU from the client, dvc_shore_open and
 * dvc_shore_local_close. Both send with dvc_cut. dvc_totals and dvc_count read a state of either end. A panel that logs its link
 * calls dvc_log_take_up, then dvc_log_append and dvc_log_close for what it receives and closes.
 *
 * THE BUFFERS are the host's, and the library keeps nothing of its own between calls:
 *
 *   state   DVC_STATE bytes, which Start makes and every call of that end takes and leaves. They may be copied, and kept in a
 *           file; nothing in them is a pointer. Only the calls of this header make sense of them
 *   store   DVC_STORE bytes, a part of DVC_PART for each of sixteen channels: where messages are joined and handed up from
 *   reply   DVC_REPLY_MIN bytes or more, for what is sent in answer
 *   out     DVC_PDU_MAX bytes or more, for a PDU that the host has written
 *   room    DVC_LOG_ROOM bytes or more, for the link log's blocks, or for its records
 *
 * Any bytes of any length are lawful in each of them, for every call: what can't be worked with is refused. Bytes that are no
 * state of the end called (zeroed bytes, bytes of another length, a state of the other end), and a state whose table is unsound
 * (a number in two channels, totals that a recount doesn't come to, and the like), are refusal 1, DVC_BAD_CALL; so is a store,
 * reply, out or room that is not of its size. Then not a byte of any buffer is written.
 *
 * WHAT C CAN'T SAY, and the host must see to: no pointer is null, even where its length is 0; behind each pointer stand as many
 * bytes as the length says; the buffers that a call is lent don't overlap; and nobody else touches them during the call.
 *
 * THREADS: any call may be made from any thread, and calls on buffers of their own at the same time. A state, and the store
 * that belongs to it, is used by one call at a time.
 */
#ifndef IMMUSKADE_H
#define IMMUSKADE_H

#include <stddef.h>
#include <stdint.h>

#ifdef __cplusplus
extern "C" {
#endif

/* ---- sizes */

/* The bytes of a state, and of a store. */
#define DVC_STATE 204
#define DVC_STORE 65536

/* The bytes of a channel's part of the store. */
#define DVC_PART 4096

/* The fewest bytes that a reply has. */
#define DVC_REPLY_MIN 9

/* The most bytes that a PDU has, and the fewest that the buffer for one has. */
#define DVC_PDU_MAX 1600

/* The most bytes that a message has. */
#define DVC_MESSAGE_MAX 4096

/* The most bytes that a listener list has. */
#define DVC_LIST_MAX 512

/* The link log: the bytes of a block, the fewest of the room, and the most blocks that a log has. */
#define DVC_LOG_BLOCK 512
#define DVC_LOG_ROOM 2560
#define DVC_LOG_BLOCKS_MAX 65536

/* ---- answers
 *
 * The calls of both ends, dvc_totals and dvc_count answer one number of 64 bits:
 *
 *   bits 0 to 31    the channel's number; what is counted, with DVC_COUNTED; else 0
 *   bits 32 to 44   the answer's number, as each word below says
 *   bits 45 to 48   with DVC_MESSAGE the part of the store that has the message's bytes; else 0
 *   bits 49 to 59   how many bytes to send, from the front of reply or out; 0 for none
 *   bits 60 to 63   the word. Bit 63 is set where there is a channel; a refusal is 7 without one and 15 with one
 *
 * No answer is 0. The functions below take an answer apart. dvc_cut, dvc_strict and the two Starts answer 32 bits of their own:
 * theirs are dvc_refused, dvc_pdu_len and dvc_next_offset further down, and no function of one kind is for an answer of
 * the other. dvc_name_to_utf8 and dvc_name_from_utf8 answer a length, or less than 0; the link log's calls a log's number or a
 * reading's, or less than 0.
 */

/* The words, with what dvc_number gives. */
#define DVC_ASKED 1     /* the shore's request is written: the version. Send */
#define DVC_READY 2     /* the two ends agree: the level, 1 or 2. The client sends */
#define DVC_COUNTED 3   /* dvc_totals: the open channels; dvc_count: 0 */
#define DVC_REFUSED 7   /* the refusal, from 1 to 16 of the list below. Nothing is sent */
#define DVC_AWAITED 8   /* the shore opens a channel, and the Create request is written: 0. Send */
#define DVC_OPENED 9    /* the channel is open: 0. The client sends */
#define DVC_DECLINED 10 /* the channel isn't opened: at the client DVC_UNLISTED or DVC_FULL, and it sends; at the shore 0 */
#define DVC_HELD 11     /* bytes of a message are held: how many are still to come */
#define DVC_MESSAGE 12  /* a message is handed up: how many bytes it has, 0 to 4,096 */
#define DVC_CLOSED 13   /* the channel is closed: 0. Sends, but not the shore for a Close that it received */
#define DVC_IGNORED 14  /* a Close for a channel that isn't open: 0 */

/* Why the client declines a channel. */
#define DVC_UNLISTED 1 /* no name of the list is the channel's */
#define DVC_FULL 2     /* sixteen channels are open */

/* The word. Every refusal is DVC_REFUSED, with a channel or without. */
static inline unsigned dvc_word(uint64_t answer)
{
    return answer >> 60 == 15 ? DVC_REFUSED : (unsigned)(answer >> 60);
}

/* Whether an answer of 64 bits is a refusal; dvc_number has its number. (Of dvc_cut's answer dvc_refused says it.) */
static inline int dvc_is_refused(uint64_t answer)
{
    return dvc_word(answer) == DVC_REFUSED;
}

/* Whether the answer concerns a channel. */
static inline int dvc_has_channel(uint64_t answer)
{
    return (int)(answer >> 63);
}

/* The channel's number, where there is one. */
static inline uint32_t dvc_channel(uint64_t answer)
{
    return (uint32_t)(answer & 0xFFFFFFFFu);
}

/* The answer's number: see the words. */
static inline uint32_t dvc_number(uint64_t answer)
{
    return (uint32_t)(answer >> 32 & 0x1FFF);
}

/* How many bytes to send, from the front of the reply or out that the call was lent. */
static inline size_t dvc_sent(uint64_t answer)
{
    return (size_t)(answer >> 49 & 0x7FF);
}

/* With DVC_MESSAGE: where the message's bytes stand in the store. They stay until the next call that is lent the store. */
static inline const uint8_t *dvc_message(uint64_t answer, const uint8_t *store)
{
    return store + DVC_PART * (size_t)(answer >> 45 & 15);
}

/* With DVC_MESSAGE: how many bytes the message has. */
static inline size_t dvc_message_len(uint64_t answer)
{
    return dvc_number(answer);
}

/* With DVC_COUNTED of dvc_totals: how many channels are open, and how many bytes are still to come over all that are joining. */
static inline uint32_t dvc_open_channels(uint64_t answer)
{
    return dvc_number(answer);
}

static inline uint32_t dvc_awaited_bytes(uint64_t answer)
{
    return dvc_channel(answer);
}

/* With DVC_COUNTED of dvc_count: the messages handed up since the channel was opened. At 4,294,967,295 it stays. */
static inline uint32_t dvc_messages(uint64_t answer)
{
    return dvc_channel(answer);
}

/* ---- refusals, by the paper's numbers
 *
 * Each call says which it gives, in their order: of two that hold the first is given. A refusal writes nothing to the store,
 * to the reply or to out, and nothing to the state, but that some spoil the one open channel that the PDU names: 10, 11 and 12;
 * and 2 to 5 for a block of data (Cmd 2, 3, 6 or 7) that has its channel's number whole, though their answer has no channel. In
 * the state the channel's stage is changed then and, where it was joining, the total of bytes to come. What follows on a spoiled
 * channel is refused with 13 until it is closed.
 */
#define DVC_BAD_CALL 1       /* a buffer is not of its size, the state is none of this end, or its table is unsound */
#define DVC_CUT_SHORT 2      /* the PDU is empty, or ends inside a field or before the name's zero */
#define DVC_TOO_LONG 3       /* the PDU is longer than 1,600 */
#define DVC_NO_COMMAND 4     /* Cmd is not 1 to 5 */
#define DVC_BAD_FIELD 5      /* a width code, cbId, Pad or Version that may not be, or bytes behind the last field. On writing: a
                                name with a zero byte, such a Version, a class over 3, or charges other than 0 with version 1 */
#define DVC_BAD_LIST 6       /* a Create request, and the listener list is outside its rule */
#define DVC_WRONG_TIME 7     /* a Capabilities PDU or request that is not due, or anything else before the two ends are ready */
#define DVC_NOT_OPEN 8       /* data, a local close or a count for a number that isn't open */
#define DVC_ALREADY_OPEN 9   /* a Create request for a number that is open */
#define DVC_STILL_JOINING 10 /* a Data First while a message is being joined */
#define DVC_OVER_LIMIT 11    /* a Data First of more than 4,096 bytes. On cutting: such a message. On writing: a PDU over 1,600 */
#define DVC_PAST_LENGTH 12   /* a block that is longer than what is still to come */
#define DVC_IS_SPOILED 13    /* data for a spoiled channel */
#define DVC_NO_START 14      /* cutting: no block of the message starts at offset */
#define DVC_ALL_TAKEN 15     /* a local open, and sixteen numbers are open or awaited */
#define DVC_NOT_AWAITED 16   /* a Create response for a number that isn't awaited */
#define DVC_LOOSE 18         /* strict reading: a number or Length in a wider width than it needs, or ignored bits that are not 0 */
#define DVC_NO_PARTNER 19    /* names: a byte that has no code point, a code point that has no byte, or UTF-8 that isn't well formed */
#define DVC_NO_ROOM 20       /* names: the result is longer than the buffer that was lent */
#define DVC_LOG_FULL 21      /* the link log: the record doesn't fit in 65,536 blocks */

/* What dvc_cut calls 1: out_len is below 1,600. */
#define DVC_WRONG_SIZE DVC_BAD_CALL

/* ---- the client end: a panel */

/*
 * Start, once for each connection: zeroes the store and makes an empty table of the state, whatever both had before.
 *
 * The answer is 0, or 1 where state_len is not DVC_STATE or store_len not DVC_STORE; then nothing is written.
 */
uint32_t dvc_start(uint8_t *state, size_t state_len, uint8_t *store, size_t store_len);

/*
 * Takes one PDU from the server.
 *
 *   state, store         as Start made them and the calls since left them
 *   list, list_len       the names that the host listens for, each ended by one zero byte: "PUMP\0LAMP\0". At most DVC_LIST_MAX
 *                        bytes; none is a list too, of no name. It is looked at for a Create request alone
 *   pdu, pdu_len         the PDU, any bytes of any length
 *   reply, reply_len     for what is to be sent in answer: its first dvc_sent(answer) bytes. The bytes behind them stay
 *
 * Answers: DVC_READY, DVC_OPENED, DVC_DECLINED, DVC_HELD, DVC_MESSAGE, DVC_CLOSED, DVC_IGNORED; DVC_REFUSED with 1; 2 to 5, the
 * first from left to right in the PDU; 7; for a Create request 6, 9; for data 8, 13, 10, 11, 12. A refusal from 8 on has a channel.
 */
uint64_t dvc_receive(uint8_t *state, size_t state_len, uint8_t *store, size_t store_len, const uint8_t *list, size_t list_len,
                     const uint8_t *pdu, size_t pdu_len, uint8_t *reply, size_t reply_len);

/*
 * Closes a channel from this side. The reply is a Close; the bytes held are gone, and the number can be opened again.
 *
 * Answers: DVC_CLOSED; DVC_REFUSED with 1; 7, with no channel; 8.
 */
uint64_t dvc_local_close(uint8_t *state, size_t state_len, uint8_t *store, size_t store_len, uint32_t number, uint8_t *reply,
                         size_t reply_len);

/* ---- the shore end: a desk */

/* Start, as dvc_start is for the client. A state of one end is refused by the other's calls. */
uint32_t dvc_shore_start(uint8_t *state, size_t state_len, uint8_t *store, size_t store_len);

/*
 * Writes the Capabilities request, once after each Start.
 *
 *   version              1 to 3
 *   charge0 to charge3   the priority charges, which version 1 doesn't send: all 0 then
 *   out, out_len         for the request: its first dvc_sent(answer) bytes. The bytes behind them stay
 *
 * Answers: DVC_ASKED; DVC_REFUSED with 1, 7 for a second request, 5; none has a channel.
 */
uint64_t dvc_shore_request(uint8_t *state, size_t state_len, uint16_t version, uint16_t charge0, uint16_t charge1, uint16_t charge2,
                           uint16_t charge3, uint8_t *out, size_t out_len);

/*
 * Takes one PDU from the client. Nothing is sent in answer to one, and the reply is never written; it is lent as at the client end.
 *
 * Answers: DVC_READY, DVC_OPENED, DVC_DECLINED, DVC_HELD, DVC_MESSAGE, DVC_CLOSED, DVC_IGNORED; DVC_REFUSED with 1; 2 to 5, the
 * first from left to right in the PDU; 7; for a Create response 16; for data 8, 13, 10, 11, 12. A refusal from 8 on has a channel.
 */
uint64_t dvc_shore_receive(uint8_t *state, size_t state_len, uint8_t *store, size_t store_len, const uint8_t *pdu, size_t pdu_len,
                           uint8_t *reply, size_t reply_len);

/*
 * Opens a channel by its listener's name: writes the Create request, on the smallest number from 1 up that is neither open nor
 * awaited. The client's response then opens it (DVC_OPENED) or not (DVC_DECLINED).
 *
 *   name, name_len   the name, with no zero byte in it and none behind it
 *   priority         the class, 0 to 3; at level 1 it is sent and kept as 0, whatever it is
 *   out, out_len     for the request: its first dvc_sent(answer) bytes. The bytes behind them stay
 *
 * Answers: DVC_AWAITED with the number as its channel; DVC_REFUSED with 1, 7, 15, 5, 11; none has a channel.
 */
uint64_t dvc_shore_open(uint8_t *state, size_t state_len, const uint8_t *name, size_t name_len, uint8_t priority, uint8_t *out,
                        size_t out_len);

/*
 * Closes a channel from this side. The reply is a Close. The client's own Close, with which it answers, is then DVC_IGNORED.
 *
 * Answers: DVC_CLOSED; DVC_REFUSED with 1; 7, with no channel; 8, also for a number that is awaited only.
 */
uint64_t dvc_shore_local_close(uint8_t *state, size_t state_len, uint8_t *store, size_t store_len, uint32_t number, uint8_t *reply,
                               size_t reply_len);

/* ---- what a state tells, of either end. Neither writes. */

/*
 * The totals, for a status lamp: dvc_open_channels and dvc_awaited_bytes. They stand in the state, so that nothing is counted
 * and the channels are not gone through: a state whose table is unsound, but not in its last twelve bytes, is answered too.
 *
 * Answers: DVC_COUNTED; DVC_REFUSED with 1.
 */
uint64_t dvc_totals(const uint8_t *state, size_t state_len);

/*
 * How many messages a channel has brought since it was opened: dvc_messages.
 *
 * Answers: DVC_COUNTED; DVC_REFUSED with 1; 8, also for a number that is awaited only.
 */
uint64_t dvc_count(const uint8_t *state, size_t state_len, uint32_t number);

/* ---- the cutter, for both ends */

/*
 * Writes the PDU of the block that starts at an offset of a message.
 *
 *   number                the channel's number, any
 *   message, message_len  the message. Only its bytes are read
 *   offset                0 at first; then the next offset that the call before answered
 *   out, out_len          the buffer for the PDU, apart from the message
 *
 * The answer is the PDU's length times 65,536 and the next offset added, or a refusal's number: 1, 11 or 14. The three functions
 * below take it apart, and no other answer. The PDU stands at the front of `out` and the bytes behind it stay; a refusal leaves
 * all of `out`. The message is cut when the next offset is its length. An empty message is one PDU too, at offset 0, and the next
 * offset is 0.
 *
 * A message of at most 1,590 bytes is one Data. A longer one begins with a Data First, and one that fits into it whole, of 1,591 to
 * 1,596 bytes at a number of one byte, is that Data First alone. This is what the protocol asks; the server side of FreeRDP
 * 2.11 is known to lose such a message and the one after it.
 */
uint32_t dvc_cut(uint32_t number, const uint8_t *message, size_t message_len, size_t offset, uint8_t *out, size_t out_len);

/* Whether dvc_cut's answer is a refusal's number. (Of an answer of 64 bits dvc_is_refused says it.) */
static inline int dvc_refused(uint32_t answer)
{
    return answer < 65536;
}

/* The PDU's length. */
static inline size_t dvc_pdu_len(uint32_t answer)
{
    return answer / 65536;
}

/* The next offset: the message's length after its last block. */
static inline size_t dvc_next_offset(uint32_t answer)
{
    return answer % 65536;
}

/* ---- strict reading, for a firewall */

/* The answer for a PDU that strict reading accepts. */
#define DVC_ACCEPTED 0

/*
 * Whether a PDU is the one byte string of its meaning.
 *
 *   pdu, pdu_len  the PDU, any bytes of any length
 *   from_server   0 for a PDU from the client, anything else for one from the server
 *
 * The answer is DVC_ACCEPTED, or a refusal's number: 2 to 5, the first that holds from left to right, and 18 last. A PDU that it
 * accepts is read by the manager too, with the same values, and no other bytes that it accepts in that direction have these values.
 */
uint32_t dvc_strict(const uint8_t *pdu, size_t pdu_len, uint32_t from_server);

/* ---- listener names, for a log viewer */

/*
 * A listener's name, which is Windows-1252 as the channels take it, in UTF-8; and a text of UTF-8 as such a name. What either call
 * writes the other makes into what it was.
 *
 *   name, name_len   any bytes of any length. A zero byte is converted as any other
 *   text, text_len   likewise
 *   out, out_len     for the result. A name's UTF-8 has at most three bytes for each of its own, and a text's name at most as many as
 *                    the text
 *
 * The answer is how many bytes of out are the result's, from its front; the bytes behind them stay. An answer below 0 is a refusal,
 * minus its number: -19, looked for in all of the input first, or -20. Then every byte of out stays.
 *
 *   19   a byte 81, 8D, 8F, 90 or 9D (hexadecimal) of a name; of a text, UTF-8 that isn't well formed (an overlong form, a surrogate,
 *        a byte that stands alone, an end cut off, anything over 10FFFF), or a code point that has no byte
 *   20   out is shorter than the result
 */
int64_t dvc_name_to_utf8(const uint8_t *name, size_t name_len, uint8_t *out, size_t out_len);
int64_t dvc_name_from_utf8(const uint8_t *text, size_t text_len, uint8_t *out, size_t out_len);

/* ---- the link log, on a panel's flash
 *
 * A log has a record for each PDU received and each local close. It is a file of blocks of DVC_LOG_BLOCK bytes, at most
 * DVC_LOG_BLOCKS_MAX: two bytes each for the block's number from 0, how many bytes of the payload are used, where in it the first
 * record begins (65,535: none does) and the check of RFC 1071; then 504 bytes of payload, unused ones zero. Records run on over the
 * ends of blocks, and only the last block may be partly used. A block that breaks this is bad, and takes with it the records that
 * touch it, and no others.
 *
 * The library makes blocks and reads them, and the file is the host's. What is kept between two calls is one number, and the room.
 * A refusal is minus its number, and writes nothing: -1, or behind it, from the two appends, -21.
 *
 * THE LOG'S NUMBER is 0 for an empty log. Else it is 8 times the log's blocks, and added to that how many of them stand at the
 * room's front, the last ones in rising order: those are to be put to the file.
 */
#define DVC_LOG_BLOCKS(log) ((uint32_t)((uint64_t)(log) >> 3))
#define DVC_LOG_PUT(log) ((uint32_t)((uint64_t)(log) & 7))

/*
 * Appends a PDU that was received; or the local close of a number.
 *
 *   log              the log's number
 *   room, room_len   as the call before left them: the last block stands in them, behind DVC_LOG_PUT(log) - 1 others
 *   pdu, pdu_len     the PDU, any bytes of any length. Of a longer one the first 1,601 bytes are logged
 *   number           the channel's number, any
 *
 * The answer is the log's next number. The bytes of the room behind its blocks stay. The host puts the blocks in rising order, and
 * only then appends again:
 *
 *     int64_t next = dvc_log_append(log, room, sizeof room, pdu, pdu_len);
 *     if (next < 0)
 *         return next;
 *     log = (uint64_t)next;
 *     for (uint32_t k = 0; k < DVC_LOG_PUT(log); k++)
 *         put_block(DVC_LOG_BLOCKS(log) - DVC_LOG_PUT(log) + k, room + DVC_LOG_BLOCK * k);
 *
 * -1: log is 8 * 65,537 or more, as an answer below 0 is when it is handed back; room_len is below DVC_LOG_ROOM; or, where the log
 * isn't empty, DVC_LOG_PUT(log) is not 1 to 5, or the last block's number is not DVC_LOG_BLOCKS(log) - 1, or more than 504 of its
 * bytes are said to be used. -21: the record doesn't fit in DVC_LOG_BLOCKS_MAX blocks.
 */
int64_t dvc_log_append(uint64_t log, uint8_t *room, size_t room_len, const uint8_t *pdu, size_t pdu_len);
int64_t dvc_log_close(uint64_t log, uint8_t *room, size_t room_len, uint32_t number);

/*
 * Takes a log up again after a stop between two appends, from its last block: the log's number, with that block at the room's front.
 *
 *   blocks       how many blocks the log has
 *   block, len   the last one. With no blocks it isn't looked at, and the answer is 0
 *
 *     if (blocks > 0)
 *         get_block(blocks - 1, room);
 *     int64_t next = dvc_log_take_up(blocks, room, DVC_LOG_BLOCK);
 *     if (next < 0)
 *         return next;
 *     log = (uint64_t)next;
 *
 * -1: it isn't a good last block of a log of so many. Then, as after a loss of power, the log is read and taken back.
 */
int64_t dvc_log_take_up(uint32_t blocks, const uint8_t *block, size_t len);

/*
 * Reads one block.
 *
 *   read             0 before the first block; then what the call before answered
 *   number, blocks   the block's number, and how many blocks the log has
 *   block, len       the block. One of another length than DVC_LOG_BLOCK, or of another number, is a bad block
 *   room, room_len   for the records. Between two calls they stay as they are
 *
 * The answer is what reading has come to:
 *
 *   DVC_LOG_WHOLE        bits 0 to 11: how many bytes of whole records stand at the room's front, one behind the other. A record is two
 *                        bytes of length and the PDU, or a close: length 65,535 and the number in four bytes
 *   DVC_LOG_BEHIND       bits 12 to 22: how many bytes stand right behind them, of a record that isn't whole: the next call takes them.
 *                        Where DVC_LOG_WITHIN is 0 they stood behind a length that no record has, and are of no use
 *   DVC_LOG_WITHIN       bit 23: 1 inside a record or where one begins, 0 where a block is looked for in which one begins
 *   DVC_LOG_END_BLOCKS   bits 24 to 40: how many blocks to keep, so that the last of them holds the end of the last whole record so far;
 *                        0 where there was none
 *   DVC_LOG_END_USED     bits 41 to 49: how many bytes of that block's payload to keep
 *
 * What stands at the room's front are the bytes gone through: what was behind and then the payload, or the payload from its first
 * record on. The bytes behind them stay. After a bad block, or where no record begins in a good one and one is looked for, all is 0
 * but the end, which is as before, and the room stays.
 *
 *     for (uint32_t n = 0; n < blocks; n++) {
 *         get_block(n, block);
 *         int64_t next = dvc_log_read(read, n, blocks, block, sizeof block, room, sizeof room);
 *         if (next < 0)
 *             return next;
 *         read = (uint64_t)next;
 *         take_records(room, DVC_LOG_WHOLE(read));
 *     }
 *
 * -1: read is 2^50 or more; room_len is below DVC_LOG_ROOM; whole and behind together are over 2,560; or behind is over 1,602.
 */
int64_t dvc_log_read(uint64_t read, uint32_t number, uint32_t blocks, const uint8_t *block, size_t len, uint8_t *room,
                     size_t room_len);

#define DVC_LOG_WHOLE(read) ((size_t)((uint64_t)(read) & 0xFFF))
#define DVC_LOG_BEHIND(read) ((size_t)((uint64_t)(read) >> 12 & 0x7FF))
#define DVC_LOG_WITHIN(read) ((int)((uint64_t)(read) >> 23 & 1))
#define DVC_LOG_END_BLOCKS(read) ((uint32_t)((uint64_t)(read) >> 24 & 0x1FFFF))
#define DVC_LOG_END_USED(read) ((uint32_t)((uint64_t)(read) >> 41 & 0x1FF))

/*
 * Takes a log back to the end of its last whole record, after a loss of power inside an append: the log's number, with its last
 * block at the room's front.
 *
 *   read             what reading the whole log came to
 *   room, room_len   at its front the block DVC_LOG_END_BLOCKS(read) - 1, as it was read. DVC_LOG_END_USED(read) bytes of its payload
 *                    are kept, and it is made anew. The bytes behind it stay
 *
 * Where no whole record was read the log is empty: the answer is 0, and the room isn't looked at. The host's order, in which power
 * may be lost again between any two steps:
 *
 *     uint32_t blocks = DVC_LOG_END_BLOCKS(read);
 *     keep_blocks(blocks);
 *     if (blocks > 0)
 *         get_block(blocks - 1, room);
 *     int64_t next = dvc_log_take_back(read, room, sizeof room);
 *     if (next < 0)
 *         return next;
 *     log = (uint64_t)next;
 *     if (blocks > 0)
 *         put_block(blocks - 1, room);
 *
 * -1: read is 2^50 or more; room_len is below DVC_LOG_ROOM; or the block at the room's front has another number, or says that more
 * than 504 of its bytes are used, or less than are to be kept.
 */
int64_t dvc_log_take_back(uint64_t read, uint8_t *room, size_t room_len);

#ifdef __cplusplus
}
#endif

#endif
