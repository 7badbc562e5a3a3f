/* The SEL library for C and C++: records and answers of the System Event Log, decoded or refused, never guessed.
 *
 * Each function is proved to keep the promise in its comment, for all arguments. A slice is a pointer and its number of elements. A caller can
 * do nothing wrong but lend a bad pointer: the elements must be there, aligned, and for a slice that is written they may not lie in another slice
 * of the same call. The pointer of an empty slice may be NULL (this is tested, not proved). Nothing lent is kept, nothing outside it is read or written, nothing is
 * allocated, and every call ends. The statements: crates/abi has each contract, crates/claims what is said here beyond them.
 *
 * Numbers handed back (docs/SCOPE.md): 0 accepted, 1 too short, 2 unknown record type, 3 invalid channel, 4 no room,
 * 5 bad capture, 7 no such record, 8 too long, 9 a reservation of 0, 10 wrong index, 11 no such version, 13 no bytes at
 * once, 14 no reservation, 15 next ids differ, 16 no such part of a record, or an answer after the last; 255 no such
 * letter, command or number, or not the bytes of one. Of sel_record_to_event, 2 is any type but that of a system record.
 * Where the number is not 0, every lent slice is as it was. Where it is 0, what stands behind the bytes written is as it
 * was. */
#ifndef SEL_H
#define SEL_H

#include <stddef.h>
#include <stdint.h>

#ifdef __cplusplus
extern "C" {
#endif

/* number: as above.
 * value:  what it carries: the bytes written where the number is 0, or of sel_channel and sel_unit the number asked, and of
 *         sel_index_make and sel_index_add the places written; the bytes that the answer, record or message needs where
 *         it is 1, the record type where it is 2, the channel where it is 3, the room needed where it is 4; else 0. */
typedef struct SelAnswer {
    uint32_t number;
    size_t value;
} SelAnswer;

/* The most bytes that sel_entry, sel_get_entry, sel_entry_of, sel_get_entry_of and sel_allocation write, and sel_decode where it writes no text. */
#define SEL_FLAT 24

/* A record of the log, 16 bytes or more; those behind the sixteenth are not looked at. Writes, numbers in little-endian order:
 *   a system event (type 02h), 22 bytes: 00, id (2), time (4), 00 for an address or 01 for a software id, that, channel, unit (00 for a software
 *     id), revision 00 for 2.0, 01 for 1.0, 02 for another, the revision's byte, sensor type, sensor number, 00 assert or 01 deassert, event
 *     type, offset, then kind and value of event data bytes 2 and 3, both 00 where unspecified (also where the value is FFh);
 *   OEM with a time (C0h to DFh), 18 bytes: 01, id (2), type, time (4), maker (4), six bytes;
 *   OEM without (E0h to FFh), 17 bytes: 02, id (2), type, thirteen bytes.
 * 1 with 16 under 16 bytes; 2 with the type for any other type; 3 with the channel for a system event on channel Ch or Dh; then 4. */
SelAnswer sel_entry(const uint8_t *data, size_t data_length, uint8_t *out, size_t out_length);

/* The most bytes that sel_keep writes. */
#define SEL_KEPT 5

/* What an entry keeps of its record beside what sel_entry tells: the bytes of which some bits are no field's. Writes, of a
 * system event, bytes 7, 8, 13, 14 and 15 of the record as they stand, SEL_KEPT (5) bytes: the generator's two, and event
 * data; of an OEM record, all of which sel_entry tells, none. Refused as sel_entry refuses the record: 1, 2, 3; then 4
 * with 5. */
SelAnswer sel_keep(const uint8_t *data, size_t data_length, uint8_t *out, size_t out_length);

/* The record of an entry, which is given by the flat bytes that sel_entry writes of a record and the kept bytes that
 * sel_keep writes of it. Writes the record's 16 bytes: of what both wrote of one record, its first sixteen, as they were.
 * sel_entry and sel_keep give the same flat and kept bytes of them again.
 * 7 exactly if there is no record of which sel_entry gives these flat bytes and sel_keep these kept bytes; then 4 with
 * 16. So 7 is told wherever sel_write_entry tells it, of any number of kept bytes but five with a system event and none
 * with an OEM record, and where they disagree: bit 0 of the first kept byte with the generator (0 for an address, 1 for
 * a software id), its bits 7 to 1 with the address or software id, bits 7 to 4 of the second with the channel and, of an
 * address, its bits 1 to 0 with the unit; bits 3 to 0 of the third with the offset, and with event data bytes 2 and 3
 * its bits 7 to 6 and the fourth, and its bits 5 to 4 and the fifth (kind and value, or kind 0 where the bits are 00 or
 * the kept value is FFh). */
SelAnswer sel_write_kept(const uint8_t *kept, size_t kept_length, const uint8_t *flat, size_t flat_length, uint8_t *out,
                         size_t out_length);

/* A record made from fields: the flat bytes that sel_entry writes of an entry. Writes the record's 16 bytes, which
 * sel_entry decodes to these flat bytes again. Those of an OEM record are the very ones that it was decoded from.
 * Those of a system event have 0 in each bit that no field holds (bits 3 to 2 of byte 8, and 1 to 0 behind a software
 * id), and event data that is unspecified as kind 00 and value FFh, whatever they were decoded from: sel_write_kept is
 * for a record that is to come back as it was.
 * 7 exactly if sel_entry decodes no record to these flat bytes; then 4 with 16. So 7 is told of a first byte over 02,
 * of another number of bytes than the first byte has (22 for 00, 18 for 01, 17 for 02), and
 *   of a system event: a generator or a direction over 01; an address or a software id over 127; channel Ch, Dh or
 *     over Fh; a unit over 3, or over 0 with a software id; a revision over 02, or with a byte that is not its own (04h
 *     for 00, 03h for 01, any but these two for 02); an event type over 127; an offset over 15; of event data a kind
 *     over 3, a value of FFh, or one over 00 with kind 0;
 *   of an OEM record: a type that is not of its kind (C0h to DFh for 01, E0h to FFh for 02); a maker over FFFFFFh. */
SelAnswer sel_write_entry(const uint8_t *flat, size_t flat_length, uint8_t *out, size_t out_length);

/* The bytes of a Platform Event Message. */
#define SEL_MESSAGE 7

/* A record made from a Platform Event Message as it is sent over IPMB. Its SEL_MESSAGE (7) bytes are the event message
 * revision, sensor type, sensor number, direction (bit 7) with event type (bits 6 to 0), and three bytes of event data.
 * What a message does not have is given beside it: the record id, the time, and bytes 7 and 8 of the record, the
 * generator, with the channel in bits 7 to 4 of generator2. Writes the record's 16 bytes, numbers in little-endian order:
 * id (2), 02h, time (4), generator (2), and the message as it came. sel_entry accepts the record; its fields are those of
 * the message, and what was given beside it. sel_record_to_event gives the seven bytes back, whatever they are.
 * 1 with 7 under 7 bytes, also for the forms of five and six bytes that the standard allows; then 8 over 7 bytes; then 3
 * with the channel for Ch or Dh; then 4 with 16. */
SelAnswer sel_event_to_record(uint16_t record_id, uint32_t time, uint8_t generator1, uint8_t generator2,
                              const uint8_t *message, size_t message_length, uint8_t *out, size_t out_length);

/* The Platform Event Message of a system record of 16 bytes or more; those behind the sixteenth are not looked at. Writes
 * SEL_MESSAGE (7) bytes: bytes 9 to 15 of the record as they stand, whatever its channel. Of them sel_event_to_record
 * makes the record's sixteen bytes again, where its id, time and generator are given and its channel is not Ch or Dh.
 * 1 with 16 under 16 bytes; 2 with the type for any but 02h, and so for an OEM record too; then 4 with 7. */
SelAnswer sel_record_to_event(const uint8_t *record, size_t record_length, uint8_t *out, size_t out_length);

/* number:  0, or the number that sel_entry refuses the record with: 1, 2 or 3.
 * value:   what that carries: 16 where it is 1, the record type where it is 2, the channel where it is 3; else 0.
 * same:    1 exactly if both records are accepted and the fields of their entries are equal, whatever they keep; else 0.
 * refused: which record is refused, 1 for a or 2 for b; 0 where neither is. */
typedef struct SelSame {
    uint32_t number;
    uint32_t value;
    uint32_t same;
    uint32_t refused;
} SelSame;

/* Whether two records have equal entries, by their decoded fields, each of 16 bytes or more; those behind the sixteenth are not looked at. Two system events have, exactly if bytes
 * 0 to 7 and 9 to 12 agree, the channel agrees (bits 7 to 4 of byte 8), the unit agrees where byte 7 is an address (bits 1 to 0 of byte 8), the offset
 * agrees (bits 3 to 0 of byte 13), and byte 14 with its kind (bits 7 to 6 of byte 13), and byte 15 with its kind (bits 5 to 4), either agrees or is
 * unspecified in both, which it is under kind 00 and as FFh. Two OEM records have, exactly if all sixteen bytes agree. So what is overlooked is: bits 3
 * to 2 of byte 8 of a system event; bits 1 to 0 of byte 8 behind a software id; byte 14, or byte 15, and its kind while it is unspecified in both.
 * Where a is refused, that is told; then where b is. */
SelSame sel_same_entry(const uint8_t *a, size_t a_length, const uint8_t *b, size_t b_length);

/* The answer to Get SEL Entry, without the completion code. Writes the next id (2), and then as sel_entry does of the bytes from the third on.
 * 1 with 18 under 18 bytes; then 2 and 3 as sel_entry; 4 needs two bytes more. */
SelAnswer sel_get_entry(const uint8_t *data, size_t data_length, uint8_t *out, size_t out_length);

/* The versions that sel_entry_of and sel_get_entry_of take, by the number that Get Device ID gives. */
#define SEL_IPMI_1_5 0x51
#define SEL_IPMI_2_0 0x02

/* A record of the log, by the channels of the server's own version: 51h is IPMI 1.5, which reserves 8h to Dh; 02h is 2.0, which reserves Ch and Dh alone. The
 * version is the IPMI version byte of the server's Get Device ID answer, and never that of Get SEL Info, which is 51h on servers of 2.0 too.
 * 11 for any other version, whatever the bytes and however many; then 1 and 2 as sel_entry; 3 with the channel for a system event on a channel that the version
 * reserves; then 4. Writes as sel_entry does. So under 2.0 it is sel_entry; what is accepted under 1.5 is accepted under 2.0, with the same bytes; and the two
 * versions differ exactly on system events on channels 8h to Bh, which 1.5 alone refuses. */
SelAnswer sel_entry_of(uint8_t version, const uint8_t *data, size_t data_length, uint8_t *out, size_t out_length);

/* The answer to Get SEL Entry, by the channels of the server's own version, which is that of sel_entry_of. 11 for any other version, whatever the bytes and
 * however many; then 1 and 2 as sel_get_entry; 3 as sel_entry_of of the bytes from the third on; then 4. Writes as sel_get_entry does. So under 2.0 it is
 * sel_get_entry; what is accepted under 1.5 is accepted under 2.0, with the same bytes; and the two versions differ exactly on system events on channels 8h
 * to Bh. */
SelAnswer sel_get_entry_of(uint8_t version, const uint8_t *data, size_t data_length, uint8_t *out, size_t out_length);

/* The answer to Get SEL Allocation Info. Writes 9 bytes: units (2), unit size (2), free units (2), largest free block (2), maximum record size.
 * 1 with 9 under 9 bytes; then 4. */
SelAnswer sel_allocation(const uint8_t *data, size_t data_length, uint8_t *out, size_t out_length);

/* Any kind of bytes, by its letter; 255 for any other letter.
 *   e  a record: sel_entry
 *   y  a record: the text of its event, empty for an OEM record; refused as by sel_entry
 *   g  the answer to Get SEL Entry: sel_get_entry
 *   p  the same answer: its sixteen record bytes; none under 18 bytes, which is accepted with 0 bytes
 *   E  a version, and then a record: sel_entry_of
 *   G  a version, and then the answer to Get SEL Entry: sel_get_entry_of
 *   i  the answer to Get SEL Info: major, minor, entries (2), free bytes (2), last add (4), last delete (4), overflow (0, 1), the mask of the
 *      supported commands (8 Delete, 4 Partial Add, 2 Reserve, 1 Get Allocation Info), their count; 1 with 14 under 14 bytes, 8 over 14
 *   a  the answer to Get SEL Allocation Info: sel_allocation
 *   r  the answer to Reserve SEL: reservation (2); 1 with 2 under 2 bytes, then 9 where the reservation is 0
 *   c  the answer to Clear SEL: 01 completed, 00 in progress; 1 with 1 where it is empty
 *   d  three bytes of event data: offset, kind 2, value 2, kind 3, value 3; kinds 0 unspecified, 1 reading or threshold, 2 OEM, 3 sensor-specific
 *   v  three bytes of event data: sel_data_text
 *   D  byte 12 of a record, and then three bytes of event data: offset, kind 2, value 2, kind 3, value 3, as sel_typed_data has them
 *   V  the same bytes: sel_typed_text
 *   L  the letter of an answer, and a length (4): as sel_length, and writes nothing
 *   x  event type, sensor type, offset: sel_event_text
 *   t  a time (4): sel_time_text
 *   s  a time (4): sel_log_time_text
 *   n  a record id (2): 1 unless it is 0000h or FFFFh, which name no record; 1 for 0000h, which asks for the first; 1 for FFFFh, the last; the id (2)
 *   q  a request: 40h, 41h or 42h; 47h, reservation (2), AAh or 00h; 43h, reservation (2), record id (2): sel_request
 * 255 for another number of bytes than d, v, D, V, L, x, t, s, n and q have, for E and G where there is not even the version's byte, and for a request that is
 * none of these. Texts have at most SEL_EVENT_TEXT (70) bytes, all others at most SEL_FLAT (24). */
SelAnswer sel_decode(uint8_t kind, const uint8_t *data, size_t data_length, uint8_t *out, size_t out_length);

/* What the length of an answer alone decides, before there is a byte of it:
 *   1 with the bytes needed, exactly if sel_decode answers so for every answer of that length: under 16 for e, under 18 for g, under 14 for i,
 *     under 9 for a, under 2 for r, under 1 for c;
 *   8, exactly if sel_decode answers 8 for every answer of that length: over 14 for i, and never for the others;
 *   else 0: some answer of that length is accepted. 255 for any other letter. */
SelAnswer sel_length(uint8_t kind, size_t len);

/* A refusal as the original Rust tells it, which does not tell 1, 8 and 9 apart: each of them becomes 1 with 0; every other number, with its value,
 * stays. So mapped, what sel_decode answers of e, g, i, a, r and c is the original's answer, wherever the original returns. */
SelAnswer sel_ported(uint32_t number, size_t value);

/* How many bytes of an answer count: 16 for e, 18 for g, 14 for i, 9 for a, 2 for r, 1 for c; 0 for any other letter. Where sel_length says 0, the
 * answer has so many, and sel_decode answers and writes the same for these alone as for all of it. So whoever asks sel_length first, and then takes
 * at most 18 bytes, allocates for no length that a controller made up, and loses nothing. */
size_t sel_bytes_that_count(uint8_t kind);

/* A text of an event has at most so many bytes. */
#define SEL_EVENT_TEXT 70

/* Writes the text of an event, of at most SEL_EVENT_TEXT (70) bytes, all printable ASCII. Of the event type bit 7 does not count, of the offset
 * bits 7 to 4. An event that has no text is accepted with 0 bytes. 4 where out is shorter than the text. */
SelAnswer sel_event_text(uint8_t event_type, uint8_t sensor_type, uint8_t offset, uint8_t *out, size_t out_length);

/* The room that sel_texts asks for: bytes, and places of each of its two tables. */
#define SEL_STORE 6435
#define SEL_PLACES 640

/* Fills a store and its tables, which then hold every event's text; a place of an event without text has start 0 and length 0. It is worth it where
 * many texts are written. Texts share bytes, so not every byte of the store is written: two filled stores are not to be compared by their bytes.
 * Accepted with SEL_STORE bytes. 4 with the length needed of the first slice that is too short; then none is written. */
SelAnswer sel_texts(uint8_t *store, size_t store_length, uint16_t *starts, size_t starts_length, uint8_t *lengths, size_t lengths_length);

/* Writes the text of an event out of a lent store. Out of what sel_texts filled it does what sel_event_text does, whatever stands behind the first
 * SEL_STORE and SEL_PLACES elements and however many of it are lent. Whatever else is lent: with p = 16 * class + offset it writes the bytes of the
 * store from starts[p] on, lengths[p] of them, as far as they are there, where a place that is not there counts as 0. The class is the place of the
 * event's row among the rows of table 42-2, 0 to 11, and of table 42-3, 12 to 39; an event that has no row has no text, and nothing is looked at. */
SelAnswer sel_event_text_from(const uint8_t *store, size_t store_length, const uint16_t *starts, size_t starts_length,
                              const uint8_t *lengths, size_t lengths_length,
                              uint8_t event_type, uint8_t sensor_type, uint8_t offset, uint8_t *out, size_t out_length);

/* A text of event data, of either reading, has at most so many bytes. */
#define SEL_DATA_TEXT 26

/* Writes the text of event data, bytes 13 to 15 of a system event, as the original Rust reads them, of at most SEL_DATA_TEXT (26) bytes, as
 * `reading=90, threshold=85` or `oem2=0x17`; empty where neither byte is specified. 4 where out is shorter. It calls a discrete sensor's previous state a
 * reading: for people, sel_typed_text is the better one. */
SelAnswer sel_data_text(uint8_t b1, uint8_t b2, uint8_t b3, uint8_t *out, size_t out_length);

/* offset: bits 3 to 0 of byte 13.
 * kind2, kind3: what byte 14 is, and byte 15: 0 unspecified, 1 reading (byte 14) or threshold (byte 15), 2 OEM code, 3 sensor-specific, 4 previous state or
 *         severity (byte 14 alone), 5 reserved.
 * value2, value3: the byte; 0 where its kind is 0 or 5. */
typedef struct SelTypedData {
    uint8_t offset;
    uint8_t kind2;
    uint8_t value2;
    uint8_t kind3;
    uint8_t value3;
} SelTypedData;

/* Event data, bytes 13 to 15 of a system event, by its event type (IPMI 2.0, table 29-6). Of the event type bit 7 does not count, so byte 12 will do. By the
 * kind bits of byte 13, 7 to 6 for byte 14 and 5 to 4 for byte 15:
 *   event types                        byte 14: 00  01  10  11      byte 15: 00  01  10  11
 *   00h, 01h, 0Dh to 6Eh                         0   1   2   3                0   1   2   3
 *   02h to 0Ch, 6Fh                              0   4   2   3                0   5   2   3
 *   70h to 7Fh                                   0   4   2   5                0   5   2   5
 * A byte of FFh is 0, unspecified, but where it is 5. In a previous state bits 3 to 0 are the state's offset and bits 7 to 4 the severity's. */
SelTypedData sel_typed_data(uint8_t event_type, uint8_t b1, uint8_t b2, uint8_t b3);

/* Writes the text of event data as seldump prints it, by the event type, of at most SEL_DATA_TEXT (26) bytes: as sel_data_text, but `prev=0xHH` for a previous
 * state or severity, and nothing for what is reserved. 4 where out is shorter. */
SelAnswer sel_typed_text(uint8_t event_type, uint8_t b1, uint8_t b2, uint8_t b3, uint8_t *out, size_t out_length);

/* A text of a time, of either kind, has at most so many bytes. */
#define SEL_TIME_TEXT 10

/* Writes a time as the original Rust does, at most SEL_TIME_TEXT (10) bytes: `Unknown` for 0, else in decimal. 4 where out is shorter. It does not tell
 * seconds since the log was initialised from seconds since 1970: for people, sel_log_time_text is the better one. */
SelAnswer sel_time_text(uint32_t time, uint8_t *out, size_t out_length);

/* Writes a time as seldump prints it, at most SEL_TIME_TEXT (10) bytes: `Unknown` for 0; `+` and decimal for 1 to 20000000h, which count seconds since the
 * log was initialised; decimal for 20000001h to FFFFFFFEh, seconds since 1970; `none` for FFFFFFFFh, an unspecified time. So a `+` stands before no date, and
 * the text is that of sel_time_text exactly for 0 and for dates. 4 where out is shorter. */
SelAnswer sel_log_time_text(uint32_t time, uint8_t *out, size_t out_length);

/* A payload of a request has at most so many bytes. */
#define SEL_REQUEST 6

/* Writes the payload of a request, of at most SEL_REQUEST (6) bytes. A reservation of 0 is none.
 *   40h Get SEL Info, 41h Get SEL Allocation Info, 42h Reserve SEL: 0 bytes; reservation and argument are not looked at
 *   43h Get SEL Entry: reservation (2), the argument as record id (2), 00h, FFh
 *   47h Clear SEL: reservation (2), `CLR`, AAh; the argument is 00AAh to erase, or 0000h to ask for the status, and then the last byte is 00h
 * 255 for any other command, and for any other argument of 47h; then 4. */
SelAnswer sel_request(uint8_t command, uint16_t reservation, uint16_t argument, uint8_t *out, size_t out_length);

/* The most bytes that sel_reads writes: two for each of 16 reads. */
#define SEL_READS 32

/* The reads of a record from a controller that answers at most m bytes of it at once. Writes offset and count of each,
 * two bytes a read, at most SEL_READS (32). In order they cover the 16 bytes of a record with no gap and no overlap,
 * each of the smaller of m and 16, the last of what is left. No list of reads of 1 to m bytes that covers the record,
 * in whatever order and with whatever overlaps, is shorter. With a reservation, sel_request_part refuses none of them
 * but for room.
 * 13 where m is 0; then 4 with twice the number of reads.
 *
 * So a record is read, where ask stands for the way to the controller, and n is the length of its answer:
 *
 *     uint8_t reads[SEL_READS], request[SEL_REQUEST], answer[18], whole[18], flat[SEL_FLAT];
 *     SelJoined j = {0, 0, 0, 0};
 *     SelAnswer list = sel_reads(m, reads, sizeof reads);
 *     if (list.number != 0) return list;
 *     for (size_t i = 0; i < list.value; i += 2) {
 *         SelAnswer r = sel_request_part(reservation_id, record_id, reads[i], reads[i + 1], request, sizeof request);
 *         if (r.number != 0) return r;
 *         size_t n = ask(0x43, request, r.value, answer);
 *         j = sel_join(m, j.got, j.next, answer, n, whole + 2, 16);
 *         if (j.number != 0) return (SelAnswer){j.number, j.value};
 *     }
 *     whole[0] = (uint8_t)j.next, whole[1] = (uint8_t)(j.next >> 8);
 *     return sel_get_entry(whole, 18, flat, sizeof flat); */
SelAnswer sel_reads(uint8_t m, uint8_t *out, size_t out_length);

/* Writes the payload of Get SEL Entry (43h) for a part of a record, SEL_REQUEST (6) bytes: reservation (2), record id
 * (2), offset, bytes to read. Such a request needs a reservation; one for a whole record is sel_request's, with 00h and
 * FFh.
 * 14 where the reservation is 0; then 16 where bytes_to_read is 0, or offset and bytes_to_read together are over 16,
 * and so for FFh too; then 4 with 6. */
SelAnswer sel_request_part(uint16_t reservation_id, uint16_t record_id, uint8_t offset, uint8_t bytes_to_read,
                           uint8_t *out, size_t out_length);

/* number: 0, 1, 4, 8, 13, 15 or 16.
 * value:  the bytes that the answer needs where the number is 1, and 16 where it is 4; else 0.
 * next:   the next id that came with the bytes that are there.
 * got:    how many bytes of the record are there. For a refusal, next and got are those given. */
typedef struct SelJoined {
    uint32_t number;
    uint32_t value;
    uint16_t next;
    uint8_t got;
} SelJoined;

/* Takes the answer to the next read of a record that is joined in lent bytes, 16 or more. m is that of sel_reads; got
 * says how many bytes of the record are there, 0 at first; next is the next id that came with them, any number while
 * got is 0. The next read is of the smaller of m and 16 - got bytes from the byte got on: from 0 on, these are the
 * reads of sel_reads, in order. An answer, without the completion code, is the next id (2) and exactly the bytes of its
 * read. Taken, its bytes stand at their place in the record, all others are as they were, those behind the sixteenth
 * too, and got and next are the new ones, to be given with the next answer.
 * 13 where m is 0; then 16 where got is 16 or more, an answer after the last; then 1, with two more than the read has,
 * for a shorter answer, and 8 for a longer one; then 15 where got is not 0 and the answer has another next id than
 * next; then 4 with 16. A refused answer leaves all as it was, so that another one can be handed in for the same read.
 * An answer does not say which read it is the answer to: one that is handed in twice is taken for the next where its
 * length is due, so an answer that came twice must be told apart before.
 * So the answers to the reads of sel_reads, each the bytes of its read behind one next id, join to the record and that
 * id, whatever is refused in between; and wherever got has come from 0 to 16 with one m and in the same bytes, the
 * answers taken were those, of the record and the next id that are there. Then next, the lower byte first, and the 16
 * bytes are the answer to a read of the whole record, which sel_get_entry and sel_get_entry_of read as any other; for m
 * from 16 on it is the one answer taken. */
SelJoined sel_join(uint8_t m, uint8_t got, uint16_t next, const uint8_t *answer, size_t answer_length, uint8_t *record,
                   size_t record_length);

/* 0 with the number as value for a valid channel, 0h to Bh, Eh and Fh; 3 with it for any other number. */
SelAnswer sel_channel(uint8_t number);

/* 0 with the number as value for a logical unit, 0 to 3; 255 for any other number. */
SelAnswer sel_unit(uint8_t number);

/* A capture is a number of slots, at most 3,000, of 20 bytes each: the id that was asked for (2), the next id (2), the record (16). */
typedef struct SelFound {
    size_t found;
    size_t slot;
} SelFound;

/* What the length of a capture alone decides, before there is a byte of it: 5 exactly if sel_walk answers 5 for every capture of that length, which is
 * for no multiple of 20 and for over 60,000; else 0. */
uint32_t sel_slots_length(size_t len);

/* 1 and the number, from 0, of the first whole slot that was asked for with the id; 0 and 0 where there is none. */
SelFound sel_find(const uint8_t *slots, size_t slots_length, uint16_t id);

/* number:  0, 4 or 5; of sel_walk_indexed 10 too.
 * verdict: 0 ended, 1 missing, 2 spent, 3 circle; 0 for a refusal.
 * ask:     the id asked in vain (missing), or next to ask (spent); else 0.
 * read:    the slots found, the closing one included; of a circle all slots; 0 for a refusal.
 * needed:  the places that the list must have, where the number is 4; else 0. */
typedef struct SelWalk {
    uint32_t number;
    uint16_t verdict;
    uint16_t ask;
    uint32_t read;
    uint32_t needed;
} SelWalk;

/* Follows the chain of ids through a capture: asks for 0000h, and then for each next id at the first slot with it, until one names FFFFh (ended) or
 * has no slot (missing), within a budget of lookups. If neither occurs: spent for a budget of at most the number of slots, else circle, and then the
 * chain never ends and never misses, however far it is followed. So a budget of one more than there are slots always settles it.
 * The first `read` places of the list hold the numbers of the slots, in the order found; the rest are as they were.
 * 5 for slots that are no multiple of 20 bytes or over 60,000; then 4 for a list with fewer places than there are slots, whatever the budget. */
SelWalk sel_walk(const uint8_t *slots, size_t slots_length, size_t budget, uint16_t *list, size_t list_length);

/* Makes the index of a capture, to be kept beside it: the numbers of the slots, from 0, in order of the id that was asked
 * for, equal ids in the order of the slots. A capture has exactly one. Of n slots it is written to the first n places of
 * index, and to those of scratch, which the making needs: two slices of n places suffice, and of 3,000 for any capture.
 * The places behind, of either, are as they were. Accepted with n.
 * 5 for slots that are no multiple of 20 bytes or over 60,000; then 4 with n for fewer than n places in either. */
SelAnswer sel_index_make(const uint8_t *slots, size_t slots_length, uint16_t *index, size_t index_length, uint16_t *scratch,
                         size_t scratch_length);

/* Extends an index by one slot, which was added behind the others. Where the first n - 1 places hold the index of the
 * first n - 1 of n slots, the first n then hold that of all n, whatever stood in the n-th; the places behind are as they
 * were. Accepted with n; of no slots with 0, and then nothing is written.
 * 5 as sel_index_make; then 10 where the first n - 1 places do not hold that index, or are not there; then 4 with n for
 * fewer than n places. */
SelAnswer sel_index_add(const uint8_t *slots, size_t slots_length, uint16_t *index, size_t index_length);

/* 0 exactly for the index of these slots, that which sel_index_make makes: n numbers for n slots, no more and no fewer.
 * One pass, and nothing is written. 5 as sel_index_make; then 10 for any other list of numbers. */
uint32_t sel_index_check(const uint8_t *slots, size_t slots_length, const uint16_t *index, size_t index_length);

/* Looks up one slot by halving. The index is not checked here: with one that sel_index_check takes, it answers as sel_find
 * does, for every id. With any other list of numbers, of any length, it is still safe, and a slot that it names is one of
 * the whole slots and was asked for with the id; but it may be a later one with that id, and there may be one where it
 * answers 0 and 0. */
SelFound sel_find_indexed(const uint8_t *slots, size_t slots_length, const uint16_t *index, size_t index_length, uint16_t id);

/* The walk by an index, which is checked once: with the right one it answers, and leaves the list, as sel_walk does, for
 * every capture, budget and list.
 * 5 as sel_walk; then 10 as sel_index_check, whatever the budget and the list; then 4 as sel_walk. */
SelWalk sel_walk_indexed(const uint8_t *slots, size_t slots_length, const uint16_t *index, size_t index_length, size_t budget,
                         uint16_t *list, size_t list_length);

#ifdef __cplusplus
}
#endif

#endif
