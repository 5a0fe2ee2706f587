/* trackrouter.h - the proved track router.
 *
 * Gives the nets of a small programmable chip their tracks. The channels that each net runs through are given (the sheet); the router
 * chooses one track in each of them (the ticket). Link with libtrackrouter.a, which `tools/staticlib` writes.
 *
 * Every result of every call, and every byte of every output buffer, is fixed by the paper "Track router for the vent-and-lamp chip"
 * (01) with the change requests M-100 to M-106 (02), and proved by machine, for all inputs; only where the empty part begins is our
 * choice. The words below are theirs.
 *
 * What holds for all calls
 *   - They take any bytes of any length: a bad sheet, list, ticket or buffer gets a number, never a fault.
 *   - A buffer is a pointer and its length. With length 0 the pointer may be null. With any other length it must point to that many
 *     bytes, and an output buffer must not overlap an input buffer.
 *   - Inputs are only read. An output is written only on success (number 0).
 *   - They use no heap, no global state and no operating system call, and are safe from several threads at once, each with its own
 *     output buffer. Of the C library they need memcpy and memset alone.
 *   - They end: a search makes no more trials than its budget. Time grows with the trials.
 *   - Stack: under 512 KB for the deepest search (64 nets, width 32); docs/PERFORMANCE.md has the figure, which is measured.
 *
 * An output of TRACKROUTER_MAX_ENTRIES bytes is enough for every ticket. On success as many bytes are written as the sheet has entries;
 * trackrouter_read gives that count. TRACKROUTER_MAX_SHEET bytes are enough for every standard form, which is as long as its sheet.
 *
 * examples/example.c makes every call, examples/least.c reads a file; the tests compile and run both.
 */
#ifndef TRACKROUTER_H
#define TRACKROUTER_H

#include <stddef.h>
#include <stdint.h>

/* The version of this header. A library that fits it answers the same to trackrouter_version(). */
#define TRACKROUTER_VERSION 8

/* ---- Constants ----------------------------------------------------------------------------------------------------------------- */

#define TRACKROUTER_MAX_SHEET 8728   /* bytes of the longest sheet, one of mark 57 49 and kind 3: room for every standard form */
#define TRACKROUTER_MAX_NETS 64      /* nets of a sheet */
#define TRACKROUTER_MAX_ENTRIES 2048 /* entries over all nets: the longest ticket, room for every ticket */
#define TRACKROUTER_MAX_WIDTH 32     /* tracks of a channel */
#define TRACKROUTER_DEAD_ITEM 3      /* bytes of an item in a list of dead wires */
#define TRACKROUTER_MAX_DEAD 46080   /* bytes of the longest list that is not refused: all 32 tracks of 480 channels */
#define TRACKROUTER_UNPLACED 255     /* in a ticket for Refit or Remove, every byte of a net that is unplaced */
#define TRACKROUTER_NO_PARENT 65535  /* in a sheet, the parent of a net's first entry */
#define TRACKROUTER_KIND_SUBSET 0    /* kinds of inner box (see Sheets) */
#define TRACKROUTER_KIND_WILTON 1
#define TRACKROUTER_KIND_UNIVERSAL 2
#define TRACKROUTER_KIND_ROWS 3      /* the sheet has the rows of its inner boxes */

#ifdef __cplusplus
extern "C" {
#endif

/* ---- Numbers: the first in the order of this table that applies is given, each test over the whole sheet, list or ticket ------- */

/* The order is that of the table, not of the numbers: 18 stands after 5 and before 6, 19 and 20 after 9 and before 10, 21 after 12 and
 * before 13, 17 after 13 and before 14. Numbers that come later are put into the table where they are tested, and none is renumbered. */
enum {
    TRACKROUTER_OK = 0,          /* success */
    TRACKROUTER_LENGTH = 1,      /* length:     sheet under 12 or over 8,728 bytes, whatever its mark and kind */
    TRACKROUTER_MARK = 2,        /* mark:       last two bytes not 57 48 or 57 49 (hexadecimal), or length field wrong */
    TRACKROUTER_CHIP = 3,        /* chip:       A, B, kind or W outside its values */
    TRACKROUTER_CROWD = 4,       /* crowd:      more than 64 nets */
    TRACKROUTER_DIRECTORY = 5,   /* directory:  directory offset + 2 * nets + 12, for kind 3 + 24, is not the length; or records not back
                                                to back from 0 to the directory at its offsets; or an entry count outside 1 to 32 */
    TRACKROUTER_PARAMETER = 18,  /* parameter:  kind 3: a sign not 0 or 1, or a shift outside -32 to 31 */
    TRACKROUTER_CHANNEL = 6,     /* channel:    no such channel */
    TRACKROUTER_TWICE = 7,       /* twice:      a channel twice in one net */
    TRACKROUTER_JOINT = 8,       /* joint:      a parent breaks its rule */
    TRACKROUTER_NAME = 9,        /* name:       two nets with one number */
    TRACKROUTER_LIST = 19,       /* list:       list of dead wires not of whole items; or a channel that the chip does not have; or a track
                                                over 31, whatever W is */
    TRACKROUTER_REPEAT = 20,     /* repeat:     a wire twice in the list, also one at or above W */
    TRACKROUTER_SIZE = 10,       /* size:       ticket length is not the entry count */
    TRACKROUTER_TRACK = 11,      /* track:      byte not below W (Refit, Remove: unless the net is unplaced, all its bytes 255) */
    TRACKROUTER_SWITCH = 12,     /* switch:     a joint's tracks are not partners */
    TRACKROUTER_BROKEN = 21,     /* broken:     a net on a dead wire (Refit: a placed net) */
    TRACKROUTER_CLASH = 13,      /* clash:      a wire held by two nets */
    TRACKROUTER_STRANGER = 17,   /* stranger:   the sheet has no net of this number */
    TRACKROUTER_SPACE = 14,      /* space:      output shorter than what the call writes */
    TRACKROUTER_UNROUTABLE = 15, /* unroutable: no right ticket at W (Least: at no width 1 to 32), and 16 does not apply */
    TRACKROUTER_SPENT = 16       /* spent:      the whole run needs more trials than the budget */
};

/* The word for a number, as in the table above; "" for 0 and for a number that is not in it. */
static inline const char *trackrouter_word(uint32_t number)
{
    static const char *const words[] = {"",      "length",   "mark",      "chip",  "crowd",  "directory", "channel", "twice",
                                        "joint", "name",     "size",      "track", "switch", "clash",     "space",   "unroutable",
                                        "spent", "stranger", "parameter", "list",  "repeat", "broken"};
    return number < sizeof words / sizeof *words ? words[number] : "";
}

/* ---- Results ------------------------------------------------------------------------------------------------------------------- */

/* Read's answer. On a refusal (number 1 to 9 or 18) nets and entries are 0. */
struct trackrouter_counts {
    uint32_t number;
    uint32_t nets;
    uint32_t entries; /* over all nets together: the length of a ticket */
};

/* A part of the lent sheet: `length` bytes from `offset` on. 0, 0 is the empty part. */
struct trackrouter_part {
    size_t offset;
    size_t length;
};

/* The answer of Route, Least and Refit.
 *   number 0                  width: W (Least: the width found); trials: those made; moved: Refit's count, else 0
 *   number 1 to 14 and 17 on  all else 0
 *   number 15                 trials: those made; width and moved 0
 *   number 16                 trials: the budget; width and moved 0 */
struct trackrouter_answer {
    uint32_t number;
    uint32_t width;
    uint32_t trials;
    uint32_t moved;
};

/* ---- The library ---------------------------------------------------------------------------------------------------------------- */

/* The library's version; compare it with TRACKROUTER_VERSION, so that an old library beside a new header is noticed. */
uint32_t trackrouter_version(void);

/* ---- Sheets -------------------------------------------------------------------------------------------------------------------- */

/* A sheet is read the same way by every call, with the numbers 1 to 5, 18 and 6 to 9; below, "the sheet's numbers" are these.
 *
 * The last two bytes of a sheet are its mark, which says how long its net numbers are. A record is its net number, low byte first, its
 * entry count n, two bytes, and n entries of four bytes, channel and parent:
 *   57 48 (hexadecimal)  the net number has 2 bytes, 0 to 65535, and the record 4 + 4 * n
 *   57 49                the net number has 4 bytes, 0 to 4294967295, and the record 6 + 4 * n
 * All else is the same for both marks; offsets and counts have two bytes. Sheets of different marks with the same chip, kind, W, nets,
 * channels and joints are relistings like any others and get the same answers. Standard keeps the mark.
 *
 * A box with fewer than four channels, which is one on the rim of the chip (column 0 or A - 1, row 0 or B - 1), joins equal track numbers,
 * for every kind. The box table and the rows of kind 3 hold for the inner boxes, those with four channels; chips of two columns or two
 * rows have none.
 *
 * A sheet of kind 3 (TRACKROUTER_KIND_ROWS) has 12 bytes between its directory and its trailer: for each column of the box table, left to
 * right (left-right, top-bottom, left-top, top-right, right-bottom, bottom-left), a sign byte, 0 plus or 1 minus, and a shift, a signed
 * byte (two's complement) from -32 to 31. The partner of track i on the side that the column names first is (shift + i) mod W, or
 * (shift - i) mod W, from 0 to W - 1; from the other side the inverse holds. The bytes are tested (18) even where no box uses them. Sheets
 * of the other kinds have no such bytes. Two sheets are of the same kind 3 only if these 12 bytes agree; so relistings have the same ones,
 * and Standard keeps them. */

/* Read: the sheet's net count and entry count. Gives 0 or one of the sheet's numbers. */
struct trackrouter_counts trackrouter_read(const uint8_t *sheet, size_t sheet_len);

/* Record: where in the sheet the record at list place `place` (from 0) stands, from its net number to its last entry; the mark says how
 * long the number is. A refused sheet, or a place not below the net count, gives the empty part; no record is empty. */
struct trackrouter_part trackrouter_record(const uint8_t *sheet, size_t sheet_len, size_t place);

/* Standard: the sheet in standard form. Nets stand in rising number. Each net's first entry is its home, its lowest-numbered channel; each
 * next entry is the lowest-numbered channel not yet written that has a joint to a written one, and that one is its parent. Mark, chip, kind
 * (kind 3 with its 12 bytes) and W are kept. On success writes sheet_len bytes from out[0] on; later bytes keep their values. On any other
 * number writes nothing. `out` must not overlap `sheet`. Gives 0, one of the sheet's numbers, or 14: out_len is below sheet_len.
 *   - Two accepted sheets of the same mark, chip, kind (for kind 3, the same 12 bytes) and W have the same nets, channels and joints
 *     exactly if their standard forms are equal bytes.
 *   - What is written is accepted, is a relisting of the sheet, and is its own standard form. With the same list of dead wires, enough room
 *     for the tickets and, for Refit and Check, tickets of the same byte for each net number and channel, Route, Least, Refit and Check
 *     answer alike on both, and each net gets the same track in each of its channels.
 *   - A ticket's bytes stand in the order of its sheet's entries. So a ticket for the sheet is in general no ticket for its standard form,
 *     byte by byte: the byte of a net number and channel goes where that entry stands. */
uint32_t trackrouter_standard(const uint8_t *sheet, size_t sheet_len, uint8_t *out, size_t out_len);

/* ---- Dead wires ---------------------------------------------------------------------------------------------------------------- */

/* A wire is one track of one channel. Check, Route, Least and Refit take a list of dead wires, `dead`, right after the sheet. With length 0,
 * where the pointer may be null, no wire is dead. Read, Record, Standard and Remove take no list.
 *
 * The list has an item of TRACKROUTER_DEAD_ITEM bytes for each dead wire: its channel, two bytes with the low byte first, and its track, one
 * byte. The order of the items does not matter. The list is read once for all widths, with two numbers; below, "the list's numbers" are
 * these, after the sheet's and before 10:
 *   19  the length is not a multiple of 3; or an item has a channel that this chip does not have, or a track over 31, whatever W is
 *   20  two items are the same wire, also one at or above W
 * Where neither applies, the items at or above the width in use are ignored; that width is W, in Least each width that is tried. The others
 * are the dead wires, and all other wires are whole.
 *   - A right ticket has no net on a dead wire, and "no right ticket" (15) speaks of these tickets. Check gives 21 for a net on a dead wire,
 *     Refit for a placed net of its old ticket.
 *   - In the search a track fits if all the wires that it gives the net are whole and free. One that does not fit is a trial all the same. If
 *     some channel has more nets than whole tracks below the width in use, there is no trial at that width.
 *
 * When a wire dies under a net: Check with the list gives 21; Remove, which takes no list, takes the net out of that ticket; Refit, with the
 * list and what Remove wrote, gives a right ticket, if there is one, and moves as few of the other nets as it can. With several such nets,
 * Remove takes out one after the other. */

/* ---- Tickets ------------------------------------------------------------------------------------------------------------------- */

/* Check: 0 exactly if the ticket is right for the sheet at its width W: one byte per entry, each below W, every joint's tracks partners,
 * no net on a dead wire, no wire held by two nets. Else the first of the sheet's numbers, the list's numbers, 10 to 12, 21 and 13 that
 * applies. */
uint32_t trackrouter_check(const uint8_t *sheet, size_t sheet_len, const uint8_t *dead, size_t dead_len, const uint8_t *ticket,
                           size_t ticket_len);

/* Route: the first right ticket at the sheet's width W. On success writes one byte per entry from out[0] on; later bytes keep their
 * values. On any other number writes nothing. Gives 0, one of the sheet's numbers, of the list's numbers, or 14 to 16. With 15, no ticket
 * that avoids the dead wires is right at W. */
struct trackrouter_answer trackrouter_route(const uint8_t *sheet, size_t sheet_len, const uint8_t *dead, size_t dead_len, uint32_t budget,
                                            uint8_t *out, size_t out_len);

/* Least: the smallest width from 1 to 32 that has a right ticket, and the first ticket there; the sheet's own W is only checked. Writes
 * and numbers as Route. The trials of all widths tried are summed. With 15, no ticket that avoids the dead wires is right at any width from
 * 1 to 32. */
struct trackrouter_answer trackrouter_least(const uint8_t *sheet, size_t sheet_len, const uint8_t *dead, size_t dead_len, uint32_t budget,
                                            uint8_t *out, size_t out_len);

/* Refit: a full ticket from a partly filled old one, in which 255 in all of a net's bytes means unplaced. Of the right tickets at W, the
 * first among those in which the fewest placed nets have another home track (the track in the net's lowest-numbered channel); moved is
 * that count. Writes as Route. Gives 0, one of the sheet's numbers, of the list's numbers, 10 to 12, 21, 13, or 14 to 16; 11, 12, 21 and 13
 * look at placed nets alone. With 15, no ticket that avoids the dead wires is right at W. */
struct trackrouter_answer trackrouter_refit(const uint8_t *sheet, size_t sheet_len, const uint8_t *dead, size_t dead_len,
                                            const uint8_t *old, size_t old_len, uint32_t budget, uint8_t *out, size_t out_len);

/* Remove: the ticket with one net taken out; `net` is that net's number. The ticket is read as Refit reads its old one, with no list of dead
 * wires: a net on such a wire is taken out like any other. On success writes one byte per entry from out[0] on: 255 for each entry of this
 * net, the ticket's own byte for any other; later bytes keep their values. On any other number writes nothing. A net that is unplaced
 * already stays so: the ticket is copied as it is. Gives 0, one of the sheet's numbers, 10 to 13, then 17, then 14; 11 to 13 look at placed
 * nets alone. 17: no net of the sheet has this number, all 32 bits of it. What is written is again such a ticket. */
uint32_t trackrouter_remove(const uint8_t *sheet, size_t sheet_len, const uint8_t *ticket, size_t ticket_len, uint32_t net, uint8_t *out,
                            size_t out_len);

#ifdef __cplusplus
}
#endif

#endif
