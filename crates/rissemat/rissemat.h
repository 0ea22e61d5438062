/* The calls of librissemat.a for C: `tools/archive` makes the archive.
 *
 * A slice is a pointer and then a length; a pointer to no bytes may be anything but must not be read through. Slices of
 * one call must not overlap. An answer has 64 bits:
 *   bits 0-31   the value: bytes written, entries that went, or what the refusal returns (above 4,294,967,295: that number)
 *   bits 32-39  the refusal's number, 0 for none; with kind 1 of rissemat_run the number beside the text
 *   bits 40-47  the kind of answer, where a call has several
 *   bits 48-63  a second value, where a call has one
 * A refusal writes nothing, but for 4 to 7 of rissemat_parse and rissemat_help, each of which is told by a frame, as long as the value says.
 * Success writes the first bytes of an out, line or screen only, as many as the value (the second value for line) says.
 */
#ifndef RISSEMAT_H
#define RISSEMAT_H

#include <stddef.h>
#include <stdint.h>

/* The words of a line as frames of kind 14 (14, length in two bytes, high first, bytes).
 * Refusals, in this order: 2 (line over 1,024 bytes: its length, 65,535 if more), 3 (ill-formed UTF-8: length of the longest
 * well-formed prefix), 9 (out too short: length needed). */
uint64_t rissemat_words(const uint8_t *line, size_t line_len, uint8_t *out, size_t out_len);

/* The line that splits into the words of these frames of kind 14.
 * Refusals, in this order: 10 (an empty, ill-formed or broken word: its number from 0), 2 (line over 1,024 bytes: its
 * length, 65,535 if more), 9 (out too short: length needed). */
uint64_t rissemat_quote(const uint8_t *words, size_t words_len, uint8_t *out, size_t out_len);

/* A session between two calls is a state of 266 bytes and slots of 25,600 bytes, both the caller's: no call keeps anything.
 * The state: what is saved of the editor, bytes 0 to 260: mode (0 typing, 1 after ESC, 2 after ESC `[` with the Rust's keys, 3 in a control
 * sequence with ECMA-48's), line length, cursor, the 255 bytes of the line, key profile (0 the Rust's, 1 ECMA-48's), how many bytes of the
 * sequence were read after ESC `[` (0 to 15), its parameter (0 for none; the number 1, 3, 4, 7 or 8, not its ASCII byte, if that digit is the
 * one byte read; otherwise 255); then what is saved of the history, bytes 261 to 265: count, place, total, which takes two bytes, high byte
 * first, and the first slot. The slots: 100 of 256 bytes, slot i from byte 256 * i on, each with an entry of history, a length byte then the
 * text, or all zeros; all unused bytes are zero. The oldest entry lies in the first slot, state[265], 0 to 99, and the others in the slots
 * that follow, round the end: entry k (0 is the oldest) in slot (state[265] + k) % 100. An add, or an Enter that adds, writes one slot and
 * no other byte of the slots: (state[265] + state[261]) % 100 by the state before the call, which in a full history is that of the oldest.
 * The total is the history's bytes in use: the sum of the entries' lengths, 0 in a fresh session, at most 25,500. A status page reads it
 * between any two calls as 256 * state[263] + state[264]. A state with any other total is bad (12). */

/* A fresh session with the Rust's keys: no line, no history. Both buffers are then zeros.
 * Refusals, of the first buffer that has another length, the state before the slots: 9 (too short: the length needed, 266 or 25,600),
 * 12 (too long: another length is no state's). */
uint64_t rissemat_fresh(uint8_t *state, size_t state_len, uint8_t *slots, size_t slots_len);

/* A fresh session with the keys of a profile, which every key keeps: 0 the Rust's, as above; 1 ECMA-48's, whose control sequences are read to
 * their end: arrows, Home, End and Delete act, every other does nothing. Both buffers are then zeros, but for the profile in byte 258.
 * Refusals, in this order: 12 (a profile that is not there), then those of rissemat_fresh. */
uint64_t rissemat_fresh_with(uint8_t profile, uint8_t *state, size_t state_len, uint8_t *slots, size_t slots_len);

/* One key. The value is the length of the bytes to show, at the front of screen. Kind 1 is Enter: the second value is the length of
 * the line that is submitted, at the front of line (0 for an empty line: nothing to run, but the prompt is due). Kind 2: the line is full and
 * the byte was dropped; nothing changes. Kind 0 is any other key.
 * Refusals, in this order: 12 (a bad state: another length, mode or profile, a mode of the other profile, or state and slots break a rule
 * of line, control sequence or history, its total and its first slot among them), 11 (prompt over 128 bytes or ill-formed: its length), 9
 * (line under 255 bytes: 255; then screen too short: length needed). */
uint64_t rissemat_key(uint8_t *state, size_t state_len, uint8_t *slots, size_t slots_len, const uint8_t *prompt, size_t prompt_len,
                      uint8_t key, uint8_t *line, size_t line_len, uint8_t *screen, size_t screen_len);

/* A text added to the history, as Enter adds a line: a blank one, or one equal to the newest entry, is not added, and the place is set to
 * the count either way; the line that is being typed stays. The value is 0.
 * Refusals, in this order: 12 (a bad state, as above), 13 (text over 255 bytes: its length), 3 (ill-formed UTF-8: length of the longest
 * well-formed prefix). */
uint64_t rissemat_history_add(uint8_t *state, size_t state_len, uint8_t *slots, size_t slots_len, const uint8_t *text, size_t text_len);

/* Entry k of the history forgotten, 0 being the oldest. If that brings two equal entries together, the older of them goes as well. Later
 * entries close up, the first slot stays, the slots that are free then hold zeros, and the place is set to the count. So the room is given
 * back: no later key or add drops an old entry before there are 100 again. The line that is being typed stays, also one that was recalled
 * from that entry: its text is then still in the state. The value is how many entries went, 1 or 2.
 * Refusals, in this order: 12 (a bad state, as above), 18 (k is not below the count of entries: k). */
uint64_t rissemat_history_forget(uint8_t *state, size_t state_len, uint8_t *slots, size_t slots_len, size_t k);

/* The test of a tree image: frames 01, 02 and 03 one after the other. The value is 0.
 * Refusal: 1 (a bad tree: the number, from 0, of the first frame that breaks a rule; an image over 32,768 bytes is bad at frame 0). */
uint64_t rissemat_tree(const uint8_t *image, size_t image_len);

/* A line parsed under a tree: the report of its command as frames of kinds 11 (path word), 12 (option: key, value), 13 (flag) and 14
 * (positional), in that order, each text after its length in two bytes, high first.
 * Refusals, in this order: 1 (a bad tree, as above), 2 (line over 1,024 bytes: its length, 65,535 if more), 3 (ill-formed UTF-8: length of the
 * longest well-formed prefix), then 4 (unknown command), 5 (unknown option), 6 (missing value) or 7 (missing required option), whose text
 * stands at the front of out in one frame of kind 1E, and whose value is that frame's length; 9 instead of any answer from 4 on, or of the
 * report (out too short: length needed). */
uint64_t rissemat_parse(const uint8_t *image, size_t image_len, const uint8_t *line, size_t line_len, uint8_t *out, size_t out_len);

/* The help for the words of a line, split on white space only, under a tree.
 * Refusals, in this order: 1, 2 and 3 as for rissemat_parse, 14 (no words: 0), 4 (a word that names no node, told as above), 9 (out too short
 * for the help or for that frame: length needed). */
uint64_t rissemat_help(const uint8_t *image, size_t image_len, const uint8_t *line, size_t line_len, uint8_t *out, size_t out_len);

/* A line run under a tree. What the answer is tells its kind:
 *   0  nothing is to be done (a blank line), or a refusal
 *   1  a text to show: help, the list of commands or `clear`, with the number 0; or the message of a line that is refused, with 3 (ill-formed
 *      UTF-8), 4 (unknown command, also one that help is asked for), 5 (unknown option), 6 (missing value), 7 (missing required option) or
 *      8 (no handler) in bits 32-39
 *   2  the end, with its text to show
 *   3  a handler by its number, the second value, with the report for it, frames as of rissemat_parse
 * The value is the length of the text or the report, at the front of out.
 * Refusals, all of kind 0, in this order: 1 (a bad tree, as above), 2 (line over 1,024 bytes: its length, 65,535 if more), 9 (out too short:
 * length needed). */
uint64_t rissemat_run(const uint8_t *image, size_t image_len, const uint8_t *line, size_t line_len, uint8_t *out, size_t out_len);

#endif
