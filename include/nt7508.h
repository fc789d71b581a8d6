/* A proved model of the Novatek NT7508 display controller, for C99 and C++.
 *
 * `oracle/library` writes target/staticlib/libffi.a, which holds every function below and needs
 * memcpy and memset alone (x86-64-v2, System V). docs/RULES.md has the rules of the controller;
 * crates/ffi/src holds the functions, each with its contract.
 *
 * What every function has in common:
 *
 * - It returns a status: 0, or the number of the first check that turns the call down, in the order
 *   2, 8, 1, 3, 4, 5, 6, 7 (20 and 19 before all of them). The functions that return something else
 *   say so.
 * - A call that is turned down changes nothing that was lent. Only nt7508_session goes on from line
 *   to line, and leaves what the lines before the refused one did.
 * - A time is seconds and a fraction of a second in units of 2^-64 s. It has to be before 2^32 s.
 * - An array whose length is not given with it has the length that its name says: lend at least as
 *   many elements. One that is lent with its length may have any; a wrong one is turned down.
 * - Arrays that a call writes must not overlap others that it is lent. Nothing is kept after a call,
 *   there is no global state, and no memory is allocated. Calls on other blocks may run at the same
 *   time.
 * - A bool that is read out of words is 1 or 0.
 */
#ifndef NT7508_H
#define NT7508_H

#include <stdbool.h>
#include <stddef.h>
#include <stdint.h>

#ifdef __cplusplus
extern "C" {
#endif

/* ---- sizes -------------------------------------------------------------------------------------- */

#define NT7508_STATE_WORDS 75      /* the state of a controller: a block to keep, not to read */
#define NT7508_RAM_BYTES 4096      /* 16 pages of 8 rows; a column of a page is 2 bytes */
#define NT7508_ICON_BYTES 256      /* the icons' row, bit 0 of each byte */
#define NT7508_IMAGE_WIDTH 96      /* the columns that are seen */
#define NT7508_IMAGE_HEIGHT 64     /* the rows that are seen */
#define NT7508_IMAGE_BYTES 6144    /* a gray level for each of them, row after row */
#define NT7508_EVENT_WORDS 8
#define NT7508_DRIVE_WORDS 12
#define NT7508_VOLTAGE_WORDS 7
#define NT7508_DEADLINE_WORDS 3
#define NT7508_FOUND_WORDS 3
#define NT7508_TEXT_BYTES 65536    /* the longest text of a session */
#define NT7508_LISTING_BYTES 589824 /* room for the listing of every text */
#define NT7508_ENDED_WORDS 2

#define NT7508_CLOCK_WORDS 8
#define NT7508_ANALOG_BYTES 8      /* the settings of the voltages */
#define NT7508_DISPLAY_BYTES 20    /* the settings of the scan */
#define NT7508_SCAN_WORDS 13
#define NT7508_SCAN_BYTES 14

/* ---- the numbers by which a call is turned down --------------------------------------------------- */

#define NT7508_PASSED 0
#define NT7508_REFUSED_TIME 1     /* a time of 2^32 s or later */
#define NT7508_REFUSED_MEMORY 2   /* RAM or icons of another length */
#define NT7508_REFUSED_STATE 3    /* a setting or another field of the state out of its range */
#define NT7508_REFUSED_SCAN 4     /* a field of the scan out of its range, or a rate that is no LCD rate */
#define NT7508_REFUSED_CLOCK 5    /* a clock that is not of its rate, or out of range */
#define NT7508_REFUSED_RESTORE 6  /* restored at a time before its clock, or after the end of its wait */
#define NT7508_REFUSED_GROUP 7    /* more than 8 bits, or a bit set at or above the count */
#define NT7508_REFUSED_IMAGE 8    /* an image of another length */
#define NT7508_REFUSED_LINE 9     /* a session's text too long, its names line wrong, a line malformed */
#define NT7508_REFUSED_LISTING 19 /* a lent listing of fewer than NT7508_LISTING_BYTES */
#define NT7508_REFUSED_BLOCK 20   /* a block of another length, or one that holds no state */

/* ---- places in the words that a call gives --------------------------------------------------------- */

/* An event: what a whole byte did. Words that its kind does not have are 0. */
#define NT7508_EVENT_KIND 0      /* NT7508_EVENT_NONE, _WRITE or _CONTROL */
#define NT7508_EVENT_PAGE 1      /* of a write: 0 to 15, or 16 for the icons */
#define NT7508_EVENT_COLUMN 2    /* of a write: the byte in its page, 0 to 255 */
#define NT7508_EVENT_VALUE 3     /* the data byte that was written, or the command */
#define NT7508_EVENT_HAS_PARAMETER 4
#define NT7508_EVENT_PARAMETER 5
#define NT7508_EVENT_SECONDS 6
#define NT7508_EVENT_FRACTION 7

#define NT7508_EVENT_NONE 0
#define NT7508_EVENT_WRITE 1
#define NT7508_EVENT_CONTROL 2

/* A drive: what the electrodes get at a moment. */
#define NT7508_DRIVE_COMMON 0    /* the selected common, 0 to 128, or NT7508_NO_COMMON */
#define NT7508_DRIVE_SEGMENTS 1  /* two words: segment n is bit n % 64 of word n / 64 */
#define NT7508_DRIVE_INVERTED 3
#define NT7508_DRIVE_GROUNDED 4
#define NT7508_DRIVE_VOLTAGES 5  /* NT7508_VOLTAGE_WORDS words */

#define NT7508_NO_COMMON 129

/* Voltages in microvolts; a level that is absent is NT7508_ABSENT. */
#define NT7508_VOLTAGE_TARGET 0  /* what V0 is to have; never absent */
#define NT7508_VOLTAGE_PUMP 1
#define NT7508_VOLTAGE_V0 2      /* V1 to V4 follow */

#define NT7508_ABSENT UINT64_C(4294967296)

/* ---- the controller ------------------------------------------------------------------------------- */

/* The caller keeps the state (a block of NT7508_STATE_WORDS words), RAM and icons, and lends them to
 * each call. What the words of the block are may change from one version to the next; to keep a state
 * elsewhere, copy the block, RAM and icons, and bring them back by nt7508_controller_restore. Every
 * call checks the block that it is lent: 20, 3, 4 and 5. */

/* Makes the block the state at power-on: 3000 mV, 20 degrees C, not selected, no wait. The block may
 * hold anything before. Turned down by 20, for its length alone. RAM and icons are the caller's to
 * clear. */
uint64_t nt7508_controller_new(uint64_t *state, size_t state_words);

/* One rising edge of the serial clock at a time, with the level of the data input. The eighth edge of
 * a byte acts; `event` gets what it did. Turned down by 20, 2, 1, 3, 4, 5. */
uint64_t nt7508_controller_rising(uint64_t *state, size_t state_words, bool bit, uint64_t seconds,
                                  uint64_t fraction, uint8_t *ram, size_t ram_bytes, uint8_t *icons,
                                  size_t icon_bytes, uint64_t event[NT7508_EVENT_WORDS]);

/* A group of `count` rising edges at one time, 0 to 8, the oldest the highest of the low `count` bits
 * of `bits`: (byte, 8) is a whole byte, high bit first. `event` gets what the byte did that ended in
 * the group, if one did. Turned down by 20, 2, 1, 3, 4, 5, 7. */
uint64_t nt7508_controller_shift_in(uint64_t *state, size_t state_words, uint8_t bits, uint8_t count,
                                    uint64_t seconds, uint64_t fraction, uint8_t *ram,
                                    size_t ram_bytes, uint8_t *icons, size_t icon_bytes,
                                    uint64_t event[NT7508_EVENT_WORDS]);

/* Chip select: true selects. A change drops the bits under way. Turned down by 20, 3, 4, 5. */
uint64_t nt7508_controller_select(uint64_t *state, size_t state_words, bool on);

/* The data line: true for data, false for commands. Turned down by 20, 3, 4, 5. */
uint64_t nt7508_controller_command_data(uint64_t *state, size_t state_words, bool on);

/* The supply in millivolts from a time on. From 1650 up it counts as supplied. A fall stops the scan
 * and deselects; 0 marks cold. A rise after that returns to the settings of power-on and waits 21
 * microseconds, in which bits are not taken (nt7508_controller_deadline). Turned down by 20, 1, 3, 4,
 * 5. */
uint64_t nt7508_controller_set_supply(uint64_t *state, size_t state_words, uint16_t millivolts,
                                      uint64_t seconds, uint64_t fraction);

/* The temperature in millidegrees C. Turned down by 20, 3, 4, 5. */
uint64_t nt7508_controller_set_temperature(uint64_t *state, size_t state_words,
                                           int32_t millicelsius);

/* A loss of memory: RAM and icons become 0, and the next rise is a cold one. Turned down by 20, 2, 3,
 * 4, 5. */
uint64_t nt7508_controller_lose_volatile(uint64_t *state, size_t state_words, uint8_t *ram,
                                         size_t ram_bytes, uint8_t *icons, size_t icon_bytes);

/* Ends the wait if the time is exactly that of nt7508_controller_deadline, else does nothing. Turned
 * down by 20, 1, 3, 4, 5. */
uint64_t nt7508_controller_at_deadline(uint64_t *state, size_t state_words, uint64_t seconds,
                                       uint64_t fraction);

/* Keeps the scan as counted to a time. It is never needed: no later answer changes by it. `pieces`
 * gets in how many pieces it was counted, 0 to 4. Turned down by 20, 1, 3, 4, 5. */
uint64_t nt7508_controller_update(uint64_t *state, size_t state_words, uint64_t seconds,
                                  uint64_t fraction, uint8_t *pieces);

/* Whether a state that was kept elsewhere, with its RAM and icons, may go on at a time. It changes
 * nothing. Turned down by 20, 2, 1, 3, 4, 5, 6. */
uint64_t nt7508_controller_restore(uint64_t *state, size_t state_words, uint64_t seconds,
                                   uint64_t fraction, const uint8_t *ram, size_t ram_bytes,
                                   const uint8_t *icons, size_t icon_bytes);

/* What the electrodes get at a time, and the frame length (duty x PWM; 0 where nothing is driven).
 * Turned down by 20, 2, 1, 3, 4, 5. */
uint64_t nt7508_controller_drive(const uint64_t *state, size_t state_words, uint64_t seconds,
                                 uint64_t fraction, const uint8_t *ram, size_t ram_bytes,
                                 const uint8_t *icons, size_t icon_bytes,
                                 uint64_t drive[NT7508_DRIVE_WORDS], uint16_t *frame);

/* The gray image of NT7508_IMAGE_BYTES bytes: byte NT7508_IMAGE_WIDTH * y + x is 0 (off) to 255, and
 * all are 0 where nothing is driven. Turned down by 20, 2, 8, 3, 4, 5. */
uint64_t nt7508_controller_render(const uint64_t *state, size_t state_words, const uint8_t *ram,
                                  size_t ram_bytes, const uint8_t *icons, size_t icon_bytes,
                                  uint8_t *image, size_t image_bytes);

/* Target, pump and V0 to V4. Turned down by 20, 3, 4, 5. */
uint64_t nt7508_controller_voltages(const uint64_t *state, size_t state_words,
                                    uint64_t voltages[NT7508_VOLTAGE_WORDS]);

/* How many edges of the serial clock, rising and falling, until the byte under way completes, from
 * the clock's level: 1 to 16. Turned down by 20, 3, 4, 5. */
uint64_t nt7508_controller_serial_effect_edges(const uint64_t *state, size_t state_words, bool high,
                                               uint8_t *edges);

/* The end of the wait: 1, seconds and fraction, or 0, 0, 0 where there is none. Turned down by 20, 3,
 * 4, 5. */
uint64_t nt7508_controller_deadline(const uint64_t *state, size_t state_words,
                                    uint64_t deadline[NT7508_DEADLINE_WORDS]);

/* Some regulator and contrast setting whose target under the present temperature, slope and trim is
 * from `low` to `high` microvolts, both included: 1, regulator and contrast, or 0, 0, 0 if no pair of
 * the 512 is. Turned down by 20, 3, 4, 5. */
uint64_t nt7508_controller_find_setting(const uint64_t *state, size_t state_words, uint32_t low,
                                        uint32_t high, uint64_t found[NT7508_FOUND_WORDS]);

/* The voltage of a common (0 to 128) or of a segment (0 to 127) in a drive. They return microvolts,
 * or NT7508_ABSENT for an electrode beyond those, in an undriven drive, or without its level. */
uint64_t nt7508_scan_common_microvolts(const uint64_t drive[NT7508_DRIVE_WORDS], uint8_t common);
uint64_t nt7508_scan_segment_microvolts(const uint64_t drive[NT7508_DRIVE_WORDS], uint8_t segment);

/* ---- a session ------------------------------------------------------------------------------------ */

/* Runs a text of lines `microseconds word value` from power-on, and prints its listing. The block may
 * hold anything before; it, RAM and icons get what the session left. `ended` gets how many bytes of
 * the listing were written, and the line of the refusal or 0. Returns 0, or the number by which a line
 * was turned down, which the listing then says too. Turned down by 20 for the block's length, and
 * then nothing changes; by 19 for the listing's, with the state at power-on and nothing else changed;
 * by 9 for its text, and by the numbers of the lines' calls. */
uint64_t nt7508_session(const uint8_t *text, size_t text_bytes, uint64_t *state, size_t state_words,
                        uint8_t *ram, size_t ram_bytes, uint8_t *icons, size_t icon_bytes,
                        uint8_t *listing, size_t listing_bytes, uint64_t ended[NT7508_ENDED_WORDS]);

/* ---- the clock ------------------------------------------------------------------------------------ */

/* A rate is p edges in q seconds. A clock is the seconds and fraction of its last edge, the two words
 * of its period in fraction units (high, low), the period's remainder, p, its own fraction, and how
 * many edges it has passed. */

/* Microseconds as a time, rounded down. Returns nothing, and refuses nothing. */
void nt7508_time_from_micros(uint64_t us, uint64_t time[2]);

/* A clock that starts at a time. Turned down by 1, 4. */
uint64_t nt7508_clock_new(uint64_t seconds, uint64_t fraction, uint64_t p, uint64_t q,
                          uint64_t clock[NT7508_CLOCK_WORDS]);

/* Whether a clock is one of its rate. Turned down by 4, 5. */
uint64_t nt7508_clock_check(const uint64_t clock[NT7508_CLOCK_WORDS], uint64_t p, uint64_t q);

/* How many edges stand after the clock's last one and not later than a time. Turned down by 1, 4,
 * 5. */
uint64_t nt7508_clock_edges_to(const uint64_t clock[NT7508_CLOCK_WORDS], uint64_t p, uint64_t q,
                               uint64_t seconds, uint64_t fraction, uint64_t *edges);

/* Moves a clock forward by edges. Turned down by 4, 5, and by 1 if its last edge would be too late. */
uint64_t nt7508_clock_moved(uint64_t clock[NT7508_CLOCK_WORDS], uint64_t p, uint64_t q,
                            uint64_t edges);

/* Moves a clock to its last edge not later than a time, by `limit` edges at the most; `count` gets
 * how many. Turned down by 1, 4, 5. */
uint64_t nt7508_clock_passed_to(uint64_t clock[NT7508_CLOCK_WORDS], uint64_t p, uint64_t q,
                                uint64_t seconds, uint64_t fraction, uint64_t limit,
                                uint64_t *count);

/* ---- the voltages --------------------------------------------------------------------------------- */

/* The settings are bytes: contrast (0 to 63), regulator (0 to 7), power control (0 to 7), booster
 * (bits 0, 1 and 3), bias (0 to 7), temperature slope (0 or 1), contrast trim (0 to 15), OTP control
 * (0 to 3). */

/* Returns whether each setting is in its range. */
bool nt7508_settings_valid(const uint8_t settings[NT7508_ANALOG_BYTES]);

/* Target, pump and V0 to V4 of settings under a supply and temperature. Turned down by 3. */
uint64_t nt7508_voltages(const uint8_t settings[NT7508_ANALOG_BYTES], uint16_t millivolts,
                         int32_t millicelsius, bool power_save, bool waiting,
                         uint64_t voltages[NT7508_VOLTAGE_WORDS]);

/* As nt7508_controller_find_setting, of settings. Turned down by 3. */
uint64_t nt7508_find_setting(uint32_t low, uint32_t high,
                             const uint8_t settings[NT7508_ANALOG_BYTES], int32_t millicelsius,
                             uint64_t found[NT7508_FOUND_WORDS]);

/* ---- the scan ------------------------------------------------------------------------------------- */

/* The display settings are bytes: start line, icons on, all on, reverse, segments reversed, commons
 * reversed, first common, duty, line inversion, gray mode, 8 of the palette, oscillator control,
 * oscillator frequency. A scan is NT7508_SCAN_WORDS words (whether its clock runs, the clock, its
 * rate's p and q, the two words of its latch) and NT7508_SCAN_BYTES bytes (duty, icons on, first
 * common, commons reversed, start line, PWM, FRC count, row, step, phase, line inversion and its
 * count, inverted, whether a latch is kept). Yes is anything but 0. */

/* Counts the scan to a time; `pieces` gets in how many pieces. Turned down by 1, 3, 4, 5. */
uint64_t nt7508_scan_count_to(const uint8_t settings[NT7508_DISPLAY_BYTES],
                              uint64_t words[NT7508_SCAN_WORDS], uint8_t bytes[NT7508_SCAN_BYTES],
                              uint64_t seconds, uint64_t fraction, uint8_t *pieces);

/* Makes the scan what a data byte for a page (`data` true) or a command (false) has to find at a
 * time. Turned down by 2, 1, 3, 4, 5. */
uint64_t nt7508_scan_before_byte(const uint8_t *ram, size_t ram_bytes, const uint8_t *icons,
                                 size_t icon_bytes, const uint8_t settings[NT7508_DISPLAY_BYTES],
                                 uint64_t words[NT7508_SCAN_WORDS],
                                 uint8_t bytes[NT7508_SCAN_BYTES], uint64_t seconds,
                                 uint64_t fraction, bool data, uint8_t page);

/* Makes the scan what a byte or a warm rise leaves at a time, by whether it ran before and runs
 * after. Turned down by 2, 1, 3, 4, 5. */
uint64_t nt7508_scan_after_byte(const uint8_t *ram, size_t ram_bytes, const uint8_t *icons,
                                size_t icon_bytes, const uint8_t settings[NT7508_DISPLAY_BYTES],
                                uint64_t words[NT7508_SCAN_WORDS], uint8_t bytes[NT7508_SCAN_BYTES],
                                uint64_t seconds, uint64_t fraction, bool was_running,
                                bool running);

/* Makes the scan what a fall of the supply at a time leaves. Turned down by 1, 3, 4, 5. */
uint64_t nt7508_scan_fall(const uint8_t settings[NT7508_DISPLAY_BYTES],
                          uint64_t words[NT7508_SCAN_WORDS], uint8_t bytes[NT7508_SCAN_BYTES],
                          uint64_t seconds, uint64_t fraction);

/* The gray image, where the glass is driven or not. Turned down by 2, 8, 3. */
uint64_t nt7508_scan_render(const uint8_t *ram, size_t ram_bytes, const uint8_t *icons,
                            size_t icon_bytes, uint8_t *image, size_t image_bytes,
                            const uint8_t settings[NT7508_DISPLAY_BYTES], bool driven);

/* The drive at a time, and the frame length (0 where undriven). Turned down by 2, 1, 3, 4, 5. */
uint64_t nt7508_scan_drive(const uint8_t *ram, size_t ram_bytes, const uint8_t *icons,
                           size_t icon_bytes, const uint64_t words[NT7508_SCAN_WORDS],
                           const uint8_t bytes[NT7508_SCAN_BYTES],
                           const uint8_t settings[NT7508_DISPLAY_BYTES],
                           const uint8_t analog[NT7508_ANALOG_BYTES], bool display_on,
                           bool oscillator_enabled, uint16_t millivolts, int32_t millicelsius,
                           bool power_save, bool waiting, uint64_t seconds, uint64_t fraction,
                           uint64_t drive[NT7508_DRIVE_WORDS], uint16_t *frame);

#ifdef __cplusplus
}
#endif

#endif
