/* The firmware's side of a small screen: it powers the controller, ends its start-up wait, selects
 * it, sends commands and the 1,536 data bytes of a picture, and prints what the glass then shows as
 * text. `examples/desk` builds and runs it. */
#include "nt7508.h"

#include <inttypes.h>
#include <stdio.h>
#include <stdlib.h>
#include <string.h>

enum { WIDTH = NT7508_IMAGE_WIDTH, HEIGHT = NT7508_IMAGE_HEIGHT };

/* What a desk unit keeps: the controller's state, its memory, and the time in microseconds. */
struct panel {
    uint64_t state[NT7508_STATE_WORDS];
    uint8_t ram[NT7508_RAM_BYTES];
    uint8_t icons[NT7508_ICON_BYTES];
    uint64_t us;
    unsigned writes, commands;
};

static void passed(const char *call, uint64_t status)
{
    if (status != NT7508_PASSED) {
        fprintf(stderr, "%s: refused %" PRIu64 "\n", call, status);
        exit(EXIT_FAILURE);
    }
}

static void power(struct panel *panel, uint16_t millivolts)
{
    uint64_t now[2];
    nt7508_time_from_micros(panel->us, now);
    passed("set_supply", nt7508_controller_set_supply(panel->state, NT7508_STATE_WORDS, millivolts,
                                                      now[0], now[1]));
}

/* The wait ends by a call at exactly its end. */
static void wait_until_ready(struct panel *panel)
{
    uint64_t end[NT7508_DEADLINE_WORDS];
    passed("deadline", nt7508_controller_deadline(panel->state, NT7508_STATE_WORDS, end));
    if (end[0] == 0)
        return;
    passed("at_deadline",
           nt7508_controller_at_deadline(panel->state, NT7508_STATE_WORDS, end[1], end[2]));
    panel->us += 22;
}

/* A byte at 2 MHz of the serial clock: eight bits in 4 microseconds. */
static void send(struct panel *panel, bool data, uint8_t byte)
{
    uint64_t now[2], event[NT7508_EVENT_WORDS];
    panel->us += 4;
    nt7508_time_from_micros(panel->us, now);
    passed("command_data",
           nt7508_controller_command_data(panel->state, NT7508_STATE_WORDS, data));
    passed("shift_in",
           nt7508_controller_shift_in(panel->state, NT7508_STATE_WORDS, byte, 8, now[0], now[1],
                                      panel->ram, NT7508_RAM_BYTES, panel->icons,
                                      NT7508_ICON_BYTES, event));
    panel->writes += event[NT7508_EVENT_KIND] == NT7508_EVENT_WRITE;
    panel->commands += event[NT7508_EVENT_KIND] == NT7508_EVENT_CONTROL;
}

static void start(struct panel *panel)
{
    static const uint8_t commands[] = {
        0xAB,       /* oscillator on */
        0x2F,       /* pump, V0 and V1 to V4 */
        0x67,       /* the pump gives 6 times the supply */
        0x25,       /* regulator 5 */
        0x81, 0x18, /* contrast 24 */
        0x44, 0x20, /* first common 32: the first row that is seen */
        0x48, 0x40, /* duty 64: the rows that are seen */
        0x93,       /* 15 quanta a row, 4 frames a gray cycle */
        0x88, 0x00, 0x89, 0x00, /* the palette: shade 0 is off, */
        0x8A, 0x55, 0x8B, 0x55, /* shade 1 a third, */
        0x8C, 0xAA, 0x8D, 0xAA, /* shade 2 two thirds, */
        0x8E, 0xFF, 0x8F, 0xFF, /* shade 3 on */
        0xAF,       /* display on */
    };
    size_t index;
    for (index = 0; index < sizeof commands; index++)
        send(panel, false, commands[index]);
}

/* A picture as shades 0 to 3, eight rows a page: the high bits of a column in its first byte, the
 * low bits in its second. */
static void show(struct panel *panel, uint8_t picture[HEIGHT][WIDTH])
{
    int page, x, plane, bit;
    for (page = 0; page < HEIGHT / 8; page++) {
        send(panel, false, (uint8_t)(0xB0 + page));
        send(panel, false, 0x10);
        send(panel, false, 0x00);
        for (x = 0; x < WIDTH; x++)
            for (plane = 1; plane >= 0; plane--) {
                unsigned byte = 0;
                for (bit = 0; bit < 8; bit++)
                    byte |= (picture[8 * page + bit][x] >> plane & 1u) << bit;
                send(panel, true, (uint8_t)byte);
            }
    }
}

/* ---- the picture ---------------------------------------------------------------------------------- */

static void fill(uint8_t picture[HEIGHT][WIDTH], int x, int y, int width, int height, uint8_t shade)
{
    int row;
    for (row = y; row < y + height; row++)
        memset(&picture[row][x], shade, (size_t)width);
}

/* Letters of 5 columns, bit 0 at the top. */
static const struct {
    char letter;
    uint8_t columns[5];
} font[] = {
    {'D', {0x7F, 0x41, 0x41, 0x22, 0x1C}}, {'E', {0x7F, 0x49, 0x49, 0x49, 0x41}},
    {'I', {0x00, 0x41, 0x7F, 0x41, 0x00}}, {'K', {0x7F, 0x08, 0x14, 0x22, 0x41}},
    {'N', {0x7F, 0x04, 0x08, 0x10, 0x7F}}, {'S', {0x46, 0x49, 0x49, 0x49, 0x31}},
    {'T', {0x01, 0x01, 0x7F, 0x01, 0x01}}, {'U', {0x3F, 0x40, 0x40, 0x40, 0x3F}},
    {'0', {0x3E, 0x51, 0x49, 0x45, 0x3E}}, {'5', {0x27, 0x45, 0x45, 0x45, 0x39}},
    {'7', {0x01, 0x71, 0x09, 0x05, 0x03}}, {'8', {0x36, 0x49, 0x49, 0x49, 0x36}},
};

static void print(uint8_t picture[HEIGHT][WIDTH], int x, int y, const char *text)
{
    size_t index;
    int column, bit;
    for (; *text != '\0'; text++, x += 6)
        for (index = 0; index < sizeof font / sizeof font[0]; index++)
            for (column = 0; font[index].letter == *text && column < 5; column++)
                for (bit = 0; bit < 7; bit++)
                    if (font[index].columns[column] >> bit & 1)
                        picture[y + bit][x + column] = 3;
}

static void draw(uint8_t picture[HEIGHT][WIDTH])
{
    uint8_t shade;
    memset(picture, 0, (size_t)HEIGHT * WIDTH);
    fill(picture, 0, 0, WIDTH, HEIGHT, 3);
    fill(picture, 1, 1, WIDTH - 2, HEIGHT - 2, 0);
    print(picture, 8, 6, "DESK UNIT");
    print(picture, 64, 6, "7508");
    fill(picture, 1, 17, WIDTH - 2, 1, 1);
    for (shade = 0; shade < 4; shade++) {
        fill(picture, 8 + 21 * shade, 24, 17, 32, 3);
        fill(picture, 9 + 21 * shade, 25, 15, 30, shade);
    }
}

/* ---- the panel as text ---------------------------------------------------------------------------- */

static void report(const struct panel *panel)
{
    uint64_t now[2], drive[NT7508_DRIVE_WORDS], voltages[NT7508_VOLTAGE_WORDS];
    uint16_t frame;
    nt7508_time_from_micros(panel->us, now);
    passed("voltages", nt7508_controller_voltages(panel->state, NT7508_STATE_WORDS, voltages));
    passed("drive", nt7508_controller_drive(panel->state, NT7508_STATE_WORDS, now[0], now[1],
                                            panel->ram, NT7508_RAM_BYTES, panel->icons,
                                            NT7508_ICON_BYTES, drive, &frame));
    printf("%u data bytes, %u commands, %" PRIu64 " us\n", panel->writes, panel->commands,
           panel->us);
    printf("V0 %" PRIu64 " uV, common %" PRIu64 ", frame %u quanta\n", voltages[NT7508_VOLTAGE_V0],
           drive[NT7508_DRIVE_COMMON], (unsigned)frame);
}

static void print_panel(const struct panel *panel)
{
    static uint8_t image[NT7508_IMAGE_BYTES];
    int x, y;
    passed("render",
           nt7508_controller_render(panel->state, NT7508_STATE_WORDS, panel->ram, NT7508_RAM_BYTES,
                                    panel->icons, NT7508_ICON_BYTES, image, NT7508_IMAGE_BYTES));
    for (y = 0; y < HEIGHT; y++) {
        for (x = 0; x < WIDTH; x++)
            putchar(" .o#"[image[WIDTH * y + x] / 64]);
        putchar('\n');
    }
}

int main(void)
{
    static struct panel panel;
    static uint8_t picture[HEIGHT][WIDTH];
    passed("new", nt7508_controller_new(panel.state, NT7508_STATE_WORDS));
    power(&panel, 0);
    panel.us = 1000;
    power(&panel, 3000);
    wait_until_ready(&panel);
    passed("select", nt7508_controller_select(panel.state, NT7508_STATE_WORDS, true));
    start(&panel);
    draw(picture);
    show(&panel, picture);
    panel.us += 100000;
    report(&panel);
    print_panel(&panel);
    return fflush(stdout) == 0 ? EXIT_SUCCESS : EXIT_FAILURE;
}
