/* The screen of the script that bench/settings writes, drawn by pixman on r5g6b5 and presented as the program does:
 * settings FRAMES CHANGE STEP. Slices of 24 lines are drawn into a buffer and copied to a panel in memory, whose frames
 * go to standard output. CHANGE is whole, slider or still. Where the slider moves, the columns between its knob's old
 * place and its new one are drawn anew. */
#ifdef HAS_PIXMAN_HEADER
#include <pixman.h>
#else
#include "pixman_calls.h"
#endif
#include <stdio.h>
#include <stdlib.h>
#include <string.h>

enum { WIDTH = 320, HEIGHT = 240, LINES = 24, LETTERS = 18 };

/* the panel, the buffer of a slice, and a frame in bytes */
static uint16_t panel[WIDTH * HEIGHT];
static uint32_t buffer[WIDTH * LINES / 2];
static uint8_t frame[3 * WIDTH * HEIGHT];

/* the letters of the texts, the bits of their columns from the left, bit 0 the top row, and their masks */
static const char letters[LETTERS + 1] = "Item12345678Darkod";
static const uint8_t columns[LETTERS][5] = {
    { 0x00, 0x41, 0x7F, 0x41, 0x00 }, { 0x04, 0x3F, 0x44, 0x40, 0x20 }, { 0x38, 0x54, 0x54, 0x54, 0x18 },
    { 0x7C, 0x04, 0x18, 0x04, 0x78 }, { 0x00, 0x42, 0x7F, 0x40, 0x00 }, { 0x42, 0x61, 0x51, 0x49, 0x46 },
    { 0x21, 0x41, 0x45, 0x4B, 0x31 }, { 0x18, 0x14, 0x12, 0x7F, 0x10 }, { 0x27, 0x45, 0x45, 0x45, 0x39 },
    { 0x3C, 0x4A, 0x49, 0x49, 0x30 }, { 0x01, 0x71, 0x09, 0x05, 0x03 }, { 0x36, 0x49, 0x49, 0x49, 0x36 },
    { 0x7F, 0x41, 0x41, 0x22, 0x1C }, { 0x20, 0x54, 0x54, 0x54, 0x78 }, { 0x7C, 0x08, 0x04, 0x04, 0x08 },
    { 0x7F, 0x10, 0x28, 0x44, 0x00 }, { 0x38, 0x44, 0x44, 0x44, 0x38 }, { 0x38, 0x44, 0x44, 0x48, 0x7F }
};
static uint32_t masks[LETTERS][7 * 2];
static pixman_image_t *glyphs[256];
static pixman_image_t *ink;

/* a part of the panel, and the image that it is drawn into */
typedef struct {
    pixman_image_t *image;
    int x1, y1, x2, y2;
} Slice;

static const uint32_t WHITE = 0xFFFFFF, BLACK = 0, BLUE = 0x2196F3, DARK_BLUE = 0x1976D2, GREY = 0xE0E0E0;

static int min(int a, int b) { return a < b ? a : b; }
static int max(int a, int b) { return a > b ? a : b; }

static pixman_color_t color_of(uint32_t rgb)
{
    pixman_color_t color = { (rgb >> 16) * 0x101, (rgb >> 8 & 255) * 0x101, (rgb & 255) * 0x101, 0xffff };
    return color;
}

/* a column's bits as a mask of bytes, eight bytes a row */
static void make_glyphs(void)
{
    for (int i = 0; i < LETTERS; i++) {
        uint8_t *bytes = (uint8_t *)masks[i];
        for (int y = 0; y < 7; y++)
            for (int x = 0; x < 5; x++)
                bytes[8 * y + x] = columns[i][x] >> y & 1 ? 255 : 0;
        glyphs[(uint8_t)letters[i]] = pixman_image_create_bits(PIXMAN_a8, 5, 7, masks[i], 8);
    }
    pixman_color_t black = color_of(BLACK);
    ink = pixman_image_create_solid_fill(&black);
}

static void fill(const Slice *to, int x, int y, int width, int height, uint32_t rgb)
{
    pixman_box32_t box = {
        max(x, to->x1) - to->x1, max(y, to->y1) - to->y1,
        min(x + width, to->x2) - to->x1, min(y + height, to->y2) - to->y1
    };
    pixman_color_t color = color_of(rgb);
    if (box.x1 < box.x2 && box.y1 < box.y2)
        pixman_image_fill_boxes(PIXMAN_OP_SRC, to->image, &color, 1, &box);
}

/* a black border of one pixel */
static void border(const Slice *to, int x, int y, int width, int height)
{
    fill(to, x, y, width, 1, BLACK);
    fill(to, x, y + height - 1, width, 1, BLACK);
    fill(to, x, y, 1, height, BLACK);
    fill(to, x + width - 1, y, 1, height, BLACK);
}

static void text(const Slice *to, int x, int y, const char *words)
{
    if (y >= to->y2 || y + 7 <= to->y1)
        return;
    for (; *words && x < to->x2; words++, x += 6)
        if (*words != ' ' && x + 5 > to->x1)
            pixman_image_composite32(PIXMAN_OP_OVER, ink, glyphs[(uint8_t)*words], to->image,
                                     0, 0, 0, 0, x - to->x1, y - to->y1, 5, 7);
}

static void slider(const Slice *to, int x, int y, int value)
{
    fill(to, x, y, 100, 10, GREY);
    fill(to, x, y, value, 10, BLUE);
    fill(to, x + 90 * value / 100, y, 10, 10, DARK_BLUE);
}

static void screen(const Slice *to, uint32_t background, int value)
{
    char words[] = "Item 1";
    fill(to, 0, 0, WIDTH, HEIGHT, background);
    fill(to, 0, 0, 150, 240, WHITE);
    border(to, 0, 0, 150, 240);
    for (int i = 0; i < 8; i++) {
        words[5] = '1' + i;
        fill(to, 3, 3 + 18 * i, 44, 16, BLUE);
        text(to, 7, 7 + 18 * i, words);
    }
    slider(to, 160, 10, value);
    slider(to, 160, 30, 70);
    border(to, 160, 50, 8, 8);
    text(to, 172, 50, "Dark mode");
    fill(to, 160, 70, 100, 10, GREY);
}

/* draws a part of the panel, of 24 lines at most, and copies it there */
static void show(int x1, int y1, int x2, int y2, uint32_t background, int value)
{
    int stride = (2 * (x2 - x1) + 3) / 4 * 4;
    Slice to = { pixman_image_create_bits(PIXMAN_r5g6b5, x2 - x1, y2 - y1, buffer, stride), x1, y1, x2, y2 };
    screen(&to, background, value);
    pixman_image_unref(to.image);
    for (int y = y1; y < y2; y++)
        memcpy(panel + y * WIDTH + x1, (uint8_t *)buffer + (y - y1) * stride, 2 * (x2 - x1));
}

static void show_all(uint32_t background, int value)
{
    for (int y = 0; y < HEIGHT; y += LINES)
        show(0, y, WIDTH, min(y + LINES, HEIGHT), background, value);
}

static void show_slider(int before, int value)
{
    int from = 90 * before / 100, to = 90 * value / 100;
    show(160 + min(from, to), 10, 160 + max(from, to) + 10, 20, WHITE, value);
}

static void present(void)
{
    uint8_t *byte = frame;
    for (int i = 0; i < WIDTH * HEIGHT; i++) {
        int red = panel[i] >> 11, green = panel[i] >> 5 & 63, blue = panel[i] & 31;
        *byte++ = red * 8 + red / 4;
        *byte++ = green * 4 + green / 16;
        *byte++ = blue * 8 + blue / 4;
    }
    printf("P6\n%d %d\n255\n", WIDTH, HEIGHT);
    fwrite(frame, 1, sizeof frame, stdout);
    fflush(stdout);
}

int main(int count, char **words)
{
    int frames = count > 1 ? atoi(words[1]) : 1000;
    const char *change = count > 2 ? words[2] : "slider";
    int step = count > 3 ? atoi(words[3]) : 1;
    int value = 0;
    make_glyphs();
    show_all(WHITE, value);
    present();
    for (int i = 1; i <= frames; i++) {
        int before = value;
        if (strcmp(change, "slider") == 0) {
            int way = i * step % 200;
            value = min(way, 200 - way);
            show_slider(before, value);
        } else if (strcmp(change, "whole") == 0) {
            show_all(i % 2 == 0 ? WHITE : 0xEFEFEF, value);
        }
        present();
    }
    return 0;
}
