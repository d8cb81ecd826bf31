/* What pixman has for the works of drawing.txt, on r5g6b5: drawing WORK TURNS. 0: SRC of a solid colour, 1: OVER of one
 * at half opacity, 2: OVER of four bands at half opacity, 3 and 7: OVER of a solid colour through a mask of bits, 4: SRC
 * of an image of r5g6b5, 5: OVER of one through a mask of bytes, 6: OVER of a solid colour through a mask of bytes.
 * The mask of 3 has the text's bits already: pixman sets no text. */
#ifdef HAS_PIXMAN_HEADER
#include <pixman.h>
#else
#include "pixman_calls.h"
#endif
#include <stdio.h>
#include <stdlib.h>

enum { WIDTH = 320, HEIGHT = 240, SIDE = 256 };

static uint32_t pixels[WIDTH * HEIGHT / 2], colors[SIDE * HEIGHT / 2], alphas[SIDE * HEIGHT / 4];
static uint32_t bits[WIDTH / 32 * HEIGHT];

static uint8_t made(int i) { return i % 65536 * 37 % 256; }

static void fill_bytes(void *at, int count, int step)
{
    uint8_t *bytes = at;
    for (int i = 0; i < count; i++)
        bytes[i] = made(i + i / step * 11);
}

/* the channels of a colour, multiplied by an opacity of 16 bits, as pixman has them */
static pixman_color_t color_of(unsigned c, uint32_t alpha)
{
    pixman_color_t color = {
        (c >> 11) * 0xffff / 31 * alpha / 0xffff, (c >> 5 & 63) * 0xffff / 63 * alpha / 0xffff,
        (c & 31) * 0xffff / 31 * alpha / 0xffff, alpha
    };
    return color;
}

static void turn(int work, unsigned c, pixman_image_t *to, pixman_image_t *image, pixman_image_t *alpha, pixman_image_t *mask)
{
    static const pixman_box32_t whole = { 0, 0, WIDTH, HEIGHT };
    static const pixman_box32_t bands[4] = {
        { 0, 0, WIDTH, 10 }, { 0, HEIGHT - 10, WIDTH, HEIGHT },
        { 0, 10, 10, HEIGHT - 10 }, { WIDTH - 10, 10, WIDTH, HEIGHT - 10 }
    };
    pixman_color_t color = color_of(c, work == 1 || work == 2 ? 0x8080 : 0xffff);
    pixman_image_t *solid;
    switch (work) {
    case 0:
        pixman_image_fill_boxes(PIXMAN_OP_SRC, to, &color, 1, &whole);
        return;
    case 1:
        pixman_image_fill_boxes(PIXMAN_OP_OVER, to, &color, 1, &whole);
        return;
    case 2:
        pixman_image_fill_boxes(PIXMAN_OP_OVER, to, &color, 4, bands);
        return;
    case 4:
        pixman_image_composite32(PIXMAN_OP_SRC, image, NULL, to, 0, 0, 0, 0, 0, 0, SIDE, HEIGHT);
        return;
    case 5:
        pixman_image_composite32(PIXMAN_OP_OVER, image, alpha, to, 0, 0, 0, 0, 0, 0, SIDE, HEIGHT);
        return;
    }
    solid = pixman_image_create_solid_fill(&color);
    pixman_image_composite32(PIXMAN_OP_OVER, solid, work == 6 ? alpha : mask, to, 0, 0, 0, 0, 0, 0,
                             work == 6 ? SIDE : WIDTH, HEIGHT);
    pixman_image_unref(solid);
}

int main(int count, char **words)
{
    int work = count > 1 ? atoi(words[1]) : 0;
    int turns = count > 2 ? atoi(words[2]) : 0;
    uint32_t sum = 0;
    fill_bytes(colors, sizeof colors, SIDE * 2);
    fill_bytes(alphas, sizeof alphas, SIDE);
    fill_bytes(bits, sizeof bits, WIDTH / 8);
    pixman_image_t *to = pixman_image_create_bits(PIXMAN_r5g6b5, WIDTH, HEIGHT, pixels, WIDTH * 2);
    pixman_image_t *image = pixman_image_create_bits(PIXMAN_r5g6b5, SIDE, HEIGHT, colors, SIDE * 2);
    pixman_image_t *alpha = pixman_image_create_bits(PIXMAN_a8, SIDE, HEIGHT, alphas, SIDE);
    pixman_image_t *mask = pixman_image_create_bits(PIXMAN_a1, WIDTH, HEIGHT, bits, WIDTH / 8);
    for (int i = 0; i < turns; i++)
        turn(work, i % 65536, to, image, alpha, mask);
    for (int i = 0; i < WIDTH * HEIGHT; i++)
        sum += ((uint16_t *)pixels)[i];
    printf("%u\n", sum);
    return 0;
}
