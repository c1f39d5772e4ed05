/* heatshrink_decoder.c, window 8 bits, lookahead 4 bits */
#include <stddef.h>
#include <stdint.h>
#define WINDOW 8
#define LOOKAHEAD 4
#define NO_BITS ((uint16_t)-1)

typedef enum { HSDS_TAG_BIT, HSDS_YIELD_LITERAL, HSDS_BACKREF_INDEX, HSDS_BACKREF_COUNT, HSDS_YIELD_BACKREF } HSD_state;

typedef struct {
    uint16_t input_size, input_index, output_count, output_index, head_index;
    uint8_t state, current_byte, bit_index;
    const uint8_t *input;
    uint8_t window[1 << WINDOW];
} heatshrink_decoder;

typedef struct { uint8_t *buf; size_t buf_size; size_t *output_size; } output_info;

static uint16_t get_bits(heatshrink_decoder *hsd, uint8_t count)
{
    uint16_t accumulator = 0;
    if (count > 15) return NO_BITS;
    if (hsd->input_size == 0) {
        if (hsd->bit_index < (1 << (count - 1))) return NO_BITS;
    }
    for (int i = 0; i < count; i++) {
        if (hsd->bit_index == 0x00) {
            if (hsd->input_size == 0) return NO_BITS;
            hsd->current_byte = hsd->input[hsd->input_index++];
            if (hsd->input_index == hsd->input_size) {
                hsd->input_index = 0;
                hsd->input_size = 0;
            }
            hsd->bit_index = 0x80;
        }
        accumulator <<= 1;
        if (hsd->current_byte & hsd->bit_index) accumulator |= 0x01;
        hsd->bit_index >>= 1;
    }
    return accumulator;
}

static void push_byte(output_info *oi, uint8_t byte) { oi->buf[(*oi->output_size)++] = byte; }

static HSD_state st_tag_bit(heatshrink_decoder *hsd)
{
    uint32_t bits = get_bits(hsd, 1);
    if (bits == NO_BITS) return HSDS_TAG_BIT;
    if (bits) return HSDS_YIELD_LITERAL;
    hsd->output_index = 0;
    return HSDS_BACKREF_INDEX;
}

static HSD_state st_yield_literal(heatshrink_decoder *hsd, output_info *oi)
{
    if (*oi->output_size < oi->buf_size) {
        uint16_t byte = get_bits(hsd, 8);
        if (byte == NO_BITS) return HSDS_YIELD_LITERAL;
        uint16_t mask = (1 << WINDOW) - 1;
        uint8_t c = byte & 0xFF;
        hsd->window[hsd->head_index++ & mask] = c;
        push_byte(oi, c);
        return HSDS_TAG_BIT;
    }
    return HSDS_YIELD_LITERAL;
}

static HSD_state st_backref_index(heatshrink_decoder *hsd)
{
    uint16_t bits = get_bits(hsd, WINDOW);
    if (bits == NO_BITS) return HSDS_BACKREF_INDEX;
    hsd->output_index |= bits;
    hsd->output_index++;
    hsd->output_count = 0;
    return HSDS_BACKREF_COUNT;
}

static HSD_state st_backref_count(heatshrink_decoder *hsd)
{
    uint16_t bits = get_bits(hsd, LOOKAHEAD);
    if (bits == NO_BITS) return HSDS_BACKREF_COUNT;
    hsd->output_count |= bits;
    hsd->output_count++;
    return HSDS_YIELD_BACKREF;
}

static HSD_state st_yield_backref(heatshrink_decoder *hsd, output_info *oi)
{
    size_t count = oi->buf_size - *oi->output_size;
    if (count > 0) {
        if (hsd->output_count < count) count = hsd->output_count;
        uint8_t *buf = &hsd->window[0];
        uint16_t mask = (1 << WINDOW) - 1;
        uint16_t neg_offset = hsd->output_index;
        for (size_t i = 0; i < count; i++) {
            uint8_t c = buf[(hsd->head_index - neg_offset) & mask];
            push_byte(oi, c);
            buf[hsd->head_index & mask] = c;
            hsd->head_index++;
        }
        hsd->output_count -= count;
        if (hsd->output_count == 0) return HSDS_TAG_BIT;
    }
    return HSDS_YIELD_BACKREF;
}

void KERNEL(uint8_t *out_buf, const uint8_t *in, size_t n, size_t *output_size)
{
    heatshrink_decoder decoder = { .input = in, .input_size = n, .state = HSDS_TAG_BIT }, *hsd = &decoder;
    *output_size = 0;
    output_info oi = { .buf = out_buf, .buf_size = 4096, .output_size = output_size };
    while (1) {
        uint8_t in_state = hsd->state;
        switch (in_state) {
        case HSDS_TAG_BIT: hsd->state = st_tag_bit(hsd); break;
        case HSDS_YIELD_LITERAL: hsd->state = st_yield_literal(hsd, &oi); break;
        case HSDS_BACKREF_INDEX: hsd->state = st_backref_index(hsd); break;
        case HSDS_BACKREF_COUNT: hsd->state = st_backref_count(hsd); break;
        case HSDS_YIELD_BACKREF: hsd->state = st_yield_backref(hsd, &oi); break;
        default: return;
        }
        if (hsd->state == in_state) return;
    }
}
