/* after stb_image's stbi__process_gif_raster */
#include <stdint.h>
typedef uint8_t stbi_uc;
typedef int16_t stbi__int16;
typedef int32_t stbi__int32;
typedef uint32_t stbi__uint32;

typedef struct
{
   stbi__int16 prefix;
   stbi_uc first;
   stbi_uc suffix;
} stbi__gif_lzw;

typedef struct
{
   stbi_uc *out, *out_end;
   stbi__gif_lzw *codes;
} stbi__gif;

static void stbi__out_gif_code(stbi__gif *g, int code)
{
   stbi_uc stack[4097];
   int top = 0;
   while (code >= 0 && top < 4096) {
      stack[top++] = g->codes[code].suffix;
      code = g->codes[code].prefix;
   }
   while (top > 0 && g->out < g->out_end)
      *g->out++ = stack[--top];
}

void KERNEL(stbi_uc *pixels, const stbi_uc *data, int length, stbi__gif_lzw *table, int lzw_cs, stbi__uint32 *written)
{
   stbi__gif gif = { pixels, pixels + 4096, table }, *g = &gif;
   const stbi_uc *end = data + length;
   stbi__int32 len, init_code;
   stbi__uint32 first;
   stbi__int32 codesize, codemask, avail, oldcode, bits, valid_bits, clear;
   stbi__gif_lzw *p;

   if (lzw_cs > 12) return;
   clear = 1 << lzw_cs;
   first = 1;
   codesize = lzw_cs + 1;
   codemask = (1 << codesize) - 1;
   bits = 0;
   valid_bits = 0;
   for (init_code = 0; init_code < clear; init_code++) {
      g->codes[init_code].prefix = -1;
      g->codes[init_code].first = (stbi_uc) init_code;
      g->codes[init_code].suffix = (stbi_uc) init_code;
   }
   avail = clear+2;
   oldcode = -1;
   len = 0;
   for(;;) {
      if (valid_bits < codesize) {
         if (len == 0) {
            if (data == end) break;
            len = *data++; // start new block
            if (len == 0) break;
         }
         --len;
         if (data == end) break;
         bits |= (stbi__int32) *data++ << valid_bits;
         valid_bits += 8;
      } else {
         stbi__int32 code = bits & codemask;
         bits >>= codesize;
         valid_bits -= codesize;
         if (code == clear) {  // clear code
            codesize = lzw_cs + 1;
            codemask = (1 << codesize) - 1;
            avail = clear + 2;
            oldcode = -1;
            first = 0;
         } else if (code == clear + 1) { // end of stream code
            break;
         } else if (code <= avail) {
            if (first) break;
            if (oldcode >= 0) {
               p = &g->codes[avail++];
               if (avail > 8192) break;
               p->prefix = (stbi__int16) oldcode;
               p->first = g->codes[oldcode].first;
               p->suffix = (code == avail) ? p->first : g->codes[code].first;
            } else if (code == avail)
               break;
            stbi__out_gif_code(g, (stbi__int16) code);
            if ((avail & codemask) == 0 && avail <= 0x0FFF) {
               codesize++;
               codemask = (1 << codesize) - 1;
            }
            oldcode = code;
         } else {
            break;
         }
      }
   }
   *written = g->out - pixels;
}
