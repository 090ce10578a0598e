/* The library from C: what the maximum gain would write into an antenna's slots, shown before it does. */
#include "hf.h"
#include <stdio.h>
#include <string.h>

/* 4 by 4 dipoles before a screen (type 1), and a quadrant antenna (type 8), over ground of 4 and 0.01 S/m; slot 4, the operating
 * MHz, is still 0. */
static const float array[20] = {0, 1, 4, 0.01f, 0, 4, 4, 12, 0.5f};
static const float quadrant[20] = {0, 8, 4, 0.01f, 0, 7, 0.5f, 0, 0.5f};
static const int slots[3] = {4, 5, 7};

static float of_bits(uint32_t bits) {
  float x;
  memcpy(&x, &bits, sizeof x);
  return x;
}

/* The 58 floats: gains by the ratio of operating to design MHz, gains at 1 to 30 MHz, and the frequencies. */
static void fill(float *floats, const float *parm, float mhz, float design) {
  static const float by_ratio[6] = {18, 20, 19, 20, 22, 21};
  memcpy(floats, parm, 20 * sizeof *parm);
  memcpy(floats + 20, by_ratio, sizeof by_ratio);
  for (int i = 0; i < 30; i++)
    floats[26 + i] = 5 + 0.5f * i;
  floats[56] = mhz;
  floats[57] = design;
}

static void print_preview(const char *title, uint32_t mode, const float *floats) {
  uint32_t out[HF_PREVIEW];
  uint32_t refused = hf_preview(mode, floats, 58, out, HF_PREVIEW);
  if (refused) {
    printf("%s: refused %u\n", title, (unsigned)refused);
    return;
  }
  printf("%s: maximum gain %.2f dBi\n", title, of_bits(out[0]));
  for (int i = 0; i < 3; i++) {
    const char *mark = out[1 + 2 * i] ? "written" : "kept";
    printf("slot %d: %g -> %g, %s\n", slots[i], floats[slots[i]], of_bits(out[2 + 2 * i]), mark);
  }
}

int main(void) {
  float floats[58], again[58];
  uint32_t out[21];
  fill(floats, array, 15, 12);
  print_preview("dipoles, mode 0", 0, floats);
  print_preview("dipoles, mode 1", 1, floats);
  print_preview("dipoles, mode 2", 2, floats);
  fill(again, quadrant, 7.5f, 7);
  print_preview("quadrant, mode 1", 1, again);
  /* After the real call the same bits are written once more. */
  if (hf_maxgain(1, floats, 58, out, 21) == 0)
    for (int i = 0; i < 20; i++)
      floats[i] = of_bits(out[1 + i]);
  print_preview("dipoles again, mode 1", 1, floats);
  floats[56] = 31; /* outside the band */
  print_preview("dipoles at 31 MHz, mode 2", 2, floats);
  return 0;
}
