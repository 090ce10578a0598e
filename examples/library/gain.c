/* The library from C: the maximum gain of a rhombic at 14.2 MHz, then its gain in a few directions. */
#include "hf.h"
#include <stdio.h>
#include <string.h>

/* A leg of 100 m, 20 m above the ground, the angle at the sides 2 x 70 degrees; ground of dielectric constant 10 and 0.01 S/m. */
static const float parm[20] = {0, 7, 10, 0.01f, 0, 100, 20, 70};
static const char *const kinds[] = {"level", "floor", "silence", "refused"};

static float of_bits(uint32_t bits) {
  float x;
  memcpy(&x, &bits, sizeof x);
  return x;
}

/* Mode 2: the maximum gain by MHz, here 17 dBi at 14 MHz and 17.5 at 15. The parameters come back in `set`. */
static uint32_t maximum(float mhz, float *giso, float *set) {
  float floats[58] = {0};
  uint32_t out[21];
  memcpy(floats, parm, sizeof parm);
  floats[26 + 13] = 17;
  floats[26 + 14] = 17.5f;
  floats[56] = floats[57] = mhz;
  uint32_t refused = hf_maxgain(2, floats, 58, out, 21);
  if (refused)
    return refused;
  *giso = of_bits(out[0]);
  for (int i = 0; i < 20; i++)
    set[i] = of_bits(out[1 + i]);
  return 0;
}

static void print_gains(const float *directions, const uint32_t *answers, int pairs) {
  for (int i = 0; i < pairs; i++) {
    uint32_t kind = answers[2 * i], word = answers[2 * i + 1];
    printf("elevation %.0f, azimuth %.0f: %s ", directions[2 * i], directions[2 * i + 1], kinds[kind]);
    if (kind == HF_REFUSED)
      printf("%u\n", (unsigned)word);
    else
      printf("%.2f dBi\n", of_bits(word));
  }
}

int main(void) {
  const float directions[8] = {12, 0, 12, 10, 12, 180, 90, 0}; /* pairs of elevation and azimuth */
  float giso, set[20];
  uint32_t out[4 + 8];
  uint32_t refused = maximum(14.2f, &giso, set);
  if (!refused) {
    printf("maximum gain %.2f dBi\n", giso);
    refused = hf_gains(set, 20, giso, directions, 8, out, 12);
  }
  if (refused) {
    printf("refused %u\n", (unsigned)refused);
    return 1;
  }
  printf("peak at elevation %.0f, azimuth %.0f, found in %u readings\n", of_bits(out[2]), of_bits(out[3]), (unsigned)out[0]);
  print_gains(directions, out + 4, 4);
  printf("relative to the peak, with a maximum gain of 0:\n");
  hf_gains(set, 20, 0, directions, 8, out, 12);
  print_gains(directions, out + 4, 4);
  set[4] = 31; /* outside the band */
  printf("at 31 MHz: refused %u\n", (unsigned)hf_gains(set, 20, giso, directions, 8, out, 12));
  return 0;
}
