/* A curtain in sixty-four directions from one integral: eight azimuths at each of eight elevations. The curtain is that of curtain.c:
 * four bays of four stacked half-wave dipoles before a screen, at 9.6 MHz, designed for 9.5. */
#include "hf.h"
#include <math.h>
#include <stdio.h>

static const float parm[HF_PARM] = {0, 0, 0, 0, 9.6f, 4, 4, 9.5f, -0.5f, -0.5f, -0.5f, -0.5f, -0.25f, 4, 0};

int main(void) {
  float directions[2 * HF_PAIRS], levels[HF_PAIRS] = {0};
  for (int k = 0; k < HF_PAIRS; k++) { /* a pair is an azimuth, then an elevation */
    directions[2 * k] = 10.0f * (float)(k % 8);
    directions[2 * k + 1] = 3.0f + 4.0f * (float)(k / 8);
  }
  uint64_t answer = hf_curtain_levels(parm, HF_PARM, HF_INTEGRATE, directions, 2 * HF_PAIRS, levels, HF_PAIRS);
  if (HF_KIND(answer) == HF_REFUSED) {
    printf("refused %u\n", (unsigned)HF_WORD(answer));
    return 1;
  }
  printf("%u readings of the pattern; dBi by elevation, at azimuths 0 to 70\n", (unsigned)HF_WORD(answer));
  for (int row = 0; row < 8; row++) {
    printf("%2.0f:", directions[16 * row + 1]);
    for (int k = 8 * row; k < 8 * row + 8; k++)
      printf(" %6.2f", levels[k]);
    printf("\n");
  }
  directions[20] = INFINITY;
  answer = hf_curtain_levels(parm, HF_PARM, 1, directions, 2 * HF_PAIRS, levels, HF_PAIRS);
  printf("pair 10 at no azimuth: refused %u, and every level as it was\n", (unsigned)HF_WORD(answer));
  return 0;
}
