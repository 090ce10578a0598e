/* A curtain: its factor is worked out once, then each direction costs less than a microsecond. Four bays of four stacked half-wave
 * dipoles before a screen, at 9.6 MHz, designed for 9.5; docs/STATION.md says what each slot is. */
#include "hf.h"
#include <stdio.h>
#include <string.h>

/* Lengths below 0 are in wavelengths; excitation mode 4 feeds the two lower pairs of stacks. */
static const float parm[HF_PARM] = {0, 0, 0, 0, 9.6f, 4, 4, 9.5f, -0.5f, -0.5f, -0.5f, -0.5f, -0.25f, 4, 0};

static float of_bits(uint32_t bits) {
  float x;
  memcpy(&x, &bits, sizeof x);
  return x;
}

static void print_level(const char *head, uint64_t answer) {
  if (HF_KIND(answer) == HF_REFUSED)
    printf("%s: refused %u\n", head, (unsigned)HF_WORD(answer));
  else
    printf("%s: %.2f dBi\n", head, of_bits(HF_WORD(answer)));
}

int main(void) {
  uint64_t found = hf_curtain_factor(parm, HF_PARM);
  float factor = of_bits(HF_WORD(found)), slewed[HF_PARM];
  char head[64];
  if (HF_KIND(found) == HF_REFUSED) {
    printf("refused %u\n", (unsigned)HF_WORD(found));
    return 1;
  }
  printf("factor %.4f\n", factor);
  for (int azimuth = 0; azimuth <= 180; azimuth += 20) { /* the azimuth comes first in the curtain's calls */
    snprintf(head, sizeof head, "azimuth %d, elevation 9", azimuth);
    print_level(head, hf_curtain(parm, HF_PARM, (float)azimuth, 9, factor));
  }
  print_level("the first again, by the integral", hf_curtain(parm, HF_PARM, 0, 9, HF_INTEGRATE));
  memcpy(slewed, parm, sizeof parm);
  slewed[14] = 100;
  uint64_t why = hf_curtain_why(slewed, HF_PARM);
  if (HF_KIND(why) == HF_REFUSED_AT)
    printf("slewed by 100 degrees: refused %u, slot %u\n", (unsigned)HF_PLACED(why), (unsigned)HF_PLACE(why));
  return 0;
}
