/* A path traced from the mast, as a planning service does it: the antenna is set up once, then asked direction by direction, some
 * tenths of a microsecond each. The mast is 4 by 4 dipoles before a screen at 15 MHz, pointing at 60 degrees; the path goes 3,200 km
 * at a bearing of 50 degrees, in one to four hops by a layer 300 km up. */
#include "hf.h"
#include <math.h>
#include <stdio.h>
#include <string.h>

static const double degrees = 57.29577951308232, earth = 6371, layer = 300, distance = 3200, bearing = 50, pointing = 60;

/* Type 1; docs/STATION.md says what each slot is. The mast's maximum gain is 21.36 dBi. */
static const float parm[HF_PARM] = {0, 1, 10, 0.01f, 15, 4, 4, 12, 0.5f, 0, 0.25f, 0.05f, 2, 7};
static const float giso = 21.36f;
static const char *const kinds[] = {"level", "floor", "silence"};

/* What set-up leaves and every later call reads: both belong together. */
static uint32_t antenna[HF_ANTENNA];
static float table[HF_TABLE];

static float of_bits(uint32_t bits) {
  float x;
  memcpy(&x, &bits, sizeof x);
  return x;
}

/* The elevation at which a path of so many hops leaves the ground. */
static double take_off(int hops) {
  double half = distance / hops / 2 / earth;
  return degrees * atan((cos(half) - earth / (earth + layer)) / sin(half));
}

/* The azimuth off the mast's direction, brought into 0 to 360: the library doesn't take a negative one round. */
static double azimuth(void) {
  return fmod(bearing - pointing + 360, 360);
}

static void print_gain(int hops) {
  double elevation = take_off(hops);
  uint64_t answer = hf_gain(antenna, HF_ANTENNA, table, HF_TABLE, (float)elevation, (float)azimuth(), giso);
  printf("hops %d, elevation %.1f, azimuth %.0f: ", hops, elevation, azimuth());
  if (HF_KIND(answer) == HF_REFUSED)
    printf("refused %u\n", (unsigned)HF_WORD(answer));
  else
    printf("%s %.2f dBi\n", kinds[HF_KIND(answer)], of_bits(HF_WORD(answer)));
}

/* The row's greatest number and its azimuth; the peak isn't 0, so a number is a floor just where it is -30. */
static void print_row(float elevation) {
  static float row[HF_ROW];
  int best = 0, floors = 0;
  uint64_t answer = hf_plate_row(antenna, HF_ANTENNA, table, HF_TABLE, elevation, giso, row, HF_ROW);
  if (HF_KIND(answer) == HF_REFUSED) {
    printf("row: refused %u\n", (unsigned)HF_WORD(answer));
    return;
  }
  for (int v = 0; v < HF_ROW; v++) {
    floors += row[v] == -30;
    best = row[v] > row[best] ? v : best;
  }
  printf("plate at elevation %.0f: %.2f dBi at azimuth %d, front-to-back %.2f dB, floors %d\n", elevation, row[best], best,
         of_bits(HF_WORD(answer)), floors);
}

/* The slot that a mistyped card is refused for. */
static void print_why(void) {
  float mistyped[HF_PARM];
  memcpy(mistyped, parm, sizeof parm);
  mistyped[5] = 65;
  uint64_t why = hf_why(mistyped, HF_PARM);
  if (HF_KIND(why) == HF_REFUSED_AT)
    printf("65 dipoles: refused %u, slot %u\n", (unsigned)HF_PLACED(why), (unsigned)HF_PLACE(why));
}

int main(void) {
  uint32_t found[HF_FOUND];
  uint32_t refused = hf_setup(parm, HF_PARM, table, HF_TABLE, antenna, HF_ANTENNA, found, HF_FOUND);
  if (refused) {
    printf("refused %u\n", (unsigned)refused);
    return 1;
  }
  printf("peak at elevation %.0f, azimuth %.0f, found in %u readings\n", of_bits(found[2]), of_bits(found[3]), (unsigned)found[0]);
  for (int hops = 1; hops <= 4; hops++)
    print_gain(hops);
  print_row(8);
  print_why();
  return 0;
}
