/* The gain of HF antennas (CCIR types 1 to 9 and the NTIA curtain): the library `service`. `./install PREFIX` puts it where a compiler
 * finds it (pkg-config's name is `hf`); `tools/staticlib` writes target/staticlib/libservice.a alone. Link it with -lm.
 *
 * Every call is total. What is lent (a pointer, then the number of its elements) must be readable, and writable where it isn't
 * const; two lent pieces of one call must not overlap. That is all that a caller owes. A call keeps no state and no pointer, so
 * threads may call at once. hf_svg_two takes up to 330 kB of the stack, hf_svg 300, hf_dbi and hf_compare 260, hf_planet and hf_plate
 * 240, hf_gains 220, hf_setup 170, the others under 32 (measured on x86-64).
 *
 * A refusal leaves all that is lent as it was. "bits" are a 32-bit float's; a NaN is 7FC00000.
 *
 * Angles are in degrees, and azimuth 0 is where the antenna points. hf_gains and hf_gain take the elevation first, the curtain's calls
 * the azimuth. Every finite angle is answered, as the source answers it:
 * - hf_gains and hf_gain: give azimuths from 0 to 360. Others aren't taken round: a negative one, and one above 540, counts as the
 *   fourth quadrant (the type 1 of examples/ at elevation 12 has 15.28 dBi at 350 and -8.64 at -10). The elevation is cut to a whole
 *   degree, 0 to 90, the azimuth to one of its quadrant: in the fourth it is 360 less the azimuth that is cut, so 350.5 is answered
 *   as 351. A table by truncated degrees isn't equal to asking.
 * - The curtain: azimuths from -360 to 360, with their fractions.
 * - A plate row: its elevation is a whole degree from 0 to 90. */
#ifndef HF_H
#define HF_H

#include <stddef.h>
#include <stdint.h>

#ifdef __cplusplus
extern "C" {
#endif

/* Why a call refuses; the README says more of each. The lowest number that holds is told, unless a call says otherwise. */
enum hf_refusal {
  HF_REFUSAL_RECORD = 1,    /* a station record: its length, edition, spare bits or type */
  HF_REFUSAL_VALUE = 2,     /* a float that isn't finite */
  HF_REFUSAL_TYPE = 3,      /* a type that isn't 1 to 9 */
  HF_REFUSAL_MODE = 4,      /* a mode of the maximum gain that there isn't */
  HF_REFUSAL_BAND = 5,      /* operating or design MHz not at least 1 and below 31 */
  HF_REFUSAL_COUNT = 6,     /* dipoles or elements; counts of an antenna record that no set-up leaves */
  HF_REFUSAL_AIM = 7,       /* a slew, a start direction, a row's elevation */
  HF_REFUSAL_SPACE = 8,     /* what is lent hasn't the right length, or words that no run could leave */
  HF_REFUSAL_PATTERN = 9,   /* a gain met in the search isn't finite */
  HF_REFUSAL_LEVEL = 10,    /* the answer isn't finite */
  HF_REFUSAL_CALENDAR = 11, /* a date or a minute of the day */
  HF_REFUSAL_ROW = 12,      /* a row of a band book, or a kHz outside its span */
  HF_REFUSAL_GAP = 13,      /* a kHz that no row covers */
  HF_REFUSAL_OVERLAP = 14,  /* a kHz that several rows cover */
  HF_REFUSAL_TABLE = 15,    /* a table whose sum isn't the antenna record's */
  HF_REFUSAL_CALL = 16,     /* the board: an id that isn't one, joining while on, leaving while off */
  HF_REFUSAL_FULL = 17,     /* the board: sixteen are on */
  HF_REFUSAL_SPAN = 18      /* a Planet text: a gain over 1,000 in size */
};

/* What an answer is. An answer of 64 bits has its kind in the upper half; a gain of hf_gains has it in a word of its own. Kinds 0 to 2
 * come with the number's bits (or another value, where the call says so), 3 with the refusal, 4 with the refusal times 65,536 plus a
 * place. */
enum hf_kind { HF_LEVEL = 0, HF_FLOOR = 1, HF_SILENCE = 2, HF_REFUSED = 3, HF_REFUSED_AT = 4 };

/* The parts of an answer of 64 bits: its kind and its value; of kind HF_REFUSED_AT the refusal and the place. */
#define HF_KIND(answer) ((uint32_t)((answer) >> 32))
#define HF_WORD(answer) ((uint32_t)(answer))
#define HF_PLACED(answer) (HF_WORD(answer) >> 16)
#define HF_PLACE(answer) (HF_WORD(answer) & 65535)

/* How many elements are lent; a call that is given another number of them answers HF_REFUSAL_SPACE, unless it says otherwise. */
enum hf_size {
  HF_PARM = 20,           /* floats: an antenna's parameters, by docs/STATION.md */
  HF_TABLE = 11284,       /* floats: set-up's table, at least */
  HF_ANTENNA = 998,       /* words: the antenna record that set-up leaves */
  HF_FOUND = 4,           /* words: what the search found */
  HF_ROW = 360,           /* floats: a plate row, azimuths 0 to 359 */
  HF_MAXGAIN_FLOATS = 58, /* parm, gainmax (2 rows of 3), gainmaxb (30), operating MHz, design MHz */
  HF_MAXGAIN_OUT = 21,    /* words: the gain, parm */
  HF_PREVIEW = 7,         /* words: the gain, then slots 4, 5 and 7, each with a mark */
  HF_RECORD = 225,        /* bytes: a station record */
  HF_STATION = 57,        /* words: mode, parm, gainmax, gainmaxb */
  HF_PLATE_INPUT = 237,   /* bytes: a record, MHz, design MHz, elevation */
  HF_PLATE_TEXT = 8192,   /* bytes: the program's text, at least */
  HF_PLANET_TEXT = 8960,  /* bytes: room for any Planet text */
  HF_MISTAKE = 6,         /* words: what a card's mistake is, and where */
  HF_SENTENCE = 256,      /* bytes: the sentence on a card, at least */
  HF_CARD = 8192,         /* bytes: a station's card, at least */
  HF_DBI_TEXT = 12288,    /* bytes: a plate in dBi, at least */
  HF_SVG_TEXT = 65536,    /* bytes: a plate's picture, at least */
  HF_SVG_TWO = 131072,    /* bytes: the picture of two masts, at least */
  HF_COMPARE = 2048,      /* bytes: two masts in words, at least */
  HF_BOOK_ROWS = 64,      /* rows of a band book, at most; a row is three words */
  HF_TIME = 4,            /* words: year, month, day, minute of the day */
  HF_LEVELS_STATE = 66,   /* words: a ring of 64 levels, how many it holds, the next place */
  HF_LEVELS_SHOWN = 3,    /* words: how many, the greatest, the least */
  HF_PAIRS = 64,          /* pairs of azimuth and elevation of hf_curtain_levels, at most */
  HF_BOARD = 6497         /* words: how many are on, sixteen places of an id and a row, what the board shows */
};

/* What a card's first mistake is. */
enum hf_mistake {
  HF_MISTAKE_FIELD = 1,       /* there is no such field */
  HF_MISTAKE_TWICE = 2,       /* given twice */
  HF_MISTAKE_FOREIGN = 3,     /* another type's field */
  HF_MISTAKE_SECOND_GAIN = 4, /* a second maximum gain */
  HF_MISTAKE_TOO_FEW = 5,
  HF_MISTAKE_TOO_MANY = 6,
  HF_MISTAKE_NUMBER = 7,      /* not a number */
  HF_MISTAKE_TOO_LARGE = 8,
  HF_MISTAKE_LIMIT = 9,       /* breaks a refusal's limit */
  HF_MISTAKE_MISSING = 10     /* a field is missing */
};

/* The seasons of frequency sheets. */
enum hf_seasons { HF_SEASON_A = 0, HF_SEASON_B = 1 };

/* In place of a curtain's factor: find it by integration. */
#define HF_INTEGRATE (-99999.0f)

/* An elementary function, bits in and bits out: 0 sin, 1 cos, 2 ln, 3 log10, 4 powf(a, b), 5 atan, 6 sqrt. Returns a NaN outside
 * the function's domain: |a| up to 65536 for sin and cos; positive and finite, subnormal too, for ln and log10; a positive and normal
 * and 0 < b <= 1 for powf; all but a NaN for atan. b counts for powf alone. */
uint32_t hf_leaf(uint32_t which, uint32_t a, uint32_t b);

/* The maximum gain. mode: 0 as parm has it, 1 by the ratio of operating to design MHz, 2 by MHz. floats, HF_MAXGAIN_FLOATS: parm,
 * gainmax (2 rows of 3), gainmaxb (30), operating MHz, design MHz. out, HF_MAXGAIN_OUT words: the gain's bits, then the bits of parm
 * as set-up should be given it. Returns 0 or the refusal (2, 3, 4, 5, 10; 8 first where floats or out hasn't its size). */
uint32_t hf_maxgain(uint32_t mode, const float *floats, size_t floats_len, uint32_t *out, size_t out_len);

/* What hf_maxgain would do with the same mode and floats, which are not written. out, HF_PREVIEW words: the gain's bits, then for
 * slots 4, 5 and 7 of parm in turn 1 where it would be written (also with the bits that it has) or 0 where it would be kept, and
 * the bits that it would hold. Mode 0 writes none of them, mode 1 slots 4 and 7, and slot 5 for type 8, mode 2 slot 4. Returns 0 or
 * hf_maxgain's refusal (8 first where floats or out hasn't its size). */
uint32_t hf_preview(uint32_t mode, const float *floats, size_t floats_len, uint32_t *out, size_t out_len);

/* Sets up the antenna, then answers each direction, a pair of elevation and azimuth; giso is the maximum gain. out, HF_FOUND words
 * as hf_setup has them, then for each pair an hf_kind and the bits of the gain in dBi (or the refusal). Returns 0 or set-up's refusal
 * (2, 3, 5, 6, 7, 9; 8 first where parm isn't HF_PARM, directions_len is odd or out isn't HF_FOUND plus directions_len). */
uint32_t hf_gains(const float *parm, size_t parm_len, float giso, const float *directions, size_t directions_len, uint32_t *out,
                  size_t out_len);

/* Sets up the antenna once, for hf_gain and hf_plate_row: fills the lent table (at least HF_TABLE floats; those past them stay) and
 * the lent antenna record (HF_ANTENNA words; the last is the sum of the table's HF_TABLE floats by their bits, modulo 2^32). out,
 * HF_FOUND words: the search's readings, at most 141, and the bits of the peak, its elevation and azimuth; a peak of 0 is a silent
 * antenna. Returns 0 or the refusal (2, 3, 5, 6, 7, 8, 9); 8 first where parm, antenna or out hasn't its size. */
uint32_t hf_setup(const float *parm, size_t parm_len, float *table, size_t table_len, uint32_t *antenna, size_t antenna_len,
                  uint32_t *out, size_t out_len);

/* The gain at an elevation and an azimuth, of an antenna record and its table; giso is the maximum gain. Any words are answered or
 * refused. A table whose sum isn't the record's is refused as 15, before 10. Only the sum is compared: changes of several floats that
 * cancel in it aren't noticed, nor is another antenna's table with the same sum (types 1 to 4 and 7 to 9 leave all floats 0, and read
 * none of them). Returns an hf_kind and the bits of the gain in dBi, or the refusal (2, 3, 6, 8, 15, 10; 8 first where antenna isn't
 * HF_ANTENNA). */
uint64_t hf_gain(const uint32_t *antenna, size_t antenna_len, const float *table, size_t table_len, float elevation, float azimuth,
                 float giso);

/* Writes the gains of azimuths 0 to 359 at a whole elevation 0 to 90 into row (HF_ROW floats), of an antenna record and its table. Of
 * what kind they are: all HF_SILENCE where the record's peak (hf_setup's out) is 0; else HF_FLOOR where the number is -30 and
 * HF_LEVEL where it is more. Returns kind 0 and the bits of front-to-back, the gain at 0 less the greatest at 90 to 270; or HF_REFUSED
 * and the refusal (2, 3, 6, 7, 8, 15, 10, in this order; 8 first where antenna isn't HF_ANTENNA), with the row as it was; the table's
 * sum is compared as by hf_gain. */
uint64_t hf_plate_row(const uint32_t *antenna, size_t antenna_len, const float *table, size_t table_len, float elevation, float giso,
                      float *row, size_t row_len);

/* The gain of a curtain, whose 20 parameters have places of their own; factor is its normalising factor, or HF_INTEGRATE to find
 * it by integration, some 3 ms. Returns HF_LEVEL and the bits of the level in dBi, which has no floor, or HF_REFUSED and the refusal
 * (2, 5, 7; 10 where the pattern isn't 0 and times the factor is 0 or not finite, as with a factor of 0; 8 first where parm isn't
 * HF_PARM). */
uint64_t hf_curtain(const float *parm, size_t parm_len, float azimuth, float elevation, float factor);

/* The factor that a curtain's integral finds, some 3 ms. Asked with it, hf_curtain answers the bits that it answers with HF_INTEGRATE,
 * in every direction. Returns kind 0 and the factor's bits, or HF_REFUSED and the refusal: 2, 5, 7 of the station; 10 where the factor
 * isn't finite (an integral of 0, as of a curtain without bays; hf_curtain with HF_INTEGRATE still answers -1000 where the pattern is
 * 0); 8 first where parm isn't HF_PARM. */
uint64_t hf_curtain_factor(const float *parm, size_t parm_len);

/* The levels of a curtain at up to HF_PAIRS directions by one factor: directions holds pairs, the azimuth first, and levels a float
 * for each pair. With HF_INTEGRATE the integral is worked out once, also where there is no pair; each level has the bits that
 * hf_curtain answers there. Returns kind 0 and the readings of the pattern, 16,471 for the integral (none for a factor that is given)
 * and one a pair; or HF_REFUSED and the refusal, with the levels as they were. Tested in this order: 2, 5, 7 of the station and the
 * factor; 8 for more than HF_PAIRS pairs, an odd number of floats or levels that aren't one a pair; then the pairs in turn, of which
 * the first that is refused (2, 10) refuses the lot under its number. 8 before all of them where parm isn't HF_PARM. */
uint64_t hf_curtain_levels(const float *parm, size_t parm_len, float factor, const float *directions, size_t directions_len,
                           float *levels, size_t levels_len);

/* Which slot of parm set-up's refusal is about: HF_REFUSED_AT with the refusal (2, 3, 5, 6, 7) and the slot, 0 to 19: the lowest
 * number, and then the lowest slot that breaks it. 0 where no slot breaks a limit; set-up may still refuse with 8 or 9. HF_REFUSED and
 * 8 where parm isn't HF_PARM. docs/STATION.md has the slots by type. */
uint64_t hf_why(const float *parm, size_t parm_len);

/* The same of a curtain's limits (2, 5, 7). */
uint64_t hf_curtain_why(const float *parm, size_t parm_len);

/* A station record of HF_RECORD bytes, of edition 0 or 1, into HF_STATION words: the mode, then the bits of parm (20), gainmax (6) and
 * gainmaxb (30). The edition is the first byte's upper two bits, and edition 1's first byte is 64 + 16 * mode + type, where a curtain
 * (mode 3) has type 10. Returns 0 or the refusal (1, 2; 8 first where words isn't HF_STATION): 1 also for a type that isn't slot 1
 * rounded. */
uint32_t hf_read(const uint8_t *record, size_t record_len, uint32_t *words, size_t words_len);

/* The same words into a record of HF_RECORD bytes, in edition 0 or 1. Returns 0 or the refusal (1 for another edition, 2, 3, 4, 8; 8
 * first where words isn't HF_STATION). 3: edition 1 has a type in it, so in modes 0 to 2 slot 1 must round to 1 to 9; edition 0 holds
 * any station. */
uint32_t hf_write(uint32_t edition, const uint32_t *words, size_t words_len, uint8_t *record, size_t record_len);

/* The program `plate`: from its whole input (HF_PLATE_INPUT bytes) to its whole text. Returns the text's length; 0 with nothing
 * written where text is under HF_PLATE_TEXT bytes. A refusal is a text: "refused 6\n". */
size_t hf_plate(const uint8_t *input, size_t input_len, uint8_t *text, size_t text_len);

/* The same input as MSI Planet pattern text, for coverage planners: lines of NAME, FREQUENCY and GAIN, then HORIZONTAL 360 with a
 * line of angle and loss in dB for each azimuth at the elevation given, and VERTICAL 360 with the angles from 0 ahead over 90 above
 * to 180 behind, and 99.99 for those below ground. Gains are taken in hundredths, halves away from zero; a loss is what the entry has
 * less than the greatest of its part, and above ground it may be more than 99.99. Returns kind 0 and the text's length, with the
 * bytes past it as they were; or HF_REFUSED and the refusal, with the text as it was. Tested in this order: what hf_plate refuses (1
 * to 7, 9, 10); 10 for a vertical gain that isn't finite; 18 for a gain over 1,000 in size, in either part; 8 where text is shorter
 * than the text is, which never has more than HF_PLANET_TEXT bytes. */
uint64_t hf_planet(const uint8_t *input, size_t input_len, uint8_t *text, size_t text_len);

/* A card that people type (docs/STATION.md has its fields): its text of any bytes into the station's HF_PLATE_INPUT bytes. Returns 0;
 * or 1 with the card's first mistake in HF_MISTAKE words: what it is (enum hf_mistake), the line, from 1, the field's number in the
 * order of docs/STATION.md, from 1, 0 for none, which of the line's numbers it is, from 1, 0 for none, the earlier line that it names
 * and the refusal whose limit it breaks (0 for none); or 8 where a slice has another length. What isn't written stays. */
uint32_t hf_card(const uint8_t *text, size_t text_len, uint8_t *station, size_t station_len, uint32_t *mistake, size_t mistake_len);

/* What hf_card has to say of a card, as a sentence without a line feed: its first mistake, such as "4: dipoles: 65 is over 64 (refused 6,
 * count)", or a remark on a good card. Returns kind 0 and its length, 0 where there is nothing to say; or HF_REFUSED and 8 where out is
 * under HF_SENTENCE bytes. */
uint64_t hf_card_sentence(const uint8_t *text, size_t text_len, uint8_t *out, size_t out_len);

/* The card of a station's HF_PLATE_INPUT bytes, which hf_card reads back to the same bytes. Returns kind 0 and its length; or HF_REFUSED
 * and 8 where out is under HF_CARD bytes, 1 where these aren't a station's bytes or no card makes them (a record of edition 1, a slot
 * that its type doesn't read and that isn't 0). */
uint64_t hf_card_of(const uint8_t *station, size_t station_len, uint8_t *out, size_t out_len);

/* The plate that people see, of the program's input, HF_PLATE_INPUT bytes. A curtain (mode 3) has one too, 360 levels with one factor:
 * the record's for slot 4's whole MHz, or where that is HF_INTEGRATE the integral's. Numbers are hundredths of dBi, halves away from
 * zero. Each call returns its text's length, with the bytes past it as they were; 0 with nothing written where text is shorter than
 * the least that is named. A refusal is a text: the numbers of hf_plate, for a curtain 1, 2, 5, 7, 10, and 18 for a gain over 1,000 in
 * size. */

/* Lines of azimuth, gain in dBi with two decimals, and level, floor or silence: "0 16.83 level\n"; or "refused 6\n". HF_DBI_TEXT. */
size_t hf_dbi(const uint8_t *input, size_t input_len, uint8_t *text, size_t text_len);

/* The plate as a picture, SVG: north up, rings every 10 dB. Where fold isn't 0 and the antenna keeps the mirror law (types 1 to 4 with
 * a slew that truncates to 0, types 5 and 6), what is folded over is drawn in grey. A silence is an empty plate with the word, a
 * refusal its sentence. HF_SVG_TEXT. */
size_t hf_svg(const uint8_t *input, size_t input_len, uint32_t fold, uint8_t *text, size_t text_len);

/* Two masts on one plate, with a legend and a table: peak, beam at 3 dB, front-to-back, in how many azimuths each leads; or the
 * picture of the first refusal among them. HF_SVG_TWO. */
size_t hf_svg_two(const uint8_t *first, size_t first_len, const uint8_t *second, size_t second_len, uint8_t *text, size_t text_len);

/* Two masts in words, six lines: which leads at the azimuth of the base (0 to 359), each one's peak and beam, what lies behind, and in
 * how many azimuths each leads; or a line for each that is refused, "A: refused 6\n", or "base: refused 7\n" first. HF_COMPARE. */
size_t hf_compare(const uint8_t *first, size_t first_len, const uint8_t *second, size_t second_len, uint32_t base, uint8_t *text,
                  size_t text_len);

/* A band book: rows of low kHz, high kHz (not included) and station id, three words each, in any order. A good book has at most
 * HF_BOOK_ROWS rows and covers every whole kHz from 2,000 up to, not including, 30,000 just once. Returns 0 for a good book; or
 * HF_REFUSED_AT with the refusal and its place: 12 with the first bad row, counted from 0 (low not below
 * high, low under 2,000, high over 30,000, an id that isn't 1 to 65,535, a 65th row), else 13 (no row covers it) or 14 (several do)
 * with the lowest bad kHz; HF_REFUSED and 8 first of all where rows_len isn't a multiple of 3. */
uint64_t hf_book(const uint32_t *rows, size_t rows_len);

/* The station for a kHz. Returns the id of the one row that covers it; what hf_book returns where the book isn't good; or else
 * HF_REFUSED and 12 where the kHz isn't 2,000 to 29,999. The book is judged at each call: some 7 microseconds for 64
 * rows. */
uint64_t hf_station_for(const uint32_t *rows, size_t rows_len, uint32_t khz);

/* The season at a time in UTC: a year from 2000 to 2099, a month from 1, a day from 1, a minute of the day from 0 to 1439. A runs
 * from 01:00 on the last Sunday of March, B from 01:00 on the last Sunday of October. Returns HF_SEASON_A or HF_SEASON_B, or
 * HF_REFUSED and 11 for a date outside those years or not in its month, or a minute above 1439. */
uint64_t hf_season(uint32_t year, uint32_t month, uint32_t day, uint32_t minute);

/* The next change of season, always later than the time given, into out (HF_TIME words). Returns 1 with out written; 0 where there
 * is none, from 25 October 2099, 01:00, on; or HF_REFUSED and 11 as in hf_season, or 8 first where out isn't HF_TIME
 * words. */
uint64_t hf_next_season(uint32_t year, uint32_t month, uint32_t day, uint32_t minute, uint32_t *out, size_t out_len);

/* Whether a service is open at a minute of the day: it is from its first minute on, and no longer at its end; where the end comes
 * before the first it runs past midnight, and with both equal all day. Returns 1 for open, 0 for shut, or HF_REFUSED and
 * 11 where one of the three is above 1439. */
uint64_t hf_open(uint32_t first, uint32_t end, uint32_t minute);

/* One level more for the last 64 field strengths of a run. state is the caller's to keep: all 0 at the start, afterwards as the last
 * record left it (a ring of 64 levels' bits, how many it holds, the next place 0 to 63). out: how many of the last 64 levels there
 * are, then the bits of the greatest and of the least; where +0 and -0 tie, those of the one received earlier. Returns 0 or the
 * refusal: 8 where out isn't HF_LEVELS_SHOWN; 2 for a level that isn't finite, which doesn't count; 8 where state isn't
 * HF_LEVELS_STATE or has words that no run could leave. */
uint32_t hf_levels_record(uint32_t *state, size_t state_len, float level, uint32_t *out, size_t out_len);

/* The same without a level; out is 0, 0, 0 where none was received. Returns 0 or 8. */
uint32_t hf_levels(const uint32_t *state, size_t state_len, uint32_t *out, size_t out_len);

/* The exercise board: which of at most sixteen stations on the air is the strongest at each of 360 azimuths. A board is HF_BOARD
 * words that the caller keeps: how many are on; sixteen places of 361 words, an id and the bits of its row, the first to join first,
 * a free place all 0; then what the board shows, the bits of 360 numbers and after them the 360 ids. The calls on it return 8 where
 * board isn't HF_BOARD words or they are words that no run of hf_board_empty, hf_board_join and hf_board_leave leaves. */

/* Nobody is on. Returns 0, or 8 where board isn't HF_BOARD words; any words will do. */
uint32_t hf_board_empty(uint32_t *board, size_t board_len);

/* A station comes on the air with its id, 1 to 65,535, and its plate row of 360 finite numbers. Returns 0 or the refusal, tested in
 * this order: 2; 8, also where row isn't HF_ROW; 16 another id, or one that is on; 17 sixteen are on. */
uint32_t hf_board_join(uint32_t *board, size_t board_len, uint32_t id, const float *row, size_t row_len);

/* The station of this id goes off the air, and its place is free. Returns 0 or the refusal (8; 16 where it isn't on). */
uint32_t hf_board_leave(uint32_t *board, size_t board_len, uint32_t id);

/* The greatest number at each azimuth of those on, also below -30, and the id that has it, the lowest among equals (+0 and -0 are
 * equal; the number has the bits of the station shown); -30 and 0 where nobody is on. Returns 0, or 8, also where numbers or ids
 * isn't HF_ROW. */
uint32_t hf_board_show(const uint32_t *board, size_t board_len, float *numbers, size_t numbers_len, uint32_t *ids, size_t ids_len);

#ifdef __cplusplus
}
#endif

#endif
