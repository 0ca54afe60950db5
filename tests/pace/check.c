/* check ROUNDS CLUMPS: makes a pool of 32,768 bytes, reserves CLUMPS bodies of 64 bytes in it (0 to 128), and has it checked ROUNDS times.
 * Ends with 1 if an answer isn't DONE. `pace` links it with the library of two builds and times both. */
#include <stdlib.h>

#include "syrinthoa.h"

static uint8_t image[32768] __attribute__((aligned(4096)));

int main(int count, char **words) {
    if (count != 3) return 2;
    uint64_t refused = syrinthoa_create(image, sizeof image, SYRINTHOA_LASTING).answer;
    for (long left = atol(words[2]); left > 0; left--)
        refused |= syrinthoa_reserve(image, sizeof image, 64, SYRINTHOA_LASTING).answer;
    for (long left = atol(words[1]); left > 0; left--) refused |= syrinthoa_check(image, sizeof image).answer.answer;
    return refused != 0;
}
