/* The words of a store's hash key. Who includes it defines _DEFAULT_SOURCE before, for getentropy. */
#include <stdint.h>
#include <time.h>
#include <unistd.h>
#ifdef __APPLE__
#include <sys/random.h>
#endif

/* The words of a hash key: the system's random bytes. Where it gives none, the clock and an address, which differ from run to
 * run, and which a stranger may guess: then keys can be chosen that take longer to look for. No memory is taken. */
static void draw_words(uint64_t words[2]) {
    if (getentropy(words, 2 * sizeof *words)) {
        words[0] = (uint64_t)time(NULL) * 0x9E3779B97F4A7C15;
        words[1] = ((uint64_t)clock() ^ (uint64_t)(uintptr_t)words) * 0xBF58476D1CE4E5B9;
    }
}
