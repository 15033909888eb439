// The game round that every program of this folder plays, as crates/rounds does: atomically one line of 64 bytes to each of two pages of 16, or,
// with -DLARGE, of 1,024.
// A pair of pages stays for so many rounds; the first page's line is one of 24, as meters are, the second's the next of 64, as a history is.
#include <stdint.h>

#ifdef LARGE
enum { PAGES = 1024, SLOTS = 16, PLACES = 256 };
#else
enum { PAGES = 16, SLOTS = 4, PLACES = 64 };
#endif
enum { LINES = 64, WORDS = 8 };

// A line of eight equal words.
struct put {
    unsigned page, line;
    uint64_t word[WORDS];
};

// The file that the store lies in.
extern char path[4096];

// What a store has to offer. Opened, its pages are zero; play makes both puts or neither; bytes_stored counts what reached the store since
// it was opened, where the program can tell, else 0.
void open_store(void);
void play(const struct put put[2]);
void show(unsigned page, unsigned line, uint64_t word[WORDS]);
uint64_t bytes_stored(void);
void close_store(void);
