# Puts counters into a copy of tests/plain/steps.c. It then prints, after each row, what has been read so far: symbols of upper
# parts by the substitutions for z, zeros among them, symbols by the updates that add and by those that exchange, and zeros that
# the searches for leading degrees passed over.
/^#include "code.h"$/a\
\
int printf(const char *format, ...);\
\
/* by the start, by the substitutions, by the updates: what is not zero, and zeros */\
static size_t reads[3][2], *reading = reads[0], exchanged, passed;
s/^\( *\)to\[x\] ^= times\[from\[x - shift\]\];$/\1reading[from[x - shift] == 0]++, to[x] ^= times[from[x - shift]];/
s/^\( *\)uint8_t old = f\[x\];$/\1uint8_t old = f[x];\n\1exchanged++;/
s/^\( *\)degree--;$/\1degree--, passed++;/
s/^\( *\)substitute(code, work, s, w);$/\1reading = reads[1], substitute(code, work, s, w);/
s/^\( *\)update(code, work, i, &pairs\[i\], w);$/\1reading = reads[2], update(code, work, i, \&pairs[i], w);/
$i\
    reading = reads[0];\
    printf("%d %d %d %d %d\\n", (int)(reads[1][0] + reads[1][1]), (int)reads[1][1], (int)(reads[2][0] + reads[2][1]),\
           (int)exchanged, (int)passed);
