/*
 * The 16 KiB of rules and marks of a function, gone through once for every packet: looked at for a bit that is in both, and
 * only read. A board has one function or two.
 *
 * ./benchmark compiles this with the kit's clang and -O3, as the kit compiles the library, so that no compiler makes a
 * difference. No header is needed, for the kit has none. Both are plain loops without a way out before their end, of which
 * a compiler makes vectors; what they give is of use only if every byte was looked at, so none can be left out.
 */
typedef unsigned char byte;
typedef unsigned long long word;

enum { SPACE = 4096 };

static byte both(const byte *rules, const byte *marks)
{
    byte found = 0;
    for (int at = 0; at < SPACE; at++)
        found |= rules[at] & marks[at];
    return found;
}

/* Whether a bit is in the rules and in the marks of a space: 8,192 pairs of bytes. */
int look_overlap(const byte *ordinary_rules, const byte *ordinary_marks, const byte *trusted_rules, const byte *trusted_marks)
{
    return (both(ordinary_rules, ordinary_marks) | both(trusted_rules, trusted_marks)) != 0;
}

/* Eight sums without carries, each of every eighth word: so that no reading has to wait for the sum before it. */
enum { SUMS = 8 };

static void add(word sums[SUMS], const byte *bytes)
{
    word read[SUMS];
    for (int at = 0; at < SPACE; at += (int)sizeof read) {
        __builtin_memcpy(read, bytes + at, sizeof read);
        for (int n = 0; n < SUMS; n++)
            sums[n] ^= read[n];
    }
}

/* The same bytes read once, as quickly as was found: all of them, each in its place of a word, added without carries. */
word look_read(const byte *ordinary_rules, const byte *ordinary_marks, const byte *trusted_rules, const byte *trusted_marks)
{
    word sums[SUMS] = {0}, all = 0;
    add(sums, ordinary_rules);
    add(sums, ordinary_marks);
    add(sums, trusted_rules);
    add(sums, trusted_marks);
    for (int n = 0; n < SUMS; n++)
        all ^= sums[n];
    return all;
}
