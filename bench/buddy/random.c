#include "random.h"

random_state random_of(uint64_t seed, uint64_t number)
{
    random_state r = {seed * 0x9e3779b97f4a7c15u + number * 0xbf58476d1ce4e5b9u + 1};
    int i;
    if (r.word == 0) {
        r.word = 1;
    }
    for (i = 0; i < 8; i++) {
        draw(&r);
    }
    return r;
}

uint64_t draw(random_state *r)
{
    r->word ^= r->word >> 12;
    r->word ^= r->word << 25;
    r->word ^= r->word >> 27;
    return r->word * 0x2545f4914f6cdd1du;
}

int below(random_state *r, int count)
{
    return count > 0 ? (int)((draw(r) >> 33) % (uint64_t)count) : 0;
}

int between(random_state *r, int least, int most)
{
    return least + below(r, most - least + 1);
}

int chance(random_state *r, int hits, int all)
{
    return below(r, all) < hits;
}
