/*
 * galz_physical of the header, over every volume's numbers: every L from 1 to 96, every pair of defective cylinders that is legal (none; d1 from 1 to L; d1, and
 * d2 from d1+1 to L+1), and every c. Beside it a walk that counts good cylinders: from physical cylinder 1 upward those that are neither d1 nor d2, and data
 * cylinder c stands on the c-th. A c outside 1 to L, and a refusal's number, give 0. Says what was compared, or the first difference.
 */
#include "../../../include/galzeranta.h"

#include <stdio.h>

static unsigned long long compared;

/* the number of a judgement, as the header says where its parts are; I, D and S are the least that there may be, and play no part */
static galz_u64 judged(unsigned l, unsigned d1, unsigned d2) { return l | 8u << 8 | 1u << 16 | 1u << 28 | (galz_u64)d1 << 32 | (galz_u64)d2 << 40; }

static int is(galz_u64 answer, galz_u64 c, unsigned right)
{
	compared++;
	if (galz_physical(answer, c) == right)
		return 1;
	printf("L=%u d1=%u d2=%u c=%llu: %u, not %u\n", galz_cylinders(answer), galz_defect_1(answer), galz_defect_2(answer), c, galz_physical(answer, c),
	       right);
	return 0;
}

/* every c of a volume, by one walk */
static int inside(unsigned l, unsigned d1, unsigned d2)
{
	galz_u64 answer = judged(l, d1, d2);
	unsigned c = 0;
	for (unsigned n = 1; c < l; n++)
		if (n != d1 && n != d2 && !is(answer, ++c, n))
			return 0;
	return 1;
}

/* what is no data cylinder of it, also where a cut to fewer bits would make it one */
static int outside(unsigned l, unsigned d1, unsigned d2)
{
	static const galz_u64 more[] = { 1ULL << 8, 1ULL << 16, 1ULL << 32, 1ULL << 63, ~0ULL };
	galz_u64 answer = judged(l, d1, d2);
	if (!is(answer, 0, 0) || !is(answer, l + 1, 0) || !is(answer, l + 2, 0))
		return 0;
	for (unsigned i = 0; i < sizeof more / sizeof *more; i++)
		if (!is(answer, more[i], 0) || !is(answer, (more[i] & ~255ULL) + 1, 0))
			return 0;
	return 1;
}

/* the same bits below every other code */
static int refused(unsigned l)
{
	for (galz_u64 code = 1; code < 256; code++)
		if (!is(code << 56 | judged(l, 1, 2), 1, 0))
			return 0;
	return 1;
}

static int pair(unsigned l, unsigned d1, unsigned d2) { return inside(l, d1, d2) && outside(l, d1, d2); }

int main(void)
{
	for (unsigned l = 1; l <= 96; l++) {
		if (!pair(l, 0, 0) || !refused(l))
			return 1;
		for (unsigned d1 = 1; d1 <= l; d1++) {
			if (!pair(l, d1, 0))
				return 1;
			for (unsigned d2 = d1 + 1; d2 <= l + 1; d2++)
				if (!pair(l, d1, d2))
					return 1;
		}
	}
	printf("%llu cylinders compared\n", compared);
	return 0;
}
