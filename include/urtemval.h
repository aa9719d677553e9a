/*
 * Urtemval: how far along a proposed move two pieces of cloth or skin may go.
 *
 * Four points, their displacements and a split make a pair. With split 2, points 0 and 1 are one edge and points 2
 * and 3 the other; with split 3, points 0 to 2 are a face and point 3 is a vertex. docs/01-scope.md has the exact
 * rules, docs/GUARANTEES.md what is promised and what is not.
 *
 * Of every function here:
 * - It answers whatever numbers it is given: what is not allowed is refused, by the first field of the answer.
 * - A pointer must not be null, must point to a whole UrtemvalPoints, aligned as C aligns it, and what it points to
 *   must not overlap what another argument of the same call points to.
 * - It is pure: it keeps no state, reads only its arguments, writes only its answer and what it is lent, allocates
 *   nothing, calls nothing and always returns. It may be called from many threads at once.
 * - It counts on the processor's usual setting for floats, with which every program starts: rounding to nearest,
 *   numbers too small to be normal not flushed to zero (MXCSR: RC = 0, FTZ = 0, DAZ = 0), exceptions masked. A thread
 *   that has changed it, as -ffast-math does at the start of a program, has to set it back before a call.
 * - A NaN is a NaN: its sign and its other bits are not told apart.
 *
 * What a solver does with a pair: two edges, or a face and a corner, that are near each other and share no corner.
 * 1. Centre: subtract the mean of the four points from each of them. Displacements are differences, and stay.
 * 2. Scale points and displacements by urtemval_scale_pair, whose answer is the factor f. Where it is refused by 4 or
 *    5, or f * offset or f * clearance is above 2^20, go on with the pair before scaling, and f = 1.
 * 3. Ask for the safe time with f * offset, f * clearance, the same max_t, and u_max taken from the displacements as
 *    they are then: fmaxf(norm, 0x1p-60f), with the norm of urtemval_max_relative_norm.
 * 4. Cut the whole move by the smallest time of all pairs, and move each point to x + t * dx.
 * Steps 1 and 2 may be left out. They keep the computed distance near the exact one where coordinates are large or
 * tiny beside it. Nothing does so for nearly parallel edges and thin faces, which can pass through each other unseen,
 * between two tried times (docs/GUARANTEES.md: how often that was seen, and with which clearance it was not).
 *
 * After each answer:
 * - contact, clear: the time is the pair's.
 * - budget: the time is the pair's, as after contact, and often there is more room. The next move goes on from there,
 *   or a second question from the moved points with what is left of the move. Budgets come where steps are short: u_max
 *   is far above the pair's own speed, or the clearance is tiny beside the way that the pair makes near park. After
 *   urtemval_safe_time_allowing with a small allowance, ask again with a larger one: the time does not fall.
 * - budget at 0: most often the pair starts at dip or nearer, where steps are zero, unless coordinates are coarse
 *   beside the distance. It cannot move, not even apart, and asking again answers the same. Ask with a smaller
 *   clearance for this pair: at most half of its distance less the offset keeps the start beyond park, rounding
 *   aside, and what is promised is promised with that park.
 * - touching: the time is 0 and stays 0. Part the pair by other means, or leave it out and answer for it yourself.
 * - refused by 1: a point, a displacement or a limit is NaN or infinite. Mend what made it, and do not move by it.
 * - refused by 2: the split is neither 2 nor 3, or a number is outside its range. Coordinates beyond 2^20: centre the
 *   pair, or take larger units. u_max below 2^-60: step 3 has the maximum. An allowance is 1 to 4096.
 * - refused by 4 or 5: see step 2; points and displacements are as they were.
 * - refused by 6, 7, 8 or 9 (roots only): no root is known, which does not say that there is none.
 * A refused call has no time. The field is zero, which as a time stands still: safe, and no answer.
 *
 * What is easily missed:
 * - One time is for the whole pair: what is said of it holds where its four points all move by the same t. Cutting each
 *   point by the smallest time of its own pairs is not covered: a sheet that a floor stops at 0.4, and a point that
 *   falls with the sheet and is clear of it at 1, end with the point below the sheet.
 * - Pairs whose two sides share a point have distance 0, up to rounding: they are answered as touching, or with an
 *   offset of 0 sometimes with the budget at 0. Leave them out.
 * - Too small a u_max lets pairs pass through each other, and they are answered as clear. One that was taken before the
 *   scaling is too small where the factor is above 1.
 * - x + t * dx has two roundings, of the product and of the sum. A compiler may fuse the two unless it is told not to
 *   (-ffp-contract=off); then the points are others than those that the answer is about.
 * - Contact stops just beyond park = offset + clearance; steps aim at dip = offset + clearance / 2. At the end of a
 *   clear move, or of a move that another pair's time cuts, a pair may be anywhere from dip up (rounding aside), and
 *   the next call may find it in the band: beyond the offset, and not beyond park.
 * - A pair that starts in the band is held to its first distance in place of park: no time that is tried may be nearer
 *   than the start. Above dip it walks, apart or along, and where it comes nearer it stops, most often near 0. A short
 *   move, which no step ends within, is clear, and may bring it down to dip. At dip or nearer, see budget at 0.
 *
 * The archive liburtemval.a holds code for x86-64 Linux, needs no other library, and may be linked into executables and
 * shared libraries, position-independent or not.
 */
#ifndef URTEMVAL_H
#define URTEMVAL_H

/* The version of this header, and of the archive that was made beside it. */
#define URTEMVAL_VERSION "0.5.0"
#define URTEMVAL_VERSION_MAJOR 0
#define URTEMVAL_VERSION_MINOR 5
#define URTEMVAL_VERSION_PATCH 0

#include <float.h>
#include <stddef.h>
#include <stdint.h>

#if !defined(__x86_64__) || !defined(__linux__)
#error "urtemval: the archive liburtemval.a holds code for x86-64 Linux, and this compiler's target is another"
#endif

#ifdef __cplusplus
#if __cplusplus >= 201103L
#define URTEMVAL_NOEXCEPT noexcept
#else
#define URTEMVAL_NOEXCEPT throw()
#endif
extern "C" {
#else
#define URTEMVAL_NOEXCEPT
#endif

#if defined(__cplusplus) || (defined(__STDC_VERSION__) && __STDC_VERSION__ >= 199901L)
#define URTEMVAL_INLINE static inline
#else
#define URTEMVAL_INLINE static __inline__
#endif

/* What a split may be. */
enum {
    URTEMVAL_EDGE_EDGE = 2,  /* points 0 and 1 against points 2 and 3 */
    URTEMVAL_FACE_VERTEX = 3 /* points 0 to 2 against point 3 */
};

/* How many times a safe time may try: at most so many, and so many where its caller names no other number. */
enum {
    URTEMVAL_FULL_ALLOWANCE = 4096
};

/* How a safe time ends: UrtemvalSafeTime.kind. */
enum {
    URTEMVAL_TOUCHING = 0, /* the pair starts at the offset or nearer: the time is 0 */
    URTEMVAL_CONTACT = 1,  /* above the threshold at this time, and at the next float not */
    URTEMVAL_CLEAR = 2,    /* above the threshold at every time that was tried: the time is the time limit */
    URTEMVAL_BUDGET = 3,   /* above the threshold at this time, at which the call stopped looking */
    URTEMVAL_REFUSED = 4   /* no time: the refusal says why */
};

/*
 * Why a call is refused: the field `refusal` of an answer. 0 means that it is not. The lowest number that applies is
 * answered, except that 6, 7 and 8 come as a root finder meets them. 3 is retired: no call answers it, and it will not
 * stand for anything else.
 */
enum {
    URTEMVAL_NOT_FINITE = 1,        /* some number handed over is NaN or an infinity */
    URTEMVAL_OUT_OF_RANGE = 2,      /* some number lies beyond its range, or the split is neither 2 nor 3 */
    URTEMVAL_NO_FACTOR = 4,         /* scaling: no finite factor above 0 brings the largest entry to 0.99 */
    URTEMVAL_SCALED_NOT_FINITE = 5, /* scaling: some scaled number would not be finite */
    URTEMVAL_FLAT_SPAN = 6,         /* roots: the polynomial is zero at both ends of a span */
    URTEMVAL_GUESS_OUTSIDE = 7,     /* roots: the first guess lies outside 0..t */
    URTEMVAL_STUCK = 8,             /* roots: a Newton step meets value 0 and slope 0 */
    URTEMVAL_NOT_QUADRATIC = 9      /* quadratic: c2 is zero */
};

/* A refusal in words, by its number. */
URTEMVAL_INLINE const char *urtemval_refusal_text(uint32_t refusal) URTEMVAL_NOEXCEPT
{
    switch (refusal) {
    case 0:
        return "not refused";
    case URTEMVAL_NOT_FINITE:
        return "a number handed over is NaN or infinite";
    case URTEMVAL_OUT_OF_RANGE:
        return "a number lies beyond its range, or the split is neither 2 nor 3";
    case URTEMVAL_NO_FACTOR:
        return "scaling: there is no finite factor above 0";
    case URTEMVAL_SCALED_NOT_FINITE:
        return "scaling: a scaled number would not be finite";
    case URTEMVAL_FLAT_SPAN:
        return "roots: the polynomial is zero at both ends of a span";
    case URTEMVAL_GUESS_OUTSIDE:
        return "roots: the first guess lies outside the range";
    case URTEMVAL_STUCK:
        return "roots: a Newton step meets value 0 and slope 0";
    case URTEMVAL_NOT_QUADRATIC:
        return "quadratic: the leading coefficient is zero";
    default:
        return "a refusal that this header does not know: the archive is of another version";
    }
}

/* Four points of three numbers each, or as many displacements. Numbers: finite, size at most 2^20. */
typedef struct UrtemvalPoints {
    float at[4][3];
} UrtemvalPoints;

/* What a safe time is asked with, beside the pair. */
typedef struct UrtemvalLimits {
    float offset;    /* at this distance, or nearer, the two sides count as touching: 0 to 2^20 */
    float clearance; /* park is offset + clearance, and steps aim at dip, offset + clearance / 2: 0 to 2^20 */
    float max_t;     /* the time limit: 0 to 1, the end of the displacements */
    float u_max;     /* no point of one side comes nearer to one of the other faster than this: 2^-60 to 2^60 */
} UrtemvalLimits;

/* A safe time. Where it is refused, kind is URTEMVAL_REFUSED and the other fields are zero. */
typedef struct UrtemvalSafeTime {
    uint32_t refusal;  /* 0, or the refusal's number: 1 or 2 */
    uint32_t kind;     /* one of the five kinds */
    float time;        /* from 0 to the time limit; a zero has the sign plus */
    uint32_t probes;   /* how many times were tried, at most 4096, or as many as were allowed */
    uint32_t halvings; /* how often the last span was halved, at most 256 */
} UrtemvalSafeTime;

/* A squared distance. Where it is refused, the other fields are zero. */
typedef struct UrtemvalDistance {
    uint32_t refusal;   /* 0, or the refusal's number: 1 or 2 */
    float squared;      /* the squared distance of the two sides */
    float direction[3]; /* from the nearest place on the first side to the nearest on the second */
    uint32_t candidate; /* which candidate gave both, from 0 (docs/01-scope.md, "Our distance rules") */
} UrtemvalDistance;

/* Roots, or times. Where they are refused, the other fields are zero. */
typedef struct UrtemvalRoots {
    uint32_t refusal; /* 0, or the refusal's number */
    uint32_t count;   /* how many there are, at most 3 */
    float roots[3];   /* the first `count` are the roots, the others are zero; a zero root has the sign plus */
} UrtemvalRoots;

/* One number. Where it is refused, the value is zero. */
typedef struct UrtemvalValue {
    uint32_t refusal; /* 0, or the refusal's number */
    float value;
} UrtemvalValue;

/*
 * How far along the move dx the pair at x0 may go.
 *
 * With d(t) the computed squared distance of the points x0 + t dx, park = offset + clearance, and the threshold the
 * smaller of park^2 and the float just below d at the start, the kinds and their times are
 * - touching, 0: d is at most offset^2 at the start. The time is 0 whatever dx is, also where the pair moves apart, and
 *   asking again answers the same: part such a pair by other means, or leave it out;
 * - contact, t: d(t) exceeds the threshold, and at the next float after t, which is within the limit, d does not;
 * - clear, max_t: d exceeds the threshold at the start and at every time that was tried. max_t need not be one of them:
 *   the pair may end nearer than park, and nearer than it starts;
 * - budget, t: d(t) exceeds the threshold, and 4096 probes are counted. Where steps are zero all of them are at one
 *   time, and the call makes only the first.
 * The threshold is never below offset^2: after contact and budget d(t) exceeds offset^2. From a start beyond park it is
 * park^2. From one in the band, beyond the offset and not beyond park, no tried time may be nearer than the start.
 * Nothing is said of times that were not tried (docs/GUARANTEES.md). The top of this file says what a solver has to
 * mind, u_max above all.
 *
 * Refusals: 1 some number is NaN or an infinity; 2 one lies beyond its range, or the split is neither 2 nor 3.
 */
UrtemvalSafeTime urtemval_safe_time(const UrtemvalPoints *x0, const UrtemvalPoints *dx, size_t split,
                                    UrtemvalLimits limits) URTEMVAL_NOEXCEPT;

/*
 * The same with another number of times that may be tried, 1 to 4096: for a preview, which is to cost little. With 4096
 * it is urtemval_safe_time, bit for bit. The kinds are as there, but for
 * - budget, t: d(t) exceeds the threshold, and just `allowance` probes are counted.
 * Any answer but a budget is the answer of every larger allowance too, counts included, and a budget is one with every
 * smaller allowance too. As the allowance grows the time never falls: that of a preview is not after the whole call's.
 *
 * Refusals: as there, and 2 also where the allowance is 0 or above 4096.
 */
UrtemvalSafeTime urtemval_safe_time_allowing(const UrtemvalPoints *x0, const UrtemvalPoints *dx, size_t split,
                                             UrtemvalLimits limits, uint32_t allowance) URTEMVAL_NOEXCEPT;

/*
 * The squared distance of the two sides of x, with its direction and its candidate.
 *
 * Refusals: 1 some number is NaN or an infinity; 2 one lies beyond its range, or the split is neither 2 nor 3.
 */
UrtemvalDistance urtemval_squared_distance(const UrtemvalPoints *x, size_t split) URTEMVAL_NOEXCEPT;

/*
 * The largest distance between a point before the split and a point from it on. It errs upward: an answer of 2^-60 or
 * more is not below the exact largest distance of the given points, and not above it times 1 + 2^-20; a smaller one is
 * rounded either way. Of displacements it is the greatest relative speed: u_max of a safe time, where it is not below
 * 2^-60 (of a pair at rest it is 0). It is the same with the points of a side in any order, with both edges exchanged,
 * and with the sign of every number changed.
 *
 * Refusals: 1 some number is NaN or an infinity; 2 one lies beyond its range, or the split is neither 2 nor 3.
 */
UrtemvalValue urtemval_max_relative_norm(const UrtemvalPoints *x, size_t split) URTEMVAL_NOEXCEPT;

/*
 * Multiplies the lent points x and displacements dx so that the largest entry of x, and of x + max_t dx, is about 0.99,
 * and answers the factor. A refused call leaves both as they were, bit for bit. max_t: 0 to 1.
 *
 * The top of this file says how a safe time is asked of the scaled pair. Its time is a time of the pair as it was, too;
 * what is said of the distance there holds for the pair as it was up to rounding only.
 *
 * Refusals: 1 some number is NaN or an infinity; 2 one lies beyond its range; 4 there is no finite factor above 0 (all
 * entries are zero, or too small); 5 some scaled number would not be finite.
 */
UrtemvalValue urtemval_scale_pair(UrtemvalPoints *x, UrtemvalPoints *dx, float max_t) URTEMVAL_NOEXCEPT;

/*
 * The times from 0 to 1 at which the four points x0 + t dx lie in one plane: at most three, in the order in which the
 * root finder meets them.
 *
 * Refusals: 1 some number is NaN or an infinity; 2 one lies beyond its range, or a coefficient of the volume's cubic is
 * above 2^20 in size; 6, 7, 8 as of urtemval_cubic_roots.
 */
UrtemvalRoots urtemval_coplanar_times(const UrtemvalPoints *x0, const UrtemvalPoints *dx) URTEMVAL_NOEXCEPT;

/*
 * The roots in 0..t of c0 + c1 x + c2 x^2 + c3 x^3: at most three, in the order of the spans between turning points.
 * Each lies in 0..t. A linear polynomial's is the fraction of the way from 0 to t at which it crosses zero, times t.
 * Coefficients: size at most 2^20. t: above 0, at most 1. epsilon, the size of a value at which a root is taken as
 * found: 0 to 2^20.
 *
 * Refusals: 1 some number is NaN or an infinity; 2 one lies beyond its range; 6 the values at both ends of a span are
 * zero; 7 the first guess lies outside 0..t; 8 a Newton step meets value 0 and slope 0.
 */
UrtemvalRoots urtemval_cubic_roots(float c0, float c1, float c2, float c3, float t, float epsilon) URTEMVAL_NOEXCEPT;

/*
 * The roots of c0 + c1 x + c2 x^2: none or two, the smaller first. A root may be infinite, where a division overflows.
 * Coefficients: size at most 2^20.
 *
 * Refusals: 1 some number is NaN or an infinity; 2 one lies beyond its range; 9 c2 is zero.
 */
UrtemvalRoots urtemval_quadratic_roots(float c0, float c1, float c2) URTEMVAL_NOEXCEPT;

/*
 * The float nearest to the exact square root of x, ties to even; plus zero of either zero.
 *
 * Refusals: 1 x is NaN or an infinity; 2 x is below zero.
 */
UrtemvalValue urtemval_square_root(float x) URTEMVAL_NOEXCEPT;

#ifdef __cplusplus
}
#endif

/* The layout that the archive was built with. */
#if defined(__cplusplus) && __cplusplus >= 201103L
#define URTEMVAL_SURELY(fact) static_assert(fact, "urtemval: this compiler lays data out in another way: " #fact)
#elif defined(__STDC_VERSION__) && __STDC_VERSION__ >= 201112L
#define URTEMVAL_SURELY(fact) _Static_assert(fact, "urtemval: this compiler lays data out in another way: " #fact)
#endif
#ifdef URTEMVAL_SURELY
URTEMVAL_SURELY(sizeof(size_t) == 8);
URTEMVAL_SURELY(sizeof(float) == 4 && FLT_RADIX == 2 && FLT_MANT_DIG == 24 && FLT_MAX_EXP == 128);
URTEMVAL_SURELY(sizeof(UrtemvalPoints) == 48);
URTEMVAL_SURELY(offsetof(UrtemvalPoints, at) == 0);
URTEMVAL_SURELY(sizeof(UrtemvalLimits) == 16);
URTEMVAL_SURELY(offsetof(UrtemvalLimits, offset) == 0);
URTEMVAL_SURELY(offsetof(UrtemvalLimits, clearance) == 4);
URTEMVAL_SURELY(offsetof(UrtemvalLimits, max_t) == 8);
URTEMVAL_SURELY(offsetof(UrtemvalLimits, u_max) == 12);
URTEMVAL_SURELY(sizeof(UrtemvalSafeTime) == 20);
URTEMVAL_SURELY(offsetof(UrtemvalSafeTime, refusal) == 0);
URTEMVAL_SURELY(offsetof(UrtemvalSafeTime, kind) == 4);
URTEMVAL_SURELY(offsetof(UrtemvalSafeTime, time) == 8);
URTEMVAL_SURELY(offsetof(UrtemvalSafeTime, probes) == 12);
URTEMVAL_SURELY(offsetof(UrtemvalSafeTime, halvings) == 16);
URTEMVAL_SURELY(sizeof(UrtemvalDistance) == 24);
URTEMVAL_SURELY(offsetof(UrtemvalDistance, refusal) == 0);
URTEMVAL_SURELY(offsetof(UrtemvalDistance, squared) == 4);
URTEMVAL_SURELY(offsetof(UrtemvalDistance, direction) == 8);
URTEMVAL_SURELY(offsetof(UrtemvalDistance, candidate) == 20);
URTEMVAL_SURELY(sizeof(UrtemvalRoots) == 20);
URTEMVAL_SURELY(offsetof(UrtemvalRoots, refusal) == 0);
URTEMVAL_SURELY(offsetof(UrtemvalRoots, count) == 4);
URTEMVAL_SURELY(offsetof(UrtemvalRoots, roots) == 8);
URTEMVAL_SURELY(sizeof(UrtemvalValue) == 8);
URTEMVAL_SURELY(offsetof(UrtemvalValue, refusal) == 0);
URTEMVAL_SURELY(offsetof(UrtemvalValue, value) == 4);
#undef URTEMVAL_SURELY
#endif

#endif
