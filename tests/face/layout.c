/*
 * Prints the sizes and offsets of the header's records, its constants, its refusals' texts and its version, as this
 * compiler has them. tests/link holds the list to the one that the Rust crate gives and to the one of the Rattle
 * sources, and the texts to README.md.
 */
#include <stdio.h>
#include <urtemval.h>

#define RECORD(name) printf("record " #name " size %zu\n", sizeof(Urtemval##name))
#define FIELD(name, field)                                                                              \
    printf("field " #name "." #field " at %zu size %zu\n", offsetof(Urtemval##name, field),             \
           sizeof(((Urtemval##name *)NULL)->field))
#define CONSTANT(group, name) printf(group " " #name " %d\n", (int)URTEMVAL_##name)

int main(void)
{
    RECORD(Points);
    RECORD(Limits);
    FIELD(Limits, offset);
    FIELD(Limits, clearance);
    FIELD(Limits, max_t);
    FIELD(Limits, u_max);
    RECORD(SafeTime);
    FIELD(SafeTime, refusal);
    FIELD(SafeTime, kind);
    FIELD(SafeTime, time);
    FIELD(SafeTime, probes);
    FIELD(SafeTime, halvings);
    RECORD(Distance);
    FIELD(Distance, refusal);
    FIELD(Distance, squared);
    FIELD(Distance, direction);
    FIELD(Distance, candidate);
    RECORD(Roots);
    FIELD(Roots, refusal);
    FIELD(Roots, count);
    FIELD(Roots, roots);
    RECORD(Value);
    FIELD(Value, refusal);
    FIELD(Value, value);
    CONSTANT("kind", TOUCHING);
    CONSTANT("kind", CONTACT);
    CONSTANT("kind", CLEAR);
    CONSTANT("kind", BUDGET);
    CONSTANT("kind", REFUSED);
    CONSTANT("allowance", FULL_ALLOWANCE);
    CONSTANT("split", EDGE_EDGE);
    CONSTANT("split", FACE_VERTEX);
    CONSTANT("refusal", NOT_FINITE);
    CONSTANT("refusal", OUT_OF_RANGE);
    CONSTANT("refusal", NO_FACTOR);
    CONSTANT("refusal", SCALED_NOT_FINITE);
    CONSTANT("refusal", FLAT_SPAN);
    CONSTANT("refusal", GUESS_OUTSIDE);
    CONSTANT("refusal", STUCK);
    CONSTANT("refusal", NOT_QUADRATIC);
    /* 3 is retired */
    for (uint32_t refusal = 1; refusal <= URTEMVAL_NOT_QUADRATIC; refusal++)
        if (refusal != 3)
            printf("text %u: %s\n", (unsigned)refusal, urtemval_refusal_text(refusal));
    printf("version %s\n", URTEMVAL_VERSION);
    printf("version %d.%d.%d by its numbers\n", URTEMVAL_VERSION_MAJOR, URTEMVAL_VERSION_MINOR,
           URTEMVAL_VERSION_PATCH);
    return 0;
}
