/* How far may a corner fall towards a face? Build it with
 *   cc examples/safe_time.c $(pkg-config --cflags --libs urtemval) -o safe_time
 * after ./install, or in the project's folder, after ./build-library, with
 *   cc -Iinclude examples/safe_time.c target/staticlib/liburtemval.a -o safe_time
 */
#include <stdio.h>
#include <urtemval.h>

static const char *const kinds[] = {"touching", "contact", "clear", "budget", "refused"};

int main(void)
{
    /* a face on the floor, and a corner one unit above it that falls by two */
    const UrtemvalPoints x0 = {{{0, 0, 0}, {1, 0, 0}, {0, 1, 0}, {0.25f, 0.25f, 1}}};
    const UrtemvalPoints dx = {{{0, 0, 0}, {0, 0, 0}, {0, 0, 0}, {0, 0, -2}}};

    UrtemvalValue speed = urtemval_max_relative_norm(&dx, URTEMVAL_FACE_VERTEX);
    if (speed.refusal != 0) {
        printf("the speed is refused: %s\n", urtemval_refusal_text(speed.refusal));
        return 1;
    }
    float u_max = speed.value < 0x1p-60f ? 0x1p-60f : speed.value; /* of a pair at rest the speed is 0 */
    UrtemvalLimits limits = {0.125f, 0.125f, 1, u_max}; /* offset, clearance, max_t, u_max */
    UrtemvalSafeTime safe = urtemval_safe_time(&x0, &dx, URTEMVAL_FACE_VERTEX, limits);
    if (safe.refusal != 0) {
        printf("the safe time is refused: %s\n", urtemval_refusal_text(safe.refusal));
        return 1;
    }
    printf("%s at %.9g after %u probes and %u halvings\n", kinds[safe.kind], safe.time, (unsigned)safe.probes,
           (unsigned)safe.halvings);
    return 0;
}
