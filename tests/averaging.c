/* The averaging entry's export through its C header: the record's layout, a mean, and each refusal. tests/averaging.sh builds and runs it. */
#include <math.h>
#include <stdio.h>
#include <string.h>

#include "placer.h"

_Static_assert(sizeof(struct rig_pose) == 7 * sizeof(double), "a record is seven doubles");
_Static_assert(offsetof(struct rig_pose, i) == 3 * sizeof(double), "the rotation follows the translation");

static int failed;

static void expect(const char *name, const struct rig_pose *poses, size_t count, uint64_t reply, double x) {
    double mean[7] = {-7, -7, -7, -7, -7, -7, -7};
    double wanted[7] = {-7, -7, -7, -7, -7, -7, -7};
    if (reply == 0) memcpy(wanted, (double[7]){x, 0, 0, 0, 0, 0, 1}, sizeof wanted);
    uint64_t got = rig_average_isometries(poses, count, mean);
    if (got != reply || memcmp(mean, wanted, sizeof mean) != 0) {
        printf("%s: reply %#llx, x %g\n", name, (unsigned long long)got, mean[0]);
        failed = 1;
    }
}

int main(void) {
    struct rig_pose poses[65];
    for (int n = 0; n < 65; n++) poses[n] = (struct rig_pose){.x = n, .w = n % 2 ? -1 : 1};
    expect("no poses", NULL, 0, (uint64_t)1 << 32, 0);
    expect("65 poses", poses, 65, (uint64_t)2 << 32, 0);
    expect("two of opposite signs", poses, 2, 0, 0.5);
    expect("64 poses", poses, 64, 0, 31.5);
    poses[40].k = INFINITY;
    expect("pose 40", poses, 64, ((uint64_t)7 << 32) + 40, 0);
    if (!failed) printf("averaging from C: 5 calls, all as expected\n");
    return failed;
}
