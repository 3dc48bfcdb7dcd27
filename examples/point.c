#include <stdio.h>
#include <ups.h>

int main(void) {
    int32_t net[4 * UPS_RECORD] = {600, 0, 120}, at[UPS_POINT]; /* 2 by 2: c1 of (0, 0), else 0 */
    uint32_t refusal = ups_surface_point(net, 4 * UPS_RECORD, 2, 2, 256, 256, at, UPS_POINT);
    if (refusal != UPS_ACCEPTED) fprintf(stderr, "%s\n", ups_refusal_text(refusal));
    else printf("%d %d %d\n", (int)at[0], (int)at[1], (int)at[2]);
    return refusal != UPS_ACCEPTED;
}
