// The header and the library, as a program in C++ uses them.
#include "zomtsje.h"

int main() {
    zc_cord x = ZC_EMPTY, y = ZC_EMPTY, z = ZC_EMPTY;
    uint64_t place = 0;
    const bool made = zc_from_bytes("cord", 4, &x) == ZC_OK && zc_share(&x, &y) == ZC_OK
        && zc_cat(&x, &y, &z) == ZC_OK && zc_str(&z, 1, &x, &place) == ZC_OK;
    const bool right = made && zc_len(&z) == 8 && place == 4;
    zc_free(&x);
    zc_free(&y);
    zc_free(&z);
    return right ? 0 : 1;
}
