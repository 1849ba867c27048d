// k of a lip at an exact ratio, by the operations of crate pair, one call each.
// (Document 01, "Widths and slenderness"; crates/section/src/coefficients.rt does the same.)
#include "pair_calls.h"

#define S 1000000u

enum { LIMIT = 350000 };

Ends own_k(u64 ratio) {
    if (ratio <= LIMIT) return (Ends){S / 2, S / 2};
    Ends past = pair_minus(ratio, ratio, LIMIT, LIMIT);
    Ends square = pair_times(past.lo, past.hi, past.lo, past.hi, S);
    Ends root = pair_cube_root(square.lo, square.hi, S);
    Ends more = pair_times_ratio(root.lo, root.hi, 83, 100, S);
    return pair_plus(S / 2, S / 2, more.lo, more.hi);
}
