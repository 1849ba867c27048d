// The operations of crate pair, by the archive libpair_c.a. A pair is passed by its two ends.
#pragma once
#include "plain_pair.h"

u64 pair_floor_of(u64 a, u64 b, u64 d);
u64 pair_ceil_of(u64 a, u64 b, u64 d);
Ends pair_plus(u64 lo, u64 hi, u64 least, u64 most);
Ends pair_minus(u64 lo, u64 hi, u64 least, u64 most);
Ends pair_times(u64 lo, u64 hi, u64 least, u64 most, u64 s);
Ends pair_over(u64 lo, u64 hi, u64 least, u64 most, u64 s);
Ends pair_times_ratio(u64 lo, u64 hi, u64 a, u64 b, u64 s);
Ends pair_root(u64 lo, u64 hi, u64 s);
Ends pair_cube_root(u64 lo, u64 hi, u64 s);
