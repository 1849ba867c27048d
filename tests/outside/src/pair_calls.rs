//! The calls of crate pair_c's archive, and the structs that they pass.

/// A lower and an upper end.
#[repr(C)]
#[derive(Clone, Copy, Debug)]
pub struct Pair {
    pub lo: u64,
    pub hi: u64,
}

/// Two pairs.
#[repr(C)]
#[derive(Clone, Copy, Debug)]
pub struct TwoPairs {
    pub one: Pair,
    pub two: Pair,
}

/// A quotient or a root, and what is left over.
#[repr(C)]
#[derive(Clone, Copy, Debug)]
pub struct Part {
    pub whole: u64,
    pub rest: u64,
}

/// An integer by its size.
#[repr(C)]
#[derive(Clone, Copy, Debug)]
pub struct Integer {
    pub below: bool,
    pub size: u64,
}

/// A lower and an upper end that may lie below zero.
#[repr(C)]
#[derive(Clone, Copy, Debug)]
pub struct Signed {
    pub lo: Integer,
    pub hi: Integer,
}

extern "C" {
    pub fn pair_high(a: u64, b: u64) -> u64;
    pub fn pair_product_by(a: u64, b: u64, d: u64) -> Part;
    pub fn pair_floor_of(a: u64, b: u64, d: u64) -> u64;
    pub fn pair_ceil_of(a: u64, b: u64, d: u64) -> u64;
    pub fn pair_square_of(n: u64) -> Part;
    pub fn pair_cube_of(n: u64) -> Part;

    pub fn pair_exact(v: u64) -> Pair;
    pub fn pair_ratio(a: u64, b: u64, s: u64) -> Pair;
    pub fn pair_plus(lo: u64, hi: u64, least: u64, most: u64) -> Pair;
    pub fn pair_minus(lo: u64, hi: u64, least: u64, most: u64) -> Pair;
    pub fn pair_times(lo: u64, hi: u64, least: u64, most: u64, s: u64) -> Pair;
    pub fn pair_over(lo: u64, hi: u64, least: u64, most: u64, s: u64) -> Pair;
    pub fn pair_times_ratio(lo: u64, hi: u64, a: u64, b: u64, s: u64) -> Pair;
    pub fn pair_over_ratio(lo: u64, hi: u64, a: u64, b: u64, s: u64) -> Pair;
    pub fn pair_root(lo: u64, hi: u64, s: u64) -> Pair;
    pub fn pair_roots(lo: u64, hi: u64, least: u64, most: u64, s: u64) -> TwoPairs;
    pub fn pair_cube_root(lo: u64, hi: u64, s: u64) -> Pair;
    pub fn pair_smaller(lo: u64, hi: u64, least: u64, most: u64) -> Pair;

    pub fn pair_difference(a: u64, b: u64) -> Integer;
    pub fn pair_negated(a: Integer) -> Integer;
    pub fn pair_sum(a: Integer, b: Integer) -> Integer;
    pub fn pair_at_most(a: Integer, b: Integer) -> bool;
    pub fn pair_least(a: Integer, b: Integer) -> Integer;
    pub fn pair_greatest(a: Integer, b: Integer) -> Integer;
    pub fn pair_floor_by(a: Integer, x: u64, d: u64) -> Integer;
    pub fn pair_ceil_by(a: Integer, x: u64, d: u64) -> Integer;
    pub fn pair_floor_product(a: Integer, b: Integer, d: u64) -> Integer;
    pub fn pair_ceil_product(a: Integer, b: Integer, d: u64) -> Integer;

    pub fn pair_signed(lo: u64, hi: u64) -> Signed;
    pub fn pair_between(lo: u64, hi: u64, least: u64, most: u64) -> Signed;
    pub fn pair_signed_plus(a: Signed, b: Signed) -> Signed;
    pub fn pair_signed_minus(a: Signed, b: Signed) -> Signed;
    pub fn pair_signed_times(a: Signed, lo: u64, hi: u64, s: u64) -> Signed;
    pub fn pair_times_signed(a: Signed, b: Signed, s: u64) -> Signed;
    pub fn pair_signed_over(a: Signed, lo: u64, hi: u64, s: u64) -> Signed;
    pub fn pair_coarser(a: Signed, k: u64) -> Signed;
}
