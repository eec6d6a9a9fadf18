// What LLVM calls for numbers of 128 bits: quotients, rests, and shifts by a number that is not known. Products are
// written out where they stand (product.ll); what is left of them comes here.
typedef unsigned long u64;
typedef unsigned __int128 u128;
typedef __int128 i128;

static u128 joined(u64 high, u64 low) { return (u128)high << 64 | low; }
static u64 high_of(u128 a) { return (u64)(a >> 64); }

static u128 product(u64 a, u64 b) {
  u64 a0 = (unsigned)a, a1 = a >> 32, b0 = (unsigned)b, b1 = b >> 32;
  u64 low = a0 * b0, one = a0 * b1, other = a1 * b0;
  u64 middle = (low >> 32) + (unsigned)one + (unsigned)other;
  return joined(a1 * b1 + (one >> 32) + (other >> 32) + (middle >> 32), middle << 32 | (unsigned)low);
}

i128 __multi3(i128 a, i128 b) {
  u128 low = product((u64)a, (u64)b);
  return (i128)joined(high_of(low) + (u64)a * high_of(b) + high_of(a) * (u64)b, (u64)low);
}

i128 __ashlti3(i128 a, int by) {
  u64 low = (u64)a, high = high_of(a);
  if (by & 64) return (i128)joined(low << (by & 63), 0);
  return by ? (i128)joined(high << by | low >> (64 - by), low << by) : a;
}

i128 __lshrti3(i128 a, int by) {
  u64 low = (u64)a, high = high_of(a);
  if (by & 64) return (i128)joined(0, high >> (by & 63));
  return by ? (i128)joined(high >> by, low >> by | high << (64 - by)) : a;
}

i128 __ashrti3(i128 a, int by) {
  u64 low = (u64)a, high = high_of(a);
  long sign = (long)high;
  if (by & 64) return (i128)joined((u64)(sign >> 63), (u64)(sign >> (by & 63)));
  return by ? (i128)joined((u64)(sign >> by), low >> by | high << (64 - by)) : a;
}

// One digit of 32 bits of a quotient: (rest * 2^32 + next) / d, where rest < d and the highest bit of d is set. Two
// digits of d give an estimate that is too large by two at most (Knuth, The Art of Computer Programming, 4.3.1).
static u64 digit(u64 *rest, u64 next, u64 d) {
  u64 high = d >> 32, low = (unsigned)d, q = *rest / high, r = *rest % high;
  while (q >> 32 || q * low > (r << 32 | next)) {
    q--;
    r += high;
    if (r >> 32) break;
  }
  *rest = (*rest << 32 | next) - q * d;
  return q;
}

// high:low / d, where high < d.
static u64 by_one(u64 high, u64 low, u64 d, u64 *rest) {
  int by = __builtin_clzl(d);
  d <<= by;
  *rest = by ? high << by | low >> (64 - by) : high;
  low <<= by;
  u64 first = digit(rest, low >> 32, d), second = digit(rest, (unsigned)low, d);
  *rest >>= by;
  return first << 32 | second;
}

static u128 divided(u128 a, u128 b, u128 *rest) {
  if (!high_of(b)) {
    u64 d = (u64)b, high = high_of(a) / d, left;
    u64 low = high_of(a) ? by_one(high_of(a) % d, (u64)a, d, &left) : (left = (u64)a % d, (u64)a / d);
    *rest = left;
    return joined(high, low);
  }
  // bit by bit: the quotient has as many bits as b has zeros at its head, and few divisors are that large
  u64 q = 0;
  for (int at = __builtin_clzl(high_of(b)); at >= 0; at--) {
    u128 part = b << at;
    q <<= 1;
    if (a >= part) {
      a -= part;
      q |= 1;
    }
  }
  *rest = a;
  return q;
}

static u128 size_of(i128 a) { return a < 0 ? -(u128)a : (u128)a; }

u128 __udivti3(u128 a, u128 b) {
  u128 rest;
  return divided(a, b, &rest);
}

u128 __umodti3(u128 a, u128 b) {
  u128 rest;
  divided(a, b, &rest);
  return rest;
}

i128 __divti3(i128 a, i128 b) {
  u128 rest, q = divided(size_of(a), size_of(b), &rest);
  return (a < 0) == (b < 0) ? (i128)q : (i128)-q;
}

i128 __modti3(i128 a, i128 b) {
  u128 rest;
  divided(size_of(a), size_of(b), &rest);
  return a < 0 ? (i128)-rest : (i128)rest;
}
