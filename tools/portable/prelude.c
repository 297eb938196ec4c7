#include <stddef.h>
#include <stdint.h>
#if defined(__wasm__) && !__STDC_HOSTED__
void *memcpy(void *, const void *, size_t);
void *memmove(void *, const void *, size_t);
void *memset(void *, int, size_t);
#else
#include <string.h>
#endif
/* Makes many bytes 0 by a call: where gcc knows how many they are it writes them in a loop, word by word. */
static void *(*volatile const by_call)(void *, int, size_t) = memset;
#define zero_all(p, size) by_call(p, 0, size)
#if defined(__BYTE_ORDER__) && __BYTE_ORDER__ != __ORDER_LITTLE_ENDIAN__
#error "a little-endian machine is needed"
#endif
#if UINTPTR_MAX != 0xffffffffffffffff
#error "a machine with 64-bit addresses is needed"
#endif
typedef uint8_t u8;
typedef uint16_t u16;
typedef uint32_t u32;
typedef uint64_t u64;
typedef int8_t i8;
typedef int16_t i16;
typedef int32_t i32;
typedef int64_t i64;
typedef unsigned __int128 u128;
#if defined(__GNUC__)
#define FN static inline __attribute__((unused))
#define NEVER __builtin_unreachable()
#define A16 __attribute__((aligned(16)))
#define COLD __attribute__((cold, noinline))
#define ALIAS __attribute__((may_alias))
#else
#include <stdlib.h>
#define NEVER abort()
#define A16
#define COLD
#define FN static inline
#endif
/* r reads and w writes at an address that is a multiple of the size, q and x at any. */
#define ANY(n, t) \
    FN t q##n(const u8 *p) { t v = 0; memcpy(&v, p, n); return v; } \
    FN void x##n(u8 *p, t v) { memcpy(p, &v, n); }
#if defined(ALIAS) && !defined(SYMDEMANGLE_PLAIN)
#define TYPES(n, t) \
    typedef t ALIAS m##n; \
    typedef struct __attribute__((packed, may_alias)) { t v; } any##n;
TYPES(2, u16) TYPES(4, u32) TYPES(8, u64) TYPES(16, u128) TYPES(p, u8 *)
#define r2(p) (*(const m2 *)(p))
#define r4(p) (*(const m4 *)(p))
#define r8(p) (*(const m8 *)(p))
#define r16(p) (*(const m16 *)(p))
#define rp(p) (*(const mp *)(p))
#define w2(p, v) (*(m2 *)(p) = (u16)(v))
#define w4(p, v) (*(m4 *)(p) = (u32)(v))
#define w8(p, v) (*(m8 *)(p) = (v))
#define w16(p, v) (*(m16 *)(p) = (v))
#define wp(p, v) (*(mp *)(p) = (v))
#define q2(p) (((const any2 *)(p))->v)
#define q4(p) (((const any4 *)(p))->v)
#define q8(p) (((const any8 *)(p))->v)
#define q16(p) (((const any16 *)(p))->v)
#define qp(p) (((const anyp *)(p))->v)
#define x2(p, a) (((any2 *)(p))->v = (u16)(a))
#define x4(p, a) (((any4 *)(p))->v = (u32)(a))
#define x8(p, a) (((any8 *)(p))->v = (a))
#define x16(p, a) (((any16 *)(p))->v = (a))
#define xp(p, a) (((anyp *)(p))->v = (a))
#else
#define EVEN(n, t) \
    FN t r##n(const u8 *p) { t v; memcpy(&v, p, n); return v; } \
    FN void w##n(u8 *p, t v) { memcpy(p, &v, n); }
ANY(2, u16) ANY(4, u32) ANY(8, u64) ANY(16, u128)
EVEN(2, u16) EVEN(4, u32) EVEN(8, u64) EVEN(16, u128)
FN u8 *rp(const u8 *p) { u8 *v; memcpy(&v, p, 8); return v; }
FN void wp(u8 *p, u8 *v) { memcpy(p, &v, 8); }
FN u8 *qp(const u8 *p) { u8 *v; memcpy(&v, p, 8); return v; }
FN void xp(u8 *p, u8 *v) { memcpy(p, &v, 8); }
#endif
/*: q3 x3 */
ANY(3, u32)
/*: q5 x5 */
ANY(5, u64)
/*: q6 x6 */
ANY(6, u64)
/*: q7 x7 */
ANY(7, u64)
/*: q9 x9 */
ANY(9, u128)
/*: q10 x10 */
ANY(10, u128)
/*: q11 x11 */
ANY(11, u128)
/*: q12 x12 */
ANY(12, u128)
/*: all */
#define PAIR(n) \
    FN u##n umin##n(u##n a, u##n b) { return a < b ? a : b; } \
    FN u##n umax##n(u##n a, u##n b) { return a > b ? a : b; } \
    FN u##n usub##n(u##n a, u##n b) { return (u##n)(a > b ? a - b : 0); } \
    FN u##n uadd##n(u##n a, u##n b) { u##n c = (u##n)(a + b); return c < a ? (u##n)-1 : c; }
PAIR(8) PAIR(16) PAIR(32) PAIR(64) PAIR(128)
#define SIGNED(n) \
    FN u##n smin##n(u##n a, u##n b) { return (i##n)a < (i##n)b ? a : b; } \
    FN u##n smax##n(u##n a, u##n b) { return (i##n)a > (i##n)b ? a : b; } \
    FN u##n abs##n(u##n a) { return (u##n)((i##n)a < 0 ? 0 - a : a); }
SIGNED(8) SIGNED(16) SIGNED(32) SIGNED(64)
#define ROTATE(n) \
    FN u##n fshl##n(u##n a, u##n b, u##n c) { c &= n - 1; return c ? (u##n)((u64)a << c | b >> (n - c)) : a; } \
    FN u##n fshr##n(u##n a, u##n b, u##n c) { c &= n - 1; return c ? (u##n)((u64)a << (n - c) | b >> c) : b; }
ROTATE(8) ROTATE(16) ROTATE(32) ROTATE(64)
#if defined(__GNUC__)
FN int cttz(u64 x, int n) { return x ? __builtin_ctzll(x) : n; }
FN int ctlz(u64 x, int n) { return x ? __builtin_clzll(x) - (64 - n) : n; }
FN int ctpop(u64 x) { return __builtin_popcountll(x); }
#else
FN int cttz(u64 x, int n) { int k = 0; while (k < n && !(x >> k & 1)) k++; return k; }
FN int ctlz(u64 x, int n) { int k = 0; while (k < n && !(x >> (n - 1 - k) & 1)) k++; return k; }
FN int ctpop(u64 x) { int k = 0; while (x) { x &= x - 1; k++; } return k; }
#endif
FN u16 bswap16(u16 x) { return (u16)(x << 8 | x >> 8); }
FN u32 bswap32(u32 x) { return (u32)bswap16((u16)x) << 16 | bswap16((u16)(x >> 16)); }
FN u64 bswap64(u64 x) { return (u64)bswap32((u32)x) << 32 | bswap32((u32)(x >> 32)); }
/*: v16 */
#if defined(__SSE2__)
#include <emmintrin.h>
typedef union { u8 b[16]; __m128i m; } v16;
FN u16 v16_eq(v16 a, v16 b) { return (u16)_mm_movemask_epi8(_mm_cmpeq_epi8(a.m, b.m)); }
FN v16 v16_add(v16 a, v16 b) { a.m = _mm_add_epi8(a.m, b.m); return a; }
FN v16 v16_or(v16 a, v16 b) { a.m = _mm_or_si128(a.m, b.m); return a; }
FN v16 v16_and(v16 a, v16 b) { a.m = _mm_and_si128(a.m, b.m); return a; }
FN u16 v16_ult(v16 a, v16 b) { return (u16)~_mm_movemask_epi8(_mm_cmpeq_epi8(_mm_max_epu8(a.m, b.m), a.m)); }
FN u16 v16_sgt(v16 a, v16 b) { return (u16)_mm_movemask_epi8(_mm_cmpgt_epi8(a.m, b.m)); }
FN u16 v16_top(v16 a) { return (u16)_mm_movemask_epi8(a.m); }
FN v16 v16_at(const u8 *p) { v16 x; x.m = _mm_loadu_si128((const __m128i *)(const void *)p); return x; }
FN v16 splat(int b) { v16 x; x.m = _mm_set1_epi8((char)b); return x; }
#else
typedef struct { u8 b[16]; } v16;
FN u16 v16_eq(v16 a, v16 b) { u16 m = 0; for (int i = 0; i < 16; i++) m |= (u16)((a.b[i] == b.b[i]) << i); return m; }
FN v16 v16_add(v16 a, v16 b) { for (int i = 0; i < 16; i++) a.b[i] = (u8)(a.b[i] + b.b[i]); return a; }
FN v16 v16_or(v16 a, v16 b) { for (int i = 0; i < 16; i++) a.b[i] |= b.b[i]; return a; }
FN v16 v16_and(v16 a, v16 b) { for (int i = 0; i < 16; i++) a.b[i] &= b.b[i]; return a; }
FN u16 v16_ult(v16 a, v16 b) { u16 m = 0; for (int i = 0; i < 16; i++) m |= (u16)((a.b[i] < b.b[i]) << i); return m; }
FN u16 v16_sgt(v16 a, v16 b) { u16 m = 0; for (int i = 0; i < 16; i++) m |= (u16)(((a.b[i] ^ 128) > (b.b[i] ^ 128)) << i); return m; }
FN u16 v16_top(v16 a) { u16 m = 0; for (int i = 0; i < 16; i++) m |= (u16)(a.b[i] >> 7 << i); return m; }
FN v16 v16_at(const u8 *p) { v16 x; memcpy(x.b, p, 16); return x; }
FN v16 splat(int b) { v16 x; memset(x.b, b, 16); return x; }
#endif
FN void v16_to(u8 *p, v16 x) { memcpy(p, x.b, 16); }
FN u16 v16_ne(v16 a, v16 b) { return (u16)~v16_eq(a, b); }
/* 64 bytes, as the comparison of texts reads them */
typedef struct { v16 p[4]; } v64;
FN v64 v64_at(const u8 *p) { v64 x; for (int k = 0; k < 4; k++) x.p[k] = v16_at(p + 16 * k); return x; }
FN v64 v64_ne(v64 a, v64 b) { for (int k = 0; k < 4; k++) for (int i = 0; i < 16; i++) a.p[k].b[i] = (u8)-(a.p[k].b[i] != b.p[k].b[i]); return a; }
FN v64 v64_eq(v64 a, v64 b) { for (int k = 0; k < 4; k++) for (int i = 0; i < 16; i++) a.p[k].b[i] = (u8)-(a.p[k].b[i] == b.p[k].b[i]); return a; }
FN v64 v64_and(v64 a, v64 b) { for (int k = 0; k < 4; k++) a.p[k] = v16_and(a.p[k], b.p[k]); return a; }
FN v64 v64_splat(int b) { v64 x; for (int k = 0; k < 4; k++) x.p[k] = splat(b); return x; }
/*: all */
/*: double */
FN double rd(const u8 *p) { double v; memcpy(&v, p, 8); return v; }
FN void wd(u8 *p, double v) { memcpy(p, &v, 8); }
FN double bits_double(u64 n) { double v; memcpy(&v, &n, 8); return v; }
COLD static double product(double a, double b) { return a * b; }
/*: all */
