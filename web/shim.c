/* What the programs ask of a system, for a module of WebAssembly: memory, the two devices and the words of the command, and the
   arithmetic of 128 bits that has no instruction there. Nothing else of the world reaches a program. web/module.py compiles it
   with each of them. */

typedef unsigned long u64;
typedef long i64;
typedef unsigned char u8;
typedef unsigned __int128 u128;
typedef __int128 i128;

/* The page's side of it (web/host.js). */
__attribute__((import_module("host"), import_name("read"))) i64 host_read(void *to, u64 size);
__attribute__((import_module("host"), import_name("write"))) i64 host_write(const void *from, u64 size);
__attribute__((import_module("host"), import_name("word"))) i64 host_word(u64 number, void *to, u64 size);

int main(void);
__attribute__((export_name("run"))) int run(void) { return main(); }

/* ---- devices and words. Which file is meant plays no part: a program reads one, and writes one. */

static int fault;
enum { IS_A_PIPE = 29 };

i64 read(int file, void *to, u64 size) { return host_read(to, size); }
i64 write(int file, const void *from, u64 size) { return host_write(from, size); }
i64 __write(int file, const void *from, u64 size) { return host_write(from, size); }
i64 rattle_write_no_sigpipe(int file, const void *from, u64 size) { return host_write(from, size); }
i64 lseek(int file, i64 to, int from) { fault = IS_A_PIPE; return -1; }
i64 __sysv_signal(int number, i64 act) { return 0; }
void rattle_set_errno(int number) { fault = number; }
int rattle_errno(void) { return fault; }
u64 rattle_arg_count(void) { return 0; }
i64 rattle_arg(u64 number, void *to, u64 size) { return host_word(number, to, size); }
i64 rattle_env(const void *name, void *to, u64 size) { return -1; }
i64 rattle_env_at(u64 number, void *to, u64 size) { return -1; }

/* A program looks once at what its processor can do, and takes the plain way where it can nothing more. */
static const unsigned features[8] = {~0u, ~0u, ~0u, ~0u, ~0u, ~0u, ~0u, ~0u};
const void *__x86_get_cpuid_feature_leaf(unsigned leaf) { return features; }

/* ---- memory: blocks of 32 bytes, 64, and so on, each with its class in the 16 bytes before it; those given back wait in a list
   by their class. */

enum { HEADER = 16, LEAST = 5, CLASSES = 32, PAGE = 65536 };
extern u8 __heap_base;
static u8 *top;
static void *waiting[CLASSES];

void *memcpy(void *restrict to, const void *restrict from, u64 size) { return __builtin_memcpy(to, from, size); }
void *memmove(void *to, const void *from, u64 size) { return __builtin_memmove(to, from, size); }
void *memset(void *to, int byte, u64 size) { return __builtin_memset(to, byte, size); }

int memcmp(const void *one, const void *other, u64 size) {
  const u8 *a = one, *b = other;
  for (; size; size--, a++, b++)
    if (*a != *b) return *a - *b;
  return 0;
}

static u64 class_of(u64 size) {
  u64 class = LEAST;
  while (class < CLASSES && ((u64)1 << class) < size + HEADER) class++;
  return class;
}

static u64 *class_at(void *block) { return (u64 *)block - 2; }

static void *take(u64 size, u64 alignment) {
  u64 class = size > (u64)1 << (CLASSES - 2) ? CLASSES : class_of(size);
  if (class >= CLASSES || alignment > HEADER) return 0;
  void *block = waiting[class];
  if (block) {
    waiting[class] = *(void **)block;
    return block;
  }
  if (!top) top = (u8 *)(((u64)&__heap_base + HEADER - 1) & ~(u64)(HEADER - 1));
  u8 *end = top + ((u64)1 << class);
  u64 have = __builtin_wasm_memory_size(0) * PAGE;
  if ((u64)end > have && __builtin_wasm_memory_grow(0, ((u64)end - have + PAGE - 1) / PAGE) == (u64)-1) return 0;
  block = top + HEADER;
  top = end;
  *class_at(block) = class;
  return block;
}

static void give(void *block) {
  u64 class = *class_at(block);
  *(void **)block = waiting[class];
  waiting[class] = block;
}

struct taken { i64 good; u64 block; };

struct taken rattle_alloc(u64 size, u64 alignment) {
  void *block = take(size, alignment);
  return (struct taken){block != 0, (u64)block};
}

struct taken rattle_realloc(void *old, u64 had, u64 size, u64 alignment) {
  u64 room = ((u64)1 << *class_at(old)) - HEADER;
  if (size <= room) return (struct taken){1, (u64)old};
  void *block = take(size, alignment);
  if (block) {
    memcpy(block, old, room);
    give(old);
  }
  return (struct taken){block != 0, (u64)block};
}

/* A block of no bytes is a number that no block has: its place is not aligned. */
void rattle_dealloc(void *block) {
  if (block && !((u64)block & (HEADER - 1))) give(block);
}

/* ---- 128 bits: the compiler calls these by their names. */

static u128 put(u64 low, u64 high) {
  union { u64 half[2]; u128 whole; } made = {{low, high}};
  return made.whole;
}
static u64 low_of(u128 a) { return ((union { u128 whole; u64 half[2]; }){a}).half[0]; }
static u64 high_of(u128 a) { return ((union { u128 whole; u64 half[2]; }){a}).half[1]; }

u128 __ashlti3(u128 a, int by) {
  u64 low = low_of(a), high = high_of(a);
  if (by & 64) return put(0, low << (by & 63));
  return by ? put(low << by, high << by | low >> (64 - by)) : a;
}

u128 __lshrti3(u128 a, int by) {
  u64 low = low_of(a), high = high_of(a);
  if (by & 64) return put(high >> (by & 63), 0);
  return by ? put(low >> by | high << (64 - by), high >> by) : a;
}

i128 __ashrti3(i128 a, int by) {
  u64 low = low_of(a);
  i64 high = (i64)high_of(a);
  if (by & 64) return put((u64)(high >> (by & 63)), (u64)(high >> 63));
  return by ? put(low >> by | (u64)high << (64 - by), (u64)(high >> by)) : a;
}

i128 __multi3(i128 a, i128 b) {
  const u64 HALF = 0xffffffff;
  u64 x = low_of(a), y = low_of(b);
  u64 low = (x & HALF) * (y & HALF), left = (x >> 32) * (y & HALF), right = (x & HALF) * (y >> 32);
  u64 middle = (low >> 32) + (left & HALF) + (right & HALF);
  u64 high = (x >> 32) * (y >> 32) + (left >> 32) + (right >> 32) + (middle >> 32);
  return put(middle << 32 | (low & HALF), high + high_of(a) * y + x * high_of(b));
}

/* Bit after bit, from the left; the rest goes to `left`. */
static u128 divided(u128 a, u128 by, u128 *left) {
  if (!high_of(a) && !high_of(by)) {
    *left = put(low_of(a) % low_of(by), 0);
    return put(low_of(a) / low_of(by), 0);
  }
  u64 quotient[2] = {0, 0}, low = 0, high = 0, by_low = low_of(by), by_high = high_of(by);
  for (int k = 127; k >= 0; k--) {
    u64 carry = high >> 63, bit = (k < 64 ? low_of(a) : high_of(a)) >> (k & 63) & 1;
    high = high << 1 | low >> 63;
    low = low << 1 | bit;
    if (carry || high > by_high || (high == by_high && low >= by_low)) {
      high -= by_high + (low < by_low);
      low -= by_low;
      quotient[k >> 6] |= (u64)1 << (k & 63);
    }
  }
  *left = put(low, high);
  return put(quotient[0], quotient[1]);
}

u128 __udivti3(u128 a, u128 by) {
  u128 left;
  return divided(a, by, &left);
}

u128 __umodti3(u128 a, u128 by) {
  u128 left;
  divided(a, by, &left);
  return left;
}
