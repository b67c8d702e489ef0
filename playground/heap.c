/* Replaces the C library in the module of a page: allocates memory for the kit's three calls, and defines the functions that
 * LLVM calls by name. It is written by hand and trusted, and works for one thread.
 *
 * The chunks are contiguous, up to `top`, where unused memory starts. Two free chunks are never adjacent: `free` merges a chunk
 * with its free neighbours, so the blocks that a growing vector leaves can be reused. Free chunks are in lists by size, with
 * two lists for each power of two. WebAssembly returns no memory to the host. */
typedef unsigned long u64;
typedef unsigned char u8;
enum { HEAD = 16, LEAST = 32, USED = 1, BEFORE_USED = 2, LISTS = 128, TRIES = 16, PAGE = 65536, AHEAD = 64 };
typedef struct Chunk {
  u64 before; /* size of the previous chunk in bytes, while that one is free */
  u64 size;   /* size in bytes, including this header, and the two flags */
  struct Chunk *next, *last; /* neighbours in its list, while it is free */
} Chunk;
extern u8 __heap_base;
static Chunk *lists[LISTS];
static u8 *top, *limit;

static u64 bytes_of(const Chunk *chunk) { return chunk->size & ~(u64)15; }
static Chunk *behind(Chunk *chunk) { return (Chunk *)((u8 *)chunk + bytes_of(chunk)); }
static u64 list_of(u64 bytes) {
  u64 log = 63 - (u64)__builtin_clzl(bytes);
  return 2 * log + ((bytes >> (log - 1)) & 1);
}
static void put(Chunk *chunk) {
  Chunk **list = &lists[list_of(bytes_of(chunk))];
  chunk->last = 0;
  chunk->next = *list;
  if (*list) (*list)->last = chunk;
  *list = chunk;
}
static void take(Chunk *chunk) {
  if (chunk->last) chunk->last->next = chunk->next;
  else lists[list_of(bytes_of(chunk))] = chunk->next;
  if (chunk->next) chunk->next->last = chunk->last;
}
/* Grows the memory to an address. If it must grow, it adds an eighth, at most AHEAD pages, or the pages needed if they are more
 * or if that fails. Returns false if memory runs out. */
static _Bool reach(u8 *end) {
  if (!limit) limit = (u8 *)(__builtin_wasm_memory_size(0) * PAGE);
  if (end <= limit) return 1;
  u64 pages = ((u64)(end - limit) + PAGE - 1) / PAGE, ahead = (u64)limit / PAGE / 8;
  if (ahead > AHEAD) ahead = AHEAD;
  if (ahead > pages && __builtin_wasm_memory_grow(0, ahead) != (u64)-1) pages = ahead;
  else if (__builtin_wasm_memory_grow(0, pages) == (u64)-1) return 0;
  limit += pages * PAGE;
  return 1;
}
/* Marks a chunk of `held` bytes as used, and makes a free chunk of the bytes after the `wanted` ones if they suffice for one. */
static void use(Chunk *chunk, u64 held, u64 wanted) {
  u64 rest = held - wanted;
  if (rest < LEAST) {
    chunk->size = held | USED | (chunk->size & BEFORE_USED);
    if ((u8 *)behind(chunk) != top) behind(chunk)->size |= BEFORE_USED;
    return;
  }
  chunk->size = wanted | USED | (chunk->size & BEFORE_USED);
  Chunk *left = behind(chunk);
  left->size = rest | BEFORE_USED;
  if ((u8 *)behind(left) == top) {
    top = (u8 *)left;
    return;
  }
  behind(left)->before = rest;
  behind(left)->size &= ~(u64)BEFORE_USED;
  put(left);
}
static Chunk *found(u64 wanted) {
  u64 first = list_of(wanted);
  Chunk *chunk = lists[first];
  for (int k = 0; chunk && k < TRIES; k++, chunk = chunk->next)
    if (bytes_of(chunk) >= wanted) return chunk;
  for (u64 k = first + 1; k < LISTS; k++)
    if (lists[k]) return lists[k];
  return 0;
}
static u64 wanted_of(u64 n) {
  u64 bytes = (n + HEAD + 15) & ~(u64)15;
  return bytes < LEAST ? LEAST : bytes;
}
void *malloc(u64 n) {
  if (n >= (u64)1 << 40) return 0;
  if (!top) top = (u8 *)(((u64)&__heap_base + 15) & ~(u64)15);
  u64 wanted = wanted_of(n);
  Chunk *chunk = found(wanted);
  if (chunk) {
    take(chunk);
    use(chunk, bytes_of(chunk), wanted);
  } else {
    /* The chunk before `top` is always in use. */
    if (!reach(top + wanted)) return 0;
    chunk = (Chunk *)top;
    chunk->size = wanted | USED | BEFORE_USED;
    top += wanted;
  }
  return (u8 *)chunk + HEAD;
}
void free(void *block) {
  if (!block) return;
  Chunk *chunk = (Chunk *)((u8 *)block - HEAD), *next = behind(chunk);
  u64 bytes = bytes_of(chunk);
  if (!(chunk->size & BEFORE_USED)) {
    Chunk *first = (Chunk *)((u8 *)chunk - chunk->before);
    take(first);
    bytes += bytes_of(first);
    chunk = first;
  }
  if ((u8 *)next == top) {
    top = (u8 *)chunk;
    return;
  }
  if (!(next->size & USED)) {
    take(next);
    bytes += bytes_of(next);
    next = (Chunk *)((u8 *)chunk + bytes);
  }
  chunk->size = bytes | BEFORE_USED;
  next->before = bytes;
  next->size &= ~(u64)BEFORE_USED;
  put(chunk);
}
static void *resized(u8 *block, u64 kept, u64 n) {
  if (n >= (u64)1 << 40) return 0;
  Chunk *chunk = (Chunk *)(block - HEAD), *next = behind(chunk);
  u64 held = bytes_of(chunk), wanted = wanted_of(n);
  if (wanted <= held) return block;
  if ((u8 *)next == top) {
    if (!reach((u8 *)chunk + wanted)) return 0;
    chunk->size += wanted - held;
    top = (u8 *)chunk + wanted;
    return block;
  }
  if (!(next->size & USED) && held + bytes_of(next) >= wanted) {
    take(next);
    use(chunk, held + bytes_of(next), wanted);
    return block;
  }
  u8 *other = malloc(n);
  if (!other) return 0;
  __builtin_memcpy(other, block, kept < n ? kept : n);
  free(block);
  return other;
}

/* The kit's three calls, with the calling convention of this target: they return whether there is memory, and its address. */
struct Tried { u64 is_there, at; };
static u8 nothing[16];
static void answer(struct Tried *to, u8 *block) {
  to->is_there = block != 0;
  to->at = (u64)(block ? block : nothing);
}
void rattle_alloc_c(struct Tried *to, u64 n, u64 align) { answer(to, malloc(n ? n : align)); }
void rattle_realloc_c(struct Tried *to, u8 *block, u64 kept, u64 n, u64 align) { answer(to, resized(block, kept, n ? n : align)); }
void rattle_dealloc(u8 *block) { free(block); }

/* In a build without a proof, a failed check ends the instance with a trap, and the caller discards the instance. */
long write(int to, const void *text, u64 n) { return (void)to, (void)text, (long)n; }
void _exit(int status) { (void)status, __builtin_trap(); }

void *memcpy(void *to, const void *from, u64 n) { return __builtin_memcpy(to, from, n); }
void *memmove(void *to, const void *from, u64 n) { return __builtin_memmove(to, from, n); }
void *memset(void *to, int c, u64 n) { return __builtin_memset(to, c, n); }
int memcmp(const void *a, const void *b, u64 n) {
  const u8 *x = a, *y = b;
  for (u64 k = 0; k < n; k++)
    if (x[k] != y[k]) return x[k] < y[k] ? -1 : 1;
  return 0;
}
int bcmp(const void *a, const void *b, u64 n) { return memcmp(a, b, n); }
/* Returns the low 128 bits of a product, from products of 64 bits. */
typedef unsigned __int128 u128;
u128 __multi3(u128 a, u128 b) {
  u64 a0 = (unsigned)a, a1 = (u64)a >> 32, b0 = (unsigned)b, b1 = (u64)b >> 32;
  u64 p00 = a0 * b0, p01 = a0 * b1, p10 = a1 * b0, p11 = a1 * b1;
  u64 middle = (p00 >> 32) + (unsigned)p01 + (unsigned)p10;
  u64 low = (middle << 32) | (unsigned)p00, high = p11 + (p01 >> 32) + (p10 >> 32) + (middle >> 32);
  high += (u64)(a >> 64) * (u64)b + (u64)a * (u64)(b >> 64);
  return ((u128)high << 64) | low;
}
