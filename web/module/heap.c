// The heap of the WebAssembly module: the three functions that Rattle's `Global` calls, over memory.grow.
//
// A block belongs to a class of sizes, of which each power of two has four, and a freed block waits in the list of its
// class for the next one that is as large. So a block costs a few instructions, and a fourth of its size at most. The
// sixteen bytes before a block hold its class, and keep it aligned to sixteen. The memory grows, and never shrinks.
typedef unsigned long u64;
_Static_assert(sizeof(u64) == 8 && sizeof(void *) == 8, "pointers have 64 bits until binaryen lowers them");

struct answer { u64 granted; void *block; }; // the caller reads the low byte of `granted`
struct header { u64 class, unused; };
struct waiting { struct waiting *next; };

enum { PAGE = 65536, CLASSES = 256 };
extern unsigned char __heap_base; // the linker puts it behind the stack and the data
static struct waiting *waiting[CLASSES];
static u64 top, end;       // the heap goes on from here, up to here
static u64 calls, refused; // for tests: the call of this number is refused, where it is not 0
static unsigned char nothing[16];

// 16, 32, 48, 64, and then 80, 96, 112, 128, 160, 192, ..
static u64 size_of(u64 class) {
  return class < 4 ? 16 * (class + 1) : (class % 4 + 5) << (class / 4 + 3);
}

static u64 class_of(u64 size) {
  if (size <= 64) return size ? (size - 1) / 16 : 0;
  u64 power = 63 - __builtin_clzl(size - 1); // 2^power < size <= 2^(power + 1)
  return 4 * (power - 6) + 4 + (((size - 1) >> (power - 2)) & 3);
}

// Makes room for so many bytes at the top: for a quarter of the memory more at once, where that can be had.
static int has_room(u64 bytes) {
  if (!top) {
    top = ((u64)&__heap_base + 15) & -16ul;
    end = __builtin_wasm_memory_size(0) * PAGE;
  }
  if (bytes <= end - top) return 1;
  u64 least = (bytes - (end - top) + PAGE - 1) / PAGE, most = end / PAGE / 4;
  for (u64 pages = most > least ? most : least;; pages = least) {
    // -1 is a refusal; behind the lowering its upper half is gone
    if ((unsigned)__builtin_wasm_memory_grow(0, pages) != -1u) {
      end += pages * PAGE;
      return 1;
    }
    if (pages == least) return 0;
  }
}

void *block(u64 size) {
  if (++calls == refused || size >> 40) return 0;
  u64 class = class_of(size);
  struct waiting *first = waiting[class];
  if (first) {
    waiting[class] = first->next;
    return first;
  }
  u64 whole = sizeof(struct header) + size_of(class);
  if (!has_room(whole)) return 0;
  struct header *header = (struct header *)top;
  header->class = class;
  top += whole;
  return header + 1;
}

void free_block(void *block) {
  u64 class = ((struct header *)block)[-1].class;
  ((struct waiting *)block)->next = waiting[class];
  waiting[class] = block;
}

static struct answer answer(void *block) {
  return (struct answer){block != 0, block ? block : nothing};
}

// Nothing has no place of its own in a heap, so it gets what it is to be aligned to.
struct answer rattle_alloc(u64 size, u64 align) { return answer(block(size ? size : align)); }

struct answer rattle_realloc(void *old, u64 kept, u64 size, u64 align) {
  size = size ? size : align;
  if (class_of(size) == ((struct header *)old)[-1].class) return answer(++calls == refused ? 0 : old);
  void *new = block(size);
  if (new) {
    __builtin_memcpy(new, old, kept < size ? kept : size);
    free_block(old);
  }
  return answer(new);
}

void rattle_dealloc(void *block) { free_block(block); }

// For tests: the call of this number from now on is refused, or none where it is 0. Answers how many calls there were
// since the last time.
u64 fail_at(u64 number) {
  u64 before = calls;
  calls = 0;
  refused = number;
  return before;
}
