// What the compiled program asks of a system, in a browser: a heap, the words of a call, and standard input and output as
// buffers, all in one memory of 64 bits. Nothing else is linked with the program, and the module that comes out imports nothing.
//
// The host makes a call so: `begin`; `words_at` and `input_at`, which answer where it puts the words, each ended by a byte 0, and
// the input; `run`, which answers the status; then `output_at` and `output_length`. No call finds anything of the one before:
// `begin` empties the heap and all that stands here, and the program has no variables of its own. After a trap the stack isn't
// where it was, and the host makes the module anew.

typedef unsigned char byte;
typedef __SIZE_TYPE__ size;
typedef __INTPTR_TYPE__ signed_size;
typedef unsigned __int128 wide;

#define exported(name) __attribute__((export_name(#name))) name

// ---- The heap ------------------------------------------------------------------------------------------------------
// Blocks have sizes that are powers of two. Each stands behind a header with its kind, the power; one that is freed is kept in
// a list of its kind, and found again by the next that wants one of this kind. All begin at multiples of 16.

enum { KINDS = 64, HEADER = 16, SMALLEST = 4, PAGE = 65536 };

extern byte __heap_base;
static byte *top, *end, *freed[KINDS];

static size kind_of(size wanted) {
  size kind = SMALLEST;
  while ((size)1 << kind < wanted) kind++;
  return kind;
}

static int grow(size pages) {
  if (__builtin_wasm_memory_grow(0, pages) == (size)-1) return 0;
  end += pages * PAGE;
  return 1;
}

// Whether the memory goes on for so many bytes behind `top`, or can be made to: by a quarter more than there is, so that it grows
// seldom, or else by what is wanted.
static int has_room(size wanted) {
  size rest = end - top;
  if (wanted <= rest) return 1;
  size pages = (wanted - rest + PAGE - 1) / PAGE, quarter = __builtin_wasm_memory_size(0) / 4;
  return (pages < quarter && grow(quarter)) || grow(pages);
}

// A block of so many bytes, or 0.
static byte *take(size wanted) {
  size kind = kind_of(wanted);
  byte *block = freed[kind];
  if (block) {
    freed[kind] = *(byte **)block;
    return block;
  }
  if (!has_room(HEADER + ((size)1 << kind))) return 0;
  block = top + HEADER;
  top = block + ((size)1 << kind);
  *(size *)(block - HEADER) = kind;
  return block;
}

static void give_back(byte *block) {
  size kind = *(size *)(block - HEADER);
  *(byte **)block = freed[kind];
  freed[kind] = block;
}

// What the kit's C code has over `malloc`: a block of no bytes is one of as many as its alignment, and where there is none, some
// address that isn't 0. Each alignment divides 16.
struct tried {
  size is_there;
  byte *block;
};

static struct tried tried(byte *block) {
  return block ? (struct tried){1, block} : (struct tried){0, &__heap_base};
}

struct tried rattle_alloc(size wanted, size alignment) {
  return tried(take(wanted ? wanted : alignment));
}

void rattle_dealloc(byte *block) {
  give_back(block);
}

struct tried rattle_realloc(byte *block, size kept, size wanted, size alignment) {
  size has = (size)1 << *(size *)(block - HEADER);
  if (wanted <= has) return tried(block);
  byte *larger = take(wanted);
  if (larger) {
    __builtin_memcpy(larger, block, kept < has ? kept : has);
    give_back(block);
  }
  return tried(larger);
}

// ---- Words, input and output ---------------------------------------------------------------------------------------

enum { NOT_PRESENT = -1, TOO_LONG = -2, FAILED = -1, BAD_DESCRIPTOR = 9, NO_MEMORY = 12 };

static int error;
static byte *words, *words_end, *input, *input_end, *output;
static size output_size, output_room;

int rattle_errno(void) {
  return error;
}

void rattle_set_errno(int number) {
  error = number;
}

// The word with this number, of which 0 is the program's name, in the buffer, and its length.
signed_size rattle_arg(size number, byte *buffer, size room) {
  if (number == 0) return 0;
  byte *word = words;
  for (; number > 1 && word < words_end; number--) {
    while (*word++) {}
  }
  if (word == words_end) return NOT_PRESENT;
  size length = 0;
  for (; word[length]; length++) {
    if (length == room) return TOO_LONG;
    buffer[length] = word[length];
  }
  return length;
}

signed_size read(int descriptor, byte *buffer, size room) {
  if (descriptor != 0) {
    error = BAD_DESCRIPTOR;
    return FAILED;
  }
  size rest = input_end - input, count = room < rest ? room : rest;
  __builtin_memcpy(buffer, input, count);
  input += count;
  return count;
}

static int has_output_room(size wanted) {
  if (wanted <= output_room) return 1;
  byte *larger = take(2 * wanted);
  if (!larger) return 0;
  if (output) {
    __builtin_memcpy(larger, output, output_size);
    give_back(output);
  }
  output = larger;
  output_room = 2 * wanted;
  return 1;
}

signed_size write(int descriptor, const byte *buffer, size count) {
  if (descriptor != 1 || !has_output_room(output_size + count)) {
    error = descriptor != 1 ? BAD_DESCRIPTOR : NO_MEMORY;
    return FAILED;
  }
  __builtin_memcpy(output + output_size, buffer, count);
  output_size += count;
  return count;
}

// ---- What a program does as it starts ------------------------------------------------------------------------------

// It ignores a signal, of which there are none here.
size __sysv_signal(int number, size handler) {
  return 0;
}

// It asks the C library whether the processor has what the code was compiled for, which is no longer this code: all is there.
// What it would say where something isn't, goes nowhere.
const unsigned *__x86_get_cpuid_feature_leaf(unsigned leaf) {
  static const unsigned all[8] = {-1, -1, -1, -1, -1, -1, -1, -1};
  return all;
}

signed_size __write(int descriptor, const byte *buffer, size count) {
  return count;
}

// ---- The host's calls ----------------------------------------------------------------------------------------------

int __original_main(void);

void exported(begin)(void) {
  top = (byte *)(((size)&__heap_base + HEADER - 1) & ~(size)(HEADER - 1));
  end = (byte *)(__builtin_wasm_memory_size(0) * PAGE);
  for (int kind = 0; kind < KINDS; kind++) freed[kind] = 0;
  words = words_end = input = input_end = output = 0;
  output_size = output_room = 0;
  error = 0;
}

// Where so many bytes of words go, or 0 where there is no room.
byte *exported(words_at)(size count) {
  words = take(count);
  words_end = words + count;
  return words;
}

byte *exported(input_at)(size count) {
  input = take(count);
  input_end = input + count;
  return input;
}

int exported(run)(void) {
  return __original_main();
}

byte *exported(output_at)(void) {
  return output;
}

size exported(output_length)(void) {
  return output_size;
}

// ---- What the compiler calls by name: shifts and products of 128 bits ----------------------------------------------
// They are exported to be tried alone, since few calls of the program have to do with numbers that long.

static wide joined(size high, size low) {
  return (wide)high << 64 | low;
}

wide exported(__ashlti3)(wide value, int count) {
  size low = value, high = value >> 64;
  if (count == 0) return value;
  if (count >= 64) return joined(low << (count - 64), 0);
  return joined(high << count | low >> (64 - count), low << count);
}

wide exported(__lshrti3)(wide value, int count) {
  size low = value, high = value >> 64;
  if (count == 0) return value;
  if (count >= 64) return joined(0, high >> (count - 64));
  return joined(high >> count, low >> count | high << (64 - count));
}

// The product of two numbers of 64 bits, by their halves.
static wide product(size one, size other) {
  size half = 0xffffffff, low = one & half, high = one >> 32, other_low = other & half, other_high = other >> 32;
  size first = low * other_low, second = low * other_high, third = high * other_low;
  size middle = (first >> 32) + (second & half) + (third & half);
  return joined(high * other_high + (second >> 32) + (third >> 32) + (middle >> 32), middle << 32 | (first & half));
}

wide exported(__multi3)(wide one, wide other) {
  size low = one, high = one >> 64, other_low = other, other_high = other >> 64;
  return product(low, other_low) + joined(low * other_high + high * other_low, 0);
}
