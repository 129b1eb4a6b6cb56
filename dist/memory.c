/* The three calls by which the library takes and frees memory, for a processor for which the kit has
 * none of its own. dist/make compiles this file with the kit's clang, which has no headers, and links
 * it into the library, outside of which nobody sees these names. No proof covers it; bench/aarch64
 * tries it, beside those that the kit has for x86-64. What the library relies on:
 *
 * - `align` is 1, 2, 4, 8 or 16, and no size is above 2^63 - 1.
 * - rattle_alloc answers `is_there` 1 and a block of `size` bytes, or of `align` where `size` is 0,
 *   that begins at a multiple of `align`: malloc's begin at one of 16. So also a block without bytes
 *   has an address of its own, by which it is freed. Where there is no memory it answers 0.
 * - rattle_realloc gives a block that rattle_alloc or itself gave another size, keeps as many bytes
 *   as both sizes have, and answers in the same way. Where there is no memory the block stays as it
 *   was.
 * - rattle_dealloc frees such a block.
 * - `at` is never null, also where there is no block: then it is an address that is not to be used.
 */
typedef __SIZE_TYPE__ size_t;
typedef __UINT64_TYPE__ uint64_t;

extern void *malloc(size_t size);
extern void *realloc(void *block, size_t size);
extern void free(void *block);

typedef struct tried {
    uint64_t is_there;
    void *at;
} tried;

tried rattle_alloc(size_t size, size_t align);
tried rattle_realloc(void *block, size_t old_size, size_t size, size_t align);
void rattle_dealloc(void *block);

static char nothing;

static tried answered(void *block) {
    const tried made = {block != 0, block != 0 ? block : &nothing};
    return made;
}

tried rattle_alloc(size_t size, size_t align) { return answered(malloc(size != 0 ? size : align)); }

tried rattle_realloc(void *block, size_t old_size, size_t size, size_t align) {
    (void)old_size;
    return answered(realloc(block, size != 0 ? size : align));
}

void rattle_dealloc(void *block) { free(block); }
