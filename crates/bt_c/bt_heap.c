/* bt_heap.c: the memory of an end (bt.h), over malloc, realloc and free. It is in libbt.a and libbt.so.
 *
 * To give ends other memory, define these three functions in the program, and link libbt.a after it. What they owe: a block of
 * n bytes at a multiple of align, which is at most 16; p is never null, also if ok is 0; n may be 0; and rattle_realloc
 * keeps the first `kept` bytes, and leaves the block as it was if ok is 0.
 */
typedef struct {
    _Bool ok;
    void *p;
} bt_block;

void *malloc(__SIZE_TYPE__);
void *realloc(void *, __SIZE_TYPE__);
void free(void *);

static bt_block made(void *p, void *otherwise) {
    return (bt_block){p != 0, p != 0 ? p : otherwise};
}

bt_block rattle_alloc(__SIZE_TYPE__ n, __SIZE_TYPE__ align) {
    static _Alignas(16) char nothing[16];
    (void)align;
    return made(malloc(n + (n == 0)), nothing);
}

bt_block rattle_realloc(void *p, __SIZE_TYPE__ kept, __SIZE_TYPE__ n, __SIZE_TYPE__ align) {
    (void)kept;
    (void)align;
    return made(realloc(p, n + (n == 0)), p);
}

void rattle_dealloc(void *p) {
    free(p);
}
