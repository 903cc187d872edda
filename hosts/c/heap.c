/* The three functions by which the assembler's library takes memory, over malloc, for a processor for which the kit has no machine code of its own: they
 * keep the contracts of heap.rt in the kit's libc. A block of no byte has one; where memory is refused, the answer has a place that isn't null, and
 * the old block stays. What malloc gives lies at a multiple of 16, which each alignment that is asked for divides.
 *
 * hosts/aarch64 compiles it by the kit's compiler, which has no headers of C.
 */
typedef __SIZE_TYPE__ size;

void *malloc(size bytes);
void *realloc(void *block, size bytes);
void free(void *block);

struct tried {
    size is_there;
    void *block;
};

static char nowhere;

static struct tried told(void *block)
{
    struct tried answer = {block != 0, block ? block : &nowhere};
    return answer;
}

struct tried rattle_alloc(size bytes, size alignment)
{
    (void)alignment;
    return told(malloc(bytes ? bytes : 1));
}

struct tried rattle_realloc(void *block, size kept, size bytes, size alignment)
{
    (void)kept, (void)alignment;
    return told(realloc(block, bytes ? bytes : 1));
}

void rattle_dealloc(void *block)
{
    free(block);
}
