/* page_heap.c: the heap of the program where it runs in a page, over the memory that a browser gives a module. It has
 * the three calls that the kit's libraries make of a heap, and two for the page, which lays its texts there.
 *
 * A block has one of a few sizes, four for each power of two, and a head that says which. A block that was given back
 * waits in the list of its size. A new one is the first in the lists of its own size and of the four above it, none of
 * which is twice as large, and else is cut from what the browser gave last. Nothing is ever joined: what a run took and
 * gave back is there for the next one, and a page that has run a large plan begins anew.
 */
typedef unsigned long number; /* of 64 bits, as a pointer here */

enum { HEAD = 16, SIZES = 240, NEAR = 4, PAGE = 65536 };

/* What stands before a block: the number of its size, and while it waits the next one in the list. */
struct head {
    number size;
    struct head *next;
};

/* What the kit's libraries are answered: whether there is memory, and the block. */
struct tried {
    number ok;
    void *block;
};

extern unsigned char __heap_base;
static struct head *waiting[SIZES];
static number top, end;
static unsigned char nothing;

/* How many bytes the blocks of a size have. */
static number bytes_of(number size)
{
    return (4 + size % 4) << (size / 4 + 2);
}

/* The number of the least size that has so many bytes. */
static number size_of(number bytes)
{
    number whole = bytes < 16 ? 16 : bytes;
    number digits = 63 - __builtin_clzll(whole);
    number size = (digits - 4) * 4 + (whole >> (digits - 2)) - 4;

    return bytes_of(size) < whole ? size + 1 : size;
}

/* Takes a block out of the lists, or null where none waits that is near enough. */
static struct head *take_waiting(number size)
{
    for (number at = size; at <= size + NEAR && at < SIZES; at++) {
        struct head *found = waiting[at];
        if (found) {
            waiting[at] = found->next;
            return found;
        }
    }
    return 0;
}

/* Cuts a new block, or null where the browser refuses memory. */
static struct head *cut(number size)
{
    number length = HEAD + (bytes_of(size) + HEAD - 1) / HEAD * HEAD;

    if (!top)
        top = end = ((number)&__heap_base + HEAD - 1) / HEAD * HEAD;
    if (end - top < length) {
        number pages = (length - (end - top) + PAGE - 1) / PAGE + 16;
        number before = __builtin_wasm_memory_grow(0, pages);
        if (before == (number)-1)
            return 0;
        end = (before + pages) * PAGE;
    }
    struct head *made = (struct head *)top;
    top += length;
    made->size = size;
    return made;
}

/* A block of so many bytes, or null. */
__attribute__((export_name("page_room"))) void *page_room(number bytes)
{
    number size = bytes >> 40 ? SIZES : size_of(bytes);
    struct head *found = size < SIZES ? take_waiting(size) : 0;

    if (!found && size < SIZES)
        found = cut(size);
    return found ? (unsigned char *)found + HEAD : 0;
}

/* Gives a block back. */
__attribute__((export_name("page_room_back"))) void page_room_back(void *block)
{
    struct head *head = (struct head *)((unsigned char *)block - HEAD);

    head->next = waiting[head->size];
    waiting[head->size] = head;
}

/* What is answered with this block, or where it is null. */
static struct tried answer(void *block)
{
    return (struct tried){ .ok = block != 0, .block = block ? block : &nothing };
}

struct tried rattle_alloc(number bytes, number align)
{
    (void)align;
    return answer(page_room(bytes));
}

struct tried rattle_realloc(void *block, number kept, number bytes, number align)
{
    struct head *head = (struct head *)((unsigned char *)block - HEAD);
    void *moved;

    (void)align;
    if (bytes <= bytes_of(head->size) && bytes >= bytes_of(head->size) / 4)
        return answer(block);
    moved = page_room(bytes);
    if (!moved)
        return answer(bytes <= bytes_of(head->size) ? block : (void *)0);
    __builtin_memcpy(moved, block, kept < bytes ? kept : bytes);
    page_room_back(block);
    return answer(moved);
}

void rattle_dealloc(void *block)
{
    page_room_back(block);
}
