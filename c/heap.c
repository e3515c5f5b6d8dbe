/* The heap that Rattle's code calls, over malloc, whose memory is aligned for all that it asks for. No block is of no
 * bytes, and where there is no memory the pointer isn't null either. */
#include <stdbool.h>
#include <stddef.h>
#include <stdlib.h>

/* Whether there is memory, and where. */
typedef struct {
    bool is_there;
    void *at;
} tvk_tried;

tvk_tried rattle_alloc(size_t size, size_t alignment);
tvk_tried rattle_realloc(void *block, size_t kept, size_t size, size_t alignment);
void rattle_dealloc(void *block);

static tvk_tried told(void *at) {
    static char nothing;
    return (tvk_tried){at != NULL, at ? at : &nothing};
}

tvk_tried rattle_alloc(size_t size, size_t alignment) {
    return told(malloc(size ? size : alignment));
}

/* Where it fails the block stays as it was. */
tvk_tried rattle_realloc(void *block, size_t kept, size_t size, size_t alignment) {
    (void)kept;
    return told(realloc(block, size ? size : alignment));
}

void rattle_dealloc(void *block) {
    free(block);
}
