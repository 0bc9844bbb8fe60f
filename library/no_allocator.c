/* The library allocates nothing: its stores of headers are over its caller's memory. The code for a
   store over memory that grows, which the programs use, is in it too, and names an allocator. This
   one, which is never called, has no memory. */
#define NAMED __attribute__((weak, visibility("hidden")))

NAMED void *rattle_alloc(void) { return 0; }

NAMED void *rattle_realloc(void) { return 0; }
