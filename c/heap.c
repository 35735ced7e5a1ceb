/* The memory functions that the library calls, made of malloc. Compile this file along with the library. */
#include <stdbool.h>
#include <stddef.h>
#include <stdlib.h>
typedef struct { bool is_ok; void *at; } tried;
static char nothing;
static tried tell(void *at) { return (tried){at != NULL, at != NULL ? at : &nothing}; }
tried rattle_alloc(size_t size, size_t align) { return tell(malloc(size != 0 ? size : align)); }
tried rattle_realloc(void *old, size_t kept, size_t size, size_t align) { (void)kept; return tell(realloc(old, size != 0 ? size : align)); }
void rattle_dealloc(void *at) { free(at); }
