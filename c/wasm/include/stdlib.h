#ifndef STDLIB_H
#define STDLIB_H
#include <stddef.h>
#define malloc heap_take
#define calloc own_calloc
#define realloc heap_change
#define free heap_give
void *malloc(size_t size);
void *calloc(size_t count, size_t size);
void *realloc(void *at, size_t size);
void free(void *at);
_Noreturn void exit(int status);
_Noreturn void abort(void);
#define strtoul own_strtoul
#define strtoull own_strtoull
#define atoi own_atoi
unsigned long strtoul(const char *text, char **end, int base);
unsigned long long strtoull(const char *text, char **end, int base);
int atoi(const char *text);
#define atol own_atol
long atol(const char *text);
#endif
