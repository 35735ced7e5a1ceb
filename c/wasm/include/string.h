#ifndef STRING_H
#define STRING_H
#include <stddef.h>
/* On wasm32 the compiler's own memcpy takes a length of 32 bits: it is called by way of these. */
#define memcpy(to, from, count) __builtin_memcpy((to), (from), (__SIZE_TYPE__)(count))
#define memmove(to, from, count) __builtin_memmove((to), (from), (__SIZE_TYPE__)(count))
#define memset(at, byte, count) __builtin_memset((at), (byte), (__SIZE_TYPE__)(count))
#define memcmp(one, other, count) own_memcmp((one), (other), (count))
#define strlen(text) own_strlen(text)
#define strcmp(one, other) own_strcmp((one), (other))
int own_memcmp(const void *one, const void *other, size_t count);
size_t own_strlen(const char *text);
int own_strcmp(const char *one, const char *other);
#endif
