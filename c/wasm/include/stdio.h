#ifndef STDIO_H
#define STDIO_H
#include <stddef.h>
typedef struct own_file FILE;
extern FILE *const stdout, *const stderr;
#define SEEK_END 2
#define printf own_printf
#define fprintf own_fprintf
#define snprintf own_snprintf
#define puts own_puts
int printf(const char *form, ...);
int fprintf(FILE *file, const char *form, ...);
int snprintf(char *out, size_t room, const char *form, ...);
int puts(const char *text);
void perror(const char *text);
FILE *fopen(const char *name, const char *mode);
int fseek(FILE *file, long offset, int whence);
long ftell(FILE *file);
void rewind(FILE *file);
size_t fread(void *to, size_t size, size_t count, FILE *file);
int fclose(FILE *file);
#endif
