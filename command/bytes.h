/* Reads and writes that go on until all is done; one that fails is said, and ends the run. */
#ifndef BYTES_H
#define BYTES_H

#include <stddef.h>
#include <stdint.h>

/* All of `count` bytes from `place` on. */
void read_at(int file, const char *path, uint8_t *bytes, size_t count, uint64_t place);

/* What has come, at least one byte; 0 at the end. */
size_t read_some(int file, const char *path, uint8_t *bytes, size_t room);

void write_at(int file, const char *path, const uint8_t *bytes, size_t count, uint64_t place);
void write_on(int file, const char *path, const void *bytes, size_t count);

/* Where standard input, output or error is shut, its number stays with no file: a read or write of it fails, and goes
 * to no other one. */
void fill_standard_files(void);

/* Standard output may be written to. */
void check_standard_output(void);

/* Text to standard output. */
void print(const char *text);

#endif
