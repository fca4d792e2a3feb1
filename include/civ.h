/* The rack's frame counter, for programs in C. Link with libhost.a. */
#ifndef CIV_H
#define CIV_H

#include <stddef.h>
#include <stdint.h>

#ifdef __cplusplus
extern "C" {
#endif

/*
 * How many sound CI-V frames for `address` stand in the `length` bytes at `stream`, taken as a whole
 * stream from its start. Bytes after the last FD hold none. `stream` points at that many readable
 * bytes, and is not NULL even where there are none. Nothing is written and nothing is kept between
 * calls.
 */
size_t civ_count_frames(const uint8_t *stream, size_t length, uint8_t address);

#ifdef __cplusplus
}
#endif

#endif
