/* What the files beside this one ask the system: tested, not proved. Each call is made whole: where the system does a part only it
 * goes on from there, and one that a signal interrupts is made again. A function answers a cvec_status; where that is
 * one from CVEC_DISK_OPEN to CVEC_DISK_SYNC, errno has the reason. What closes something leaves errno as it was.
 *
 * A descriptor that is opened here is none of a program that another thread starts, and never has the number of a standard stream: it
 * would be written what another thread prints there. Where such streams are closed they get /dev/null, opened so that to read and to
 * print fails as before (EBADF), and a program that is run has them closed. */
#ifndef CVEC_SYSTEM_H
#define CVEC_SYSTEM_H

#include "cvec/proved.h"

#pragma GCC visibility push(hidden)

/* ---- files */

/* Opens by the flags of open(2). CVEC_NOT_FILE: a folder, a pipe or a device has the name; to open one may wait, or do more. Where it
 * is refused *fd is -1, here and below. */
cvec_status cvec_system_open(const char *path, int flags, int *fd);

/* Opens the file to which the path leads, to be read and written, and locks it (flock). A lock that readers share is waited for, 10
 * seconds; while it is waited for, another file may be put in the place of this one: what is opened has the name then. */
cvec_status cvec_system_open_locked(const char *path, int flags, int *fd);

/* Leaves the lock to a forked process, or to the parent of this one. */
void cvec_system_close(int fd);

/* For the process that has opened it: gives the lock up too. A program that another thread starts has a copy of the descriptor until
 * it runs, which would keep the file locked behind the close. */
void cvec_system_close_unlocked(int fd);

/* How many bytes the file has. CVEC_NOT_FILE: it is none. */
cvec_status cvec_system_length(int fd, uint64_t *len);

/* Which file it is: the number of its device, and its own there. */
cvec_status cvec_system_identity(int fd, uint64_t *device, uint64_t *file);

/* A file that ends before it has so many bytes was cut meanwhile: CVEC_DISK_READ. */
cvec_status cvec_system_read_at(int fd, uint64_t at, uint8_t *bytes, size_t len);

/* Of a file that another process may write: from that place on, no byte before one in front of it, until a read finds none or all
 * room is filled. *count is how many: fewer than room where the file ends. */
cvec_status cvec_system_read_in_turn(int fd, uint64_t at, uint8_t *bytes, size_t room, size_t *count);

/* Past the greatest size of a file it fails by EFBIG, and the process lives. */
cvec_status cvec_system_write_at(int fd, uint64_t at, const uint8_t *bytes, size_t len);

cvec_status cvec_system_sync(int fd);

/* The folder of this file: a new name is durable only then. */
cvec_status cvec_system_sync_folder(const char *path);

/* So that what was read is on the device. What can't be written is there, and such a file system may know no sync. */
cvec_status cvec_system_sync_seen(int fd);

/* Whether the file has nothing but what a stopped creation of the one with these bytes leaves: at most as many, each of them 0 or the
 * one that it has there, and the first of several 0. CVEC_EXISTS: others are somebody's. */
cvec_status cvec_system_vacant(int fd, const uint8_t empty[CVEC_EMPTY_LEN], uint64_t *len);

/* ---- pipes: where the other end is closed, a call fails by EPIPE */

cvec_status cvec_system_pipe(int ends[2]);
cvec_status cvec_system_read(int fd, void *bytes, size_t len);
cvec_status cvec_system_write(int fd, const void *bytes, size_t len);

/* /dev/null as it is, for a process that is to have it as a standard stream: its descriptor, or -1. */
int cvec_system_open_null(int flags);

/* ---- memory */

/* Touches all pages of this memory by one call. */
void cvec_system_touch(uint8_t *memory, size_t len);

#pragma GCC visibility pop
#endif
