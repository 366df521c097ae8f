/* A disk that forgets what was not synced. Loaded before a program's other libraries, it keeps back what the program writes to a file
 * until the program syncs it, so that a kill is as if the power went.
 *
 *   cc -shared -fPIC -O2 forgets.c -o forgets.so
 *   LD_PRELOAD=./forgets.so PROGRAM
 */
#include <errno.h>
#include <stdlib.h>
#include <string.h>
#include <sys/stat.h>
#include <sys/syscall.h>
#include <unistd.h>

long syscall(long number, ...);

enum { FILES = 256 };

/* What was written to each open file and not synced yet. */
static struct {
    char *bytes;
    size_t length, room;
} back[FILES];

static int is_file(int file) {
    struct stat found;
    return file >= 0 && file < FILES && fstat(file, &found) == 0 && S_ISREG(found.st_mode);
}

/* Writes what was kept back. A disk that is full has written a part of it. */
static int let_go(int file) {
    size_t done = 0;
    if (file < 0 || file >= FILES) return 0;
    while (done < back[file].length) {
        long more = syscall(SYS_write, file, back[file].bytes + done, back[file].length - done);
        if (more < 0 && errno == EINTR) continue;
        if (more < 0) {
            back[file].length = 0;
            return -1;
        }
        done += (size_t)more;
    }
    back[file].length = 0;
    return 0;
}

ssize_t write(int file, const void *bytes, size_t length) {
    if (!is_file(file)) return syscall(SYS_write, file, bytes, length);
    if (back[file].room < back[file].length + length) {
        back[file].room = 2 * (back[file].length + length);
        back[file].bytes = realloc(back[file].bytes, back[file].room);
        if (!back[file].bytes) abort();
    }
    memcpy(back[file].bytes + back[file].length, bytes, length);
    back[file].length += length;
    return (ssize_t)length;
}

int fsync(int file) { return let_go(file) ? -1 : (int)syscall(SYS_fsync, file); }

int fdatasync(int file) { return let_go(file) ? -1 : (int)syscall(SYS_fdatasync, file); }

/* These have to see what was written; the program goes on as if it were there. */
int ftruncate(int file, off_t length) { return let_go(file) ? -1 : (int)syscall(SYS_ftruncate, file, length); }

int ftruncate64(int file, off_t length) { return ftruncate(file, length); }

off_t lseek(int file, off_t offset, int from) { return let_go(file) ? -1 : syscall(SYS_lseek, file, offset, from); }

off_t lseek64(int file, off_t offset, int from) { return lseek(file, offset, from); }

/* What is closed and was never synced is forgotten. */
int close(int file) {
    if (file >= 0 && file < FILES) back[file].length = 0;
    return (int)syscall(SYS_close, file);
}
