// Stands in for the devices of a program: its standard input gives and its standard output takes few bytes a call, and
// one call may fail. tests/program builds it as a shared library and has the system load it before the C library, so
// that it stands in for that library's own read and write:
//   STEP    the most bytes that a call gives or takes
//   READ    the call of read that fails, counted from 1; none fails where this isn't set
//   WRITE   the same of write
//   ERROR   the error of the call that fails; where it is 0, the call gives or takes nothing
#define _GNU_SOURCE
#include <errno.h>
#include <stddef.h>
#include <stdlib.h>
#include <sys/syscall.h>
#include <unistd.h>

static long setting(const char *name) {
  const char *text = getenv(name);
  return text == NULL ? 0 : strtol(text, NULL, 10);
}

// Makes a call of the system. What is read and written by a standard device has the number of that device.
static ssize_t make(int which, int device, void *bytes, size_t length) {
  static const char *const failing[] = {"READ", "WRITE"};
  static const long calls[] = {SYS_read, SYS_write};
  static long made[2];
  if (device == which) {
    if (++made[which] == setting(failing[which])) {
      errno = (int)setting("ERROR");
      return errno == 0 ? 0 : -1;
    }
    size_t step = (size_t)setting("STEP");
    if (length > step) length = step;
  }
  return syscall(calls[which], device, bytes, length);
}

ssize_t read(int device, void *bytes, size_t length) { return make(STDIN_FILENO, device, bytes, length); }

ssize_t write(int device, const void *bytes, size_t length) {
  return make(STDOUT_FILENO, device, (void *)bytes, length);
}

// Another name of write, by which programs call it too.
ssize_t __write(int device, const void *bytes, size_t length) { return write(device, bytes, length); }
