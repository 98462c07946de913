// Stands between a program and the C library's open, read, write and close: it counts the calls, and does at one of them, or from it on, what it was asked.
//
// FAULT_AT     the place of the call, from 1; 0 or none: at no call
// FAULT_ON     set: at each call from that place on
// FAULT        what is done there:  fail E     the call is not made, and ends with the error of this number
//                                   none       the call is not made, and tells 0 bytes
//                                   short N    no more than N bytes are asked for
//                                   signal S   the process gets this signal before the call
//                                   after S    the process gets this signal after the call
//                                   cut N      the file of the call is cut to N bytes, or grows by a hole, before the call
//                                   grow N     N bytes `#` are added to the file of the call before it
// FAULT_MOST   no read and no write asks for more bytes than this
// FAULT_LOG    a file to which each call adds a line: its kind, the bytes or the error that it told, and the name of its file
#define _GNU_SOURCE
#include <errno.h>
#include <fcntl.h>
#include <signal.h>
#include <stdarg.h>
#include <stdint.h>
#include <stdio.h>
#include <stdlib.h>
#include <string.h>
#include <sys/syscall.h>
#include <unistd.h>

enum { MOST_FILES = 64, MOST_NAME = 256, LOG_PLACE = 200 };

static char names[MOST_FILES][MOST_NAME] = {"standard input", "standard output", "standard error"};
static long calls, place;
static int stays, log_to = -1;
static char action[16];
static long value;
static size_t most;

// All that is asked, taken from the environment before the program begins.
__attribute__((constructor)) static void begin(void) {
  const char *text = getenv("FAULT_AT");
  place = text ? atol(text) : 0;
  stays = getenv("FAULT_ON") != NULL;
  text = getenv("FAULT");
  if (text != NULL && sscanf(text, "%15s %ld", action, &value) < 1) abort();
  text = getenv("FAULT_MOST");
  most = text ? (size_t)atol(text) : 0;
  text = getenv("FAULT_LOG");
  if (text == NULL) return;
  int made = (int)syscall(SYS_openat, AT_FDCWD, text, O_WRONLY | O_CREAT | O_APPEND, 0666);
  if (made < 0) abort();
  log_to = fcntl(made, F_DUPFD_CLOEXEC, LOG_PLACE);
  syscall(SYS_close, made);
}

static const char *name_of(int file) { return file >= 0 && file < MOST_FILES ? names[file] : "?"; }

static long told(const char *kind, const char *name, long answer) {
  if (log_to >= 0) {
    char line[MOST_NAME + 64];
    int error = errno;
    int length = snprintf(line, sizeof line, "%s %ld %s\n", kind, answer < 0 ? -(long)error : answer, name);
    syscall(SYS_write, log_to, line, (size_t)length);
    errno = error;
  }
  return answer;
}

static int does(const char *what) { return strcmp(action, what) == 0; }

// Counts a call. Where it is one to act at, does what comes before it, and tells so.
static int is_at(const char *name) {
  calls += 1;
  if (place == 0 || calls < place || (calls > place && !stays)) return 0;
  if (does("signal")) raise((int)value);
  if (does("cut") && truncate(name, value) != 0) abort();
  if (does("grow")) {
    int file = (int)syscall(SYS_openat, AT_FDCWD, name, O_WRONLY | O_APPEND);
    for (long i = 0; i < value; i++) syscall(SYS_write, file, "#", (size_t)1);
    syscall(SYS_close, file);
  }
  return 1;
}

// Whether the call is not made; its answer is then put in `answer`.
static int is_kept_back(int at, long *answer) {
  if (!at || !(does("fail") || does("none"))) return 0;
  *answer = does("fail") ? -1 : 0;
  if (does("fail")) errno = (int)value;
  return 1;
}

static void after(int at) {
  if (at && does("after")) raise((int)value);
}

static size_t asked(int at, size_t count) {
  if (most > 0 && count > most) count = most;
  if (at && does("short") && count > (size_t)value) count = (size_t)value;
  return count;
}

static long moved(long number, const char *kind, int file, uintptr_t bytes, size_t count) {
  const char *name = name_of(file);
  int at = is_at(name);
  long answer;
  if (!is_kept_back(at, &answer)) {
    answer = syscall(number, file, bytes, asked(at, count));
    after(at);
  }
  return told(kind, name, answer);
}

ssize_t read(int file, void *into, size_t count) { return moved(SYS_read, "read", file, (uintptr_t)into, count); }

ssize_t write(int file, const void *from, size_t count) { return moved(SYS_write, "write", file, (uintptr_t)from, count); }

ssize_t __write(int file, const void *from, size_t count) { return moved(SYS_write, "write", file, (uintptr_t)from, count); }

int open(const char *name, int flags, ...) {
  va_list more;
  va_start(more, flags);
  int mode = (flags & O_CREAT) ? va_arg(more, int) : 0;
  va_end(more);
  const char *kind = (flags & O_ACCMODE) == O_RDONLY ? "open" : (flags & O_TRUNC) ? "create" : "append";
  int at = is_at(name);
  long answer;
  if (!is_kept_back(at, &answer)) {
    answer = syscall(SYS_openat, AT_FDCWD, name, flags, mode);
    after(at);
  }
  if (answer >= 0 && answer < MOST_FILES) snprintf(names[answer], MOST_NAME, "%s", name);
  return (int)told(kind, name, answer < 0 ? answer : 0) < 0 ? -1 : (int)answer;
}

// A close that fails has closed the file all the same, as Linux does it.
int close(int file) {
  const char *name = name_of(file);
  int at = is_at(name);
  long answer, made = syscall(SYS_close, file);
  if (!is_kept_back(at, &answer)) {
    answer = made;
    after(at);
  }
  return (int)told("close", name, answer);
}
