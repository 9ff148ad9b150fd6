/* Put before the C library by LD_PRELOAD, for tests/tests/faults.rs: makes calls of the command fail, or ends it at one of them. Other programs
   that it starts are left alone. UNLOOP_FAULT says what is done:
     end N   the command is ended at its N-th call that changes files, counted from 1; of a write half of the bytes are written before
     links   the file system has no hard links
     neither it has none, and no renaming that replaces nothing
   Each failed call is noted in the file that UNLOOP_NOTES names. */
#define _GNU_SOURCE
#include <dlfcn.h>
#include <errno.h>
#include <fcntl.h>
#include <signal.h>
#include <stdarg.h>
#include <stdlib.h>
#include <string.h>
#include <sys/stat.h>
#include <sys/syscall.h>
#include <unistd.h>

#define NEXT(name) ((__typeof__(&name))dlsym(RTLD_NEXT, #name))

static const char *fault(void) {
  const char *told = getenv("UNLOOP_FAULT");
  return told && !strcmp(program_invocation_short_name, "unloop-files") ? told : "";
}

/* Whether this call is the one to end at. */
static int is_the_end(void) {
  static int calls;
  const char *told = fault();
  return !strncmp(told, "end ", 4) && __atomic_add_fetch(&calls, 1, __ATOMIC_SEQ_CST) == atoi(told + 4);
}

static void end_here(void) {
  if (is_the_end()) kill(getpid(), SIGKILL);
}

/* The call fails, and it is noted. */
static int failed(const char *call, int error) {
  int notes = syscall(SYS_open, getenv("UNLOOP_NOTES"), O_WRONLY | O_CREAT | O_APPEND, 0666);
  syscall(SYS_write, notes, call, strlen(call));
  syscall(SYS_close, notes);
  errno = error;
  return -1;
}

int open64(const char *path, int flags, ...) {
  va_list rest;
  va_start(rest, flags);
  mode_t mode = va_arg(rest, mode_t);
  va_end(rest);
  if (flags & O_CREAT) end_here();
  return NEXT(open64)(path, flags, mode);
}

ssize_t write(int file, const void *bytes, size_t count) {
  struct stat found;
  if (!fstat(file, &found) && S_ISREG(found.st_mode) && is_the_end()) {
    NEXT(write)(file, bytes, count / 2);
    kill(getpid(), SIGKILL);
  }
  return NEXT(write)(file, bytes, count);
}

int linkat(int folder, const char *path, int new_folder, const char *name, int flags) {
  if (!strcmp(fault(), "links") || !strcmp(fault(), "neither")) return failed("linkat\n", EPERM);
  end_here();
  return NEXT(linkat)(folder, path, new_folder, name, flags);
}

int renameat2(int folder, const char *path, int new_folder, const char *name, unsigned flags) {
  if (!strcmp(fault(), "neither")) return failed("renameat2\n", EINVAL);
  end_here();
  return NEXT(renameat2)(folder, path, new_folder, name, flags);
}

int rename(const char *path, const char *name) {
  end_here();
  return NEXT(rename)(path, name);
}

int unlink(const char *path) {
  end_here();
  return NEXT(unlink)(path);
}

int mkdir(const char *path, mode_t mode) {
  end_here();
  return NEXT(mkdir)(path, mode);
}
