"""System calls by their numbers, on x86-64 Linux: which the runtime answers, and the names of the others."""

# What lower/runtime/system.ssa answers.
ANSWERED = frozenset((0, 1, 3, 9, 10, 11, 12, 13, 14, 16, 20, 24, 28, 39, 60, 62, 96, 102, 104, 107, 108, 110, 186, 200,
                      201, 228, 229, 231, 234))
# The same, where there are files.
ANSWERED_WITH_FILES = ANSWERED | {2, 4, 5, 6, 8, 21, 77, 82, 85, 87, 257, 262}
NAMES = dict(enumerate((
    "read write open close stat fstat lstat poll lseek mmap mprotect munmap brk rt_sigaction rt_sigprocmask "
    "rt_sigreturn ioctl pread64 pwrite64 readv writev access pipe select sched_yield mremap msync mincore madvise "
    "shmget shmat shmctl dup dup2 pause nanosleep getitimer alarm setitimer getpid sendfile socket connect accept "
    "sendto recvfrom sendmsg recvmsg shutdown bind listen getsockname getpeername socketpair setsockopt getsockopt "
    "clone fork vfork execve exit wait4 kill uname semget semop semctl shmdt msgget msgsnd msgrcv msgctl fcntl flock "
    "fsync fdatasync truncate ftruncate getdents getcwd chdir fchdir rename mkdir rmdir creat link unlink symlink "
    "readlink chmod fchmod chown fchown lchown umask gettimeofday getrlimit getrusage sysinfo times ptrace getuid "
    "syslog getgid setuid setgid geteuid getegid setpgid getppid").split()))
NAMES |= {158: "arch_prctl", 186: "gettid", 200: "tkill", 201: "time", 202: "futex", 217: "getdents64",
          218: "set_tid_address", 228: "clock_gettime", 229: "clock_getres", 230: "clock_nanosleep", 231: "exit_group",
          234: "tgkill", 257: "openat", 258: "mkdirat", 262: "newfstatat", 263: "unlinkat", 273: "set_robust_list",
          293: "pipe2", 302: "prlimit64", 318: "getrandom", 319: "memfd_create", 332: "statx", 334: "rseq"}
# The functions that make a call of the system, by its number as their first argument.
CALLERS = frozenset(("$syscall", *(f"$rt.syscall{count}" for count in range(7))))


def told(number: int) -> str:
    """What the report says of a call that isn't answered."""
    name = f" ({NAMES[number]})" if number in NAMES else ""
    return f"call {number}{name} of the system isn't there: it answers -38 (ENOSYS)"
