"""Other names of functions of the C library, by which headers of C libraries have compilers call them."""


def others() -> dict[str, str]:
    """By each other name the one that the runtime has."""
    found = {"bcmp": "memcmp", "strtoimax": "strtoll", "strtoumax": "strtoull", "imaxabs": "llabs", "_IO_getc": "getc",
             "_IO_putc": "putc", "__strdup": "strdup", "__strtok_r": "strtok_r", "__stpcpy": "stpcpy",
             "__mempcpy": "mempcpy", "fseeko64": "fseeko", "ftello64": "ftello", "stat64": "stat", "lstat64": "lstat",
             "fstat64": "fstat", "ftruncate64": "ftruncate", "mmap64": "mmap", "putchar_unlocked": "putchar",
             "__sysv_signal": "signal", "bsd_signal": "signal", "__errno": "__errno_location",
             "pthread_sigmask": "sigprocmask", "imaxdiv": "lldiv", "drem": "remainder", "dremf": "remainderf",
             "roundeven": "rint", "roundevenf": "rintf", "gamma": "lgamma", "gammaf": "lgammaf",
             "wcstoimax": "wcstoll", "wcstoumax": "wcstoull", "__rawmemchr": "rawmemchr",
             "__xpg_basename": "basename", "secure_getenv": "getenv", "__environ": "environ", "_environ": "environ",
             "__progname": "program_invocation_short_name", "__progname_full": "program_invocation_name"}
    found |= {f"__{name}": name for name in ("isnan", "isnanf", "isinf", "isinff", "finite", "finitef")}
    found |= {"__tzname": "tzname", "__timezone": "timezone", "__daylight": "daylight", "mbrtoc32": "mbrtowc",
              "c32rtomb": "wcrtomb"}
    found |= {f"{name}64": name for name in ("mkstemp", "mkstemps", "mkostemp", "freopen", "tmpfile", "openat", "creat",
                                             "fgetpos", "fsetpos", "truncate", "fcntl", "fstatat")}
    # Headers call it so where a program asks for POSIX alone, and a compiler doesn't know names for the assembler.
    found |= {"__posix_getopt": "getopt", "__getdelim": "getdelim", "newfstatat": "fstatat"}
    scanning = ("scanf", "fscanf", "sscanf", "vscanf", "vfscanf", "vsscanf")
    found |= {f"__isoc{year}_{name}": name for year in ("99", "23") for name in scanning}
    found |= {f"__isoc23_{name}": name for name in ("strtol", "strtoll", "strtoul", "strtoull")}
    found |= {"__isoc23_strtoimax": "strtoll", "__isoc23_strtoumax": "strtoull"}
    found |= {f"__isoc23_{name}": found.get(name, name) for name in (
        "wcstol", "wcstoll", "wcstoul", "wcstoull", "wcstoimax", "wcstoumax")}
    unlocked = ("putc", "getc", "fputc", "fgetc", "getchar", "fputs", "fgets", "fwrite", "fread", "fflush", "feof",
                "ferror", "clearerr", "fileno")
    found |= {f"{name}_unlocked": name for name in unlocked}
    return {f"${other}": f"${name}" for other, name in found.items()}


OTHERS = others()
