/* What the program `clear` needs on AArch64 Linux besides its module, with no C library: the start, read and write, the
 * program's arguments and errno as the kit's C code for x86-64 gives them (its rattle/os/src/c.rt says what each call
 * does), a signal that is ignored, and memory moved and set. */
typedef __SIZE_TYPE__ size_t;
typedef __PTRDIFF_TYPE__ ssize_t;

enum { READ = 63, WRITE = 64, EXIT_GROUP = 94, RT_SIGACTION = 134 };

int main(void);

static size_t count;
static char **words;
static int last_error;

static ssize_t system_call(long number, long first, const void *second, size_t third, size_t fourth)
{
    register long x8 __asm__("x8") = number;
    register long x0 __asm__("x0") = first;
    register const void *x1 __asm__("x1") = second;
    register size_t x2 __asm__("x2") = third;
    register size_t x3 __asm__("x3") = fourth;

    __asm__ volatile("svc #0" : "+r"(x0) : "r"(x8), "r"(x1), "r"(x2), "r"(x3) : "memory");
    return x0;
}

/* An error is -1, as POSIX has it, and its number is errno. */
static ssize_t answered(ssize_t answer)
{
    if (answer < 0) {
        last_error = (int)-answer;
        return -1;
    }
    return answer;
}

ssize_t read(int file, void *to, size_t length)
{
    return answered(system_call(READ, file, to, length, 0));
}

ssize_t write(int file, const void *from, size_t length)
{
    return answered(system_call(WRITE, file, from, length, 0));
}

/* What a program begins with: SIGPIPE is ignored, which is handler 1. The system's own record has four words. */
size_t __sysv_signal(int signal, size_t handler)
{
    size_t action[4] = {handler, 0, 0, 0};

    return (size_t)answered(system_call(RT_SIGACTION, signal, action, 0, sizeof action[3]));
}

size_t rattle_arg_count(void)
{
    return count;
}

/* Puts argument i at the start of buf and answers its length, -1 where there is none, or -2 where it does not fit, and
 * then buf is full. */
ssize_t rattle_arg(size_t i, char *buf, size_t length)
{
    size_t n = 0;

    if (i >= count || words[i] == 0) {
        return -1;
    }
    for (; words[i][n] != 0; n++) {
        if (n == length) {
            return -2;
        }
        buf[n] = words[i][n];
    }
    return (ssize_t)n;
}

int rattle_errno(void)
{
    return last_error;
}

void rattle_set_errno(int error)
{
    last_error = error;
}

void *memcpy(void *to, const void *from, size_t length)
{
    for (size_t i = 0; i < length; i++) {
        ((char *)to)[i] = ((const char *)from)[i];
    }
    return to;
}

void *memmove(void *to, const void *from, size_t length)
{
    if ((size_t)to - (size_t)from >= length) {
        return memcpy(to, from, length);
    }
    while (length-- > 0) {
        ((char *)to)[length] = ((const char *)from)[length];
    }
    return to;
}

void *memset(void *to, int byte, size_t length)
{
    for (size_t i = 0; i < length; i++) {
        ((char *)to)[i] = (char)byte;
    }
    return to;
}

/* The stack as the system leaves it: the number of arguments, then each. */
__attribute__((used)) static void begin(size_t *stack)
{
    count = stack[0];
    words = (char **)(stack + 1);
    (void)system_call(EXIT_GROUP, main(), 0, 0, 0);
    __builtin_trap();
}

__asm__(".globl _start\n_start: mov x29, #0\n mov x30, #0\n mov x0, sp\n b begin\n");
