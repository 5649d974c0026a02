/* For Windows, the functions of C and of the kit that the program desk calls. dist/windows renames those whose types differ there. Standard input, output and
 * error are set to binary, so that the bytes are those of Linux and a CR in the input stays a byte. Not proved. */
#include <cpuid.h>
#include <errno.h>
#include <fcntl.h>
#include <io.h>
#include <stdlib.h>
#include <string.h>

typedef unsigned long long size;

int rt_main(void);

/* Windows counts the bytes of a read or a write in 32 bits. Both may do less than they are asked for. */
static unsigned bounded(size count)
{
    return count > 1 << 20 ? 1 << 20 : (unsigned)count;
}

long long rt_read(int file, void *bytes, size count)
{
    return _read(file, bytes, bounded(count));
}

long long rt_write(int file, const void *bytes, size count)
{
    return _write(file, bytes, bounded(count));
}

int rt_isatty(int file)
{
    return _isatty(file) != 0;
}

/* The bytes of an argument, at the start of the room for them: their number, -1 where there is no such argument, -2 where they do not fit. */
long long rattle_arg(size number, unsigned char *bytes, size room)
{
    size count;
    if (number >= (size)__argc)
        return -1;
    count = strlen(__argv[number]);
    memcpy(bytes, __argv[number], count < room ? count : room);
    return count <= room ? (long long)count : -2;
}

int rattle_errno(void)
{
    return errno;
}

void rattle_set_errno(int number)
{
    errno = number;
}

/* A program asks that a write into a pipe that nobody reads fail and not end it: here it does not end it anyhow. */
void *__sysv_signal(int number, void *handler)
{
    (void)number;
    return handler;
}

/* What the processor can do, as glibc tells it: four words of a leaf as cpuid gives them, and those of them that can be used. Leaf 0 is 1, and leaf 2 is
 * 0x80000001. */
const unsigned *__x86_get_cpuid_feature_leaf(unsigned leaf)
{
    static unsigned words[3][8];
    unsigned *found = words[leaf < 3 ? leaf : 1];
    if (leaf == 0 || leaf == 2)
        __get_cpuid(leaf == 0 ? 1 : 0x80000001, &found[4], &found[5], &found[6], &found[7]);
    return found;
}

/* With this a program that lacks such a processor says so. */
long long __write(int file, const void *bytes, size count)
{
    return rt_write(file, bytes, count);
}

int __xpg_strerror_r(int number, char *text, size count)
{
    return strerror_s(text, count, number);
}

int main(void)
{
    _setmode(0, _O_BINARY);
    _setmode(1, _O_BINARY);
    _setmode(2, _O_BINARY);
    return rt_main();
}
