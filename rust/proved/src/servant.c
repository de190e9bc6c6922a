// The archive is for x86-64. Where the machine is another, this program holds it, runs under the emulator qemu-x86_64, and does one call
// after another for `emulated.rs`, which says what is read and written. It stands alone: no C library.

typedef unsigned char u8;
typedef unsigned long u64;
typedef int i32;

enum { FILES = 11, TIMETBLS = 7, ANSWER = 6, NUMBERS = 6, WORDS = 7, MINUTES = 4 };
// Those of a call that is no load: eleven tables, then a block, or questions and answers.
enum { BLOCK = 11, QUESTIONS = 11, ANSWERS = 12, SLICES = 13 };
// The calls by number, as `emulated.rs` has them.
enum { LOAD, IS_SOUND, RUNNING_DAY, STOP_TIME, CHANGE, NAME, LINES_NOW, AMEND, RANK, SHEET };
enum { READ = 0, WRITE = 1, MMAP = 9, MUNMAP = 11, EXIT = 60, PRCTL = 157 };
enum { SIGNAL_WHEN_THE_PARENT_DIES = 1, KILL = 9 };
enum { READ_AND_WRITE = 3, PRIVATE_AND_OF_NO_FILE = 0x22 };

void calyxcabin_load(
    const u8 *, u64, const u8 *, u64, const u8 *, u64, const u8 *, u64, const u8 *, u64, const u8 *, u64,
    const u8 *, u64, const u8 *, u64, const u8 *, u64, const u8 *, u64, const u8 *, u64,
    u64 *, u64, u64 *, u64, u64 *, u64, u64 *, u64, u64 *, u64, u64 *, u64,
    u64 *, u64, u64 *, u64, u64 *, u64, u64 *, u64, u64 *, u64,
    u64 *);

u64 calyxcabin_is_sound(
    const u64 *, u64, const u64 *, u64, const u64 *, u64, const u64 *, u64, const u64 *, u64, const u64 *, u64,
    const u64 *, u64, const u64 *, u64, const u64 *, u64, const u64 *, u64, const u64 *, u64);

void calyxcabin_running_day(
    const u64 *, u64, const u64 *, u64, const u64 *, u64, const u64 *, u64, const u64 *, u64, const u64 *, u64,
    const u64 *, u64, const u64 *, u64, const u64 *, u64, const u64 *, u64, const u64 *, u64,
    u64, u64, u64, u64 *);

void calyxcabin_stop_time(
    const u64 *, u64, const u64 *, u64, const u64 *, u64, const u64 *, u64, const u64 *, u64, const u64 *, u64,
    const u64 *, u64, const u64 *, u64, const u64 *, u64, const u64 *, u64, const u64 *, u64,
    u64, u64, u64, u64 *, i32 *);

void calyxcabin_change(
    const u64 *, u64, const u64 *, u64, const u64 *, u64, const u64 *, u64, const u64 *, u64, const u64 *, u64,
    const u64 *, u64, const u64 *, u64, const u64 *, u64, const u64 *, u64, const u64 *, u64,
    u64, u64, u64, u64, u64, u64, u64 *, i32 *);

u64 calyxcabin_sheet(
    const u64 *, u64, const u64 *, u64, const u64 *, u64, const u64 *, u64, const u64 *, u64, const u64 *, u64,
    const u64 *, u64, const u64 *, u64, const u64 *, u64, const u64 *, u64, const u64 *, u64,
    const u64 *, u64, u64 *, u64);

void calyxcabin_name(const u8 *, u64, u64, u64 *);

void calyxcabin_lines_now(const u8 *, u64, const u8 *, u64, u64, u64 *);

void calyxcabin_amend(
    const u64 *, u64, const u64 *, u64, const u64 *, u64, const u64 *, u64, const u64 *, u64, const u64 *, u64,
    const u64 *, u64, u64 *, u64, const u64 *, u64, const u64 *, u64, const u64 *, u64,
    u64, const u8 *, u64, u64 *);

u64 calyxcabin_rank(u64, u64, u64, u64);

static long system_call(long number, long a, long b, long c, long d, long e, long f)
{
    long result;
    register long r10 __asm__("r10") = d;
    register long r8 __asm__("r8") = e;
    register long r9 __asm__("r9") = f;
    __asm__ volatile("syscall"
                     : "=a"(result)
                     : "a"(number), "D"(a), "S"(b), "d"(c), "r"(r10), "r"(r8), "r"(r9)
                     : "rcx", "r11", "memory");
    return result;
}

static _Noreturn void leave(int status)
{
    for (;;)
        system_call(EXIT, status, 0, 0, 0, 0, 0);
}

// The emulator looks at all memory that a call names, each time: so a call names no more than a pipe holds.
static long at_once(u64 count)
{
    return count < 65536 ? (long)count : 65536;
}

// All of the bytes, or the end of the program: of status 0 where the input ends.
static void take(void *to, u64 count)
{
    u8 *next = to;
    while (count > 0) {
        long got = system_call(READ, 0, (long)next, at_once(count), 0, 0, 0);
        if (got <= 0)
            leave(got < 0);
        next += got;
        count -= (u64)got;
    }
}

static void give(const void *from, u64 count)
{
    const u8 *next = from;
    while (count > 0) {
        long put = system_call(WRITE, 1, (long)next, at_once(count), 0, 0, 0);
        if (put <= 0)
            leave(1);
        next += put;
        count -= (u64)put;
    }
}

// What the archive asks of a C library.
void *memset(void *to, int byte, u64 count)
{
    u8 *next = to;
    u64 word = (u8)byte * 0x0101010101010101;
    for (; count >= sizeof word; next += sizeof word, count -= sizeof word)
        __builtin_memcpy(next, &word, sizeof word);
    for (; count > 0; next++, count--)
        *next = (u8)byte;
    return to;
}

void *memcpy(void *restrict to, const void *restrict from, u64 count)
{
    u8 *next = to;
    const u8 *source = from;
    for (; count > 0; next++, source++, count--)
        *next = *source;
    return to;
}

// Memory that grows with what is lent.
struct held {
    u8 *at;
    u64 bytes;
};

static struct held lent, zeros;

static u8 *room_for(struct held *held, u64 bytes)
{
    if (bytes > held->bytes) {
        if (held->bytes > 0)
            system_call(MUNMAP, (long)held->at, (long)held->bytes, 0, 0, 0, 0);
        long got = system_call(MMAP, 0, (long)bytes, READ_AND_WRITE, PRIVATE_AND_OF_NO_FILE, -1, 0);
        if (got < 0 && got > -4096)
            leave(2);
        held->at = (u8 *)got;
        held->bytes = bytes;
    }
    return held->at;
}

static void load_one(void)
{
    u64 n[FILES], blank[FILES], w[FILES], words = 0, bytes = 0, blanks = 0, answer[ANSWER];
    u64 *t[FILES];
    const u8 *f[FILES];
    take(n, sizeof n);
    take(blank, sizeof blank);
    take(w, sizeof w);
    take(answer, sizeof answer);
    for (int k = 0; k < FILES; k++) {
        words += w[k];
        bytes += blank[k] ? 0 : n[k];
        if (blank[k] && n[k] > blanks)
            blanks = n[k];
    }
    // A load writes to no file, so zeros stay zeros, and one stretch of them serves all files.
    const u8 *blank_text = room_for(&zeros, blanks);
    u8 *tables = room_for(&lent, words * sizeof(u64) + bytes + 1);
    u8 *next = tables;
    for (int k = 0; k < FILES; k++) {
        t[k] = (u64 *)next;
        next += w[k] * sizeof(u64);
    }
    for (int k = 0; k < FILES; k++) {
        f[k] = blank[k] ? blank_text : next;
        next += blank[k] ? 0 : n[k];
    }
    take(tables, words * sizeof(u64) + bytes);
    calyxcabin_load(
        f[0], n[0], f[1], n[1], f[2], n[2], f[3], n[3], f[4], n[4], f[5], n[5],
        f[6], n[6], f[7], n[7], f[8], n[8], f[9], n[9], f[10], n[10],
        t[0], w[0], t[1], w[1], t[2], w[2], t[3], w[3], t[4], w[4], t[5], w[5],
        t[6], w[6], t[7], w[7], t[8], w[8], t[9], w[9], t[10], w[10],
        answer);
    give(answer, sizeof answer);
    give(tables, words * sizeof(u64));
}

static void ask_one(u64 call)
{
    u64 q[NUMBERS], w[WORDS], minutes[MINUTES], bytes[SLICES], n[SLICES], all = 0;
    u64 *t[SLICES];
    const u8 *f[SLICES];
    i32 m[MINUTES];
    take(q, sizeof q);
    take(w, sizeof w);
    take(minutes, sizeof minutes);
    take(bytes, sizeof bytes);
    for (int k = 0; k < MINUTES; k++)
        m[k] = (i32)minutes[k];
    for (int k = 0; k < SLICES; k++)
        all += bytes[k];
    u8 *slices = room_for(&lent, all + 1);
    for (u64 k = 0, next = 0; k < SLICES; next += bytes[k], k++) {
        // No table or list comes after a text: so both are aligned.
        f[k] = slices + next;
        t[k] = (u64 *)(slices + next);
        n[k] = bytes[k] / sizeof(u64);
    }
    take(slices, all);
#define TABLES                                                                                                         \
    t[0], n[0], t[1], n[1], t[2], n[2], t[3], n[3], t[4], n[4], t[5], n[5], t[6], n[6], t[7], n[7], t[8], n[8], t[9], n[9], t[10], n[10]
    switch (call) {
    case IS_SOUND:
        w[0] = calyxcabin_is_sound(TABLES);
        break;
    case RUNNING_DAY:
        calyxcabin_running_day(TABLES, q[0], q[1], q[2], w);
        break;
    case STOP_TIME:
        calyxcabin_stop_time(TABLES, q[0], q[1], q[2], w, m);
        break;
    case CHANGE:
        calyxcabin_change(TABLES, q[0], q[1], q[2], q[3], q[4], q[5], w, m);
        break;
    case SHEET:
        w[0] = calyxcabin_sheet(TABLES, t[QUESTIONS], n[QUESTIONS], t[ANSWERS], n[ANSWERS]);
        break;
    case NAME:
        calyxcabin_name(f[0], bytes[0], q[0], w);
        break;
    case LINES_NOW:
        calyxcabin_lines_now(f[0], bytes[0], f[1], bytes[1], q[0], w);
        break;
    case AMEND:
        calyxcabin_amend(TABLES, q[0], f[BLOCK], bytes[BLOCK], w);
        break;
    case RANK:
        w[0] = calyxcabin_rank(q[0], q[1], q[2], q[3]);
        break;
    default:
        leave(3);
    }
    for (int k = 0; k < MINUTES; k++)
        minutes[k] = (u64)m[k];
    give(w, sizeof w);
    give(minutes, sizeof minutes);
    if (call == AMEND)
        give(t[TIMETBLS], bytes[TIMETBLS]);
    if (call == SHEET)
        give(t[ANSWERS], bytes[ANSWERS]);
}

_Noreturn void serve(void)
{
    // A long call must not go on when nobody waits for it.
    system_call(PRCTL, SIGNAL_WHEN_THE_PARENT_DIES, KILL, 0, 0, 0, 0);
    for (;;) {
        u64 call;
        take(&call, sizeof call);
        if (call == LOAD)
            load_one();
        else
            ask_one(call);
    }
}

// The program begins with its stack aligned; a function expects to have been called.
__asm__(".globl _start\n_start:\n\txor %ebp, %ebp\n\tcall serve\n");
