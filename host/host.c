// A host in C: lends the bench of each recorded case (docs/CASES.md) to the proved step, as kjolvast.h declares it, and holds all that
// comes back to the recorded outcome. host/run builds and runs it.
#include "kjolvast.h"

// The kit has no C headers, so what is used of the C library stands here.
int open(const char *path, int flags, ...);
long read(int file, void *into, unsigned long most);
int close(int file);
int dprintf(int file, const char *format, ...);
void perror(const char *what);
void *realloc(void *old, unsigned long size);
void free(void *old);
void *memcpy(void *to, const void *from, unsigned long size);
int memcmp(const void *one, const void *other, unsigned long size);
_Noreturn void exit(int status);

enum { READ_ONLY = 0, STDOUT = 1, STDERR = 2 };
enum { DIFFERS = 1, UNUSABLE = 2 };

// What a case lends, in the order of its bytes. Only z and x are written, and only they stand in an outcome.
enum { Z, P, X, FLASH, FLASH_RIGHTS, RAM, RAM_RIGHTS, PARTS };
static const char *const names[PARTS] = {"z", "p", "x", "flash", "flash_rights", "ram", "ram_rights"};

// The bytes of a file, and how far they are taken.
struct stream {
    const char *name;
    unsigned char *bytes;
    unsigned long size, at;
};

// Bytes inside a file.
struct piece {
    const unsigned char *bytes;
    unsigned long size;
};

struct question {
    unsigned int word, flags, kind;
    unsigned long vl, flash_start, ram_start;
    struct piece parts[PARTS];
};

struct outcome {
    unsigned long numbers[4];
    struct piece z, x;
};

// A copy of a part, with bytes of the host's own around it.
enum { AROUND = 64 };
struct lent {
    unsigned char *room, *bytes;
    unsigned long before, size;
};

static void unusable(const struct stream *stream, const char *why) {
    dprintf(STDERR, "host: %s: %s\n", stream->name, why);
    exit(UNUSABLE);
}

static void unusable_case(const struct stream *stream, unsigned long number, const char *why) {
    dprintf(STDERR, "host: %s: case %lu: %s\n", stream->name, number, why);
    exit(UNUSABLE);
}

static void *room_of(void *old, unsigned long size) {
    void *room = realloc(old, size);
    if (room == 0) {
        dprintf(STDERR, "host: no memory for %lu bytes\n", size);
        exit(UNUSABLE);
    }
    return room;
}

// Reads a file whole, in rooms that double.
static struct stream stream_of(const char *name) {
    struct stream stream = {name, 0, 0, 0};
    unsigned long room = 1 << 20;
    int file = open(name, READ_ONLY);
    long got = file;
    while (got >= 0) {
        stream.bytes = room_of(stream.bytes, room);
        got = read(file, stream.bytes + stream.size, room - stream.size);
        if (got == 0) {
            close(file);
            return stream;
        }
        stream.size += got > 0 ? got : 0;
        room = stream.size == room ? 2 * room : room;
    }
    dprintf(STDERR, "host: ");
    perror(name);
    exit(UNUSABLE);
}

// The next bytes of a file, for the case of this number.
static struct piece take(struct stream *stream, unsigned long size, unsigned long number) {
    if (size > stream->size - stream->at)
        unusable_case(stream, number, "the file ends inside it");
    struct piece piece = {stream->bytes + stream->at, size};
    stream->at += size;
    return piece;
}

// A number of some bytes, lowest first.
static unsigned long number_at(const unsigned char *bytes, int size) {
    unsigned long number = 0;
    while (size-- > 0)
        number = number << 8 | bytes[size];
    return number;
}

// What stands before the lengths. A layout that is not known cannot be passed over either.
static void take_head(struct stream *cases, const unsigned char *head, unsigned long number, struct question *question) {
    unsigned long level = number_at(head + 12, 4);
    question->word = number_at(head + 4, 4);
    question->flags = number_at(head + 8, 4);
    question->kind = question->flags >> 8 & 255;
    question->vl = number_at(head + 16, 8);
    question->flash_start = number_at(head + 24, 8);
    question->ram_start = number_at(head + 32, 8);
    if (memcmp(head, "KKJ1", 4) != 0)
        unusable_case(cases, number, "the magic is not KKJ1");
    if ((question->flags & ~0xff07u) != 0)
        unusable_case(cases, number, "a flag bit that means nothing");
    if (level > 4)
        unusable_case(cases, number, "a level over 4, whose layout this host does not have");
    if (question->kind == 1 || question->kind > 9)
        unusable_case(cases, number, "a kind whose layout this host does not have");
}

static struct question take_case(struct stream *cases, unsigned long number) {
    struct question question;
    unsigned long blob = 0;
    const unsigned char *head = take(cases, 96, number).bytes;
    take_head(cases, head, number, &question);
    if (question.kind != 0)
        blob = number_at(take(cases, 40, number).bytes + 32, 8);
    for (int part = Z; part < PARTS; part++) {
        unsigned long size = number_at(head + 40 + 8 * part, 8);
        if (size > cases->size) // before it is multiplied
            unusable_case(cases, number, "the file ends inside it");
        question.parts[part] = take(cases, part == X ? 8 * size : size, number);
    }
    take(cases, blob, number);
    return question;
}

static struct outcome take_outcome(struct stream *outcomes, const struct question *question, unsigned long number) {
    const unsigned char *report = take(outcomes, 25, number).bytes;
    struct outcome outcome = {{report[0], number_at(report + 1, 8), number_at(report + 9, 8), number_at(report + 17, 8)}, {0, 0}, {0, 0}};
    if (question->kind == 0) {
        outcome.z = take(outcomes, question->parts[Z].size, number);
        outcome.x = take(outcomes, question->parts[X].size, number);
    } else {
        take(outcomes, number_at(take(outcomes, 8, number).bytes, 8), number);
    }
    return outcome;
}

// The byte that stands at a place around what is lent: no two neighbours are the same, so that bytes that are moved show.
static unsigned char around(unsigned long place) {
    return (unsigned char)(0xa5 + 7 * place);
}

// Bytes are lent at every alignment in turn, since nothing asks for one; the scalars are numbers and have theirs.
static struct lent lend(struct piece piece, int part, unsigned long number) {
    struct lent lent = {0, 0, AROUND + (part == X ? 0 : number % 8), piece.size};
    unsigned long whole = lent.before + piece.size + AROUND;
    lent.room = room_of(0, whole);
    for (unsigned long place = 0; place < whole; place++)
        lent.room[place] = around(place);
    lent.bytes = lent.room + lent.before;
    memcpy(lent.bytes, piece.bytes, piece.size);
    return lent;
}

// Holds a part after the step to what it should be, and the bytes around it to what they were.
static void hold(unsigned long number, int part, struct lent lent, struct piece wanted) {
    for (unsigned long place = 0; place < lent.before + lent.size + AROUND; place++) {
        unsigned long inside = place - lent.before; // far over the size where the place is before
        unsigned char should = inside < lent.size ? wanted.bytes[inside] : around(place);
        if (lent.room[place] == should)
            continue;
        const char *where = inside < lent.size ? "of" : place < lent.before ? "before" : "behind";
        unsigned long byte = inside < lent.size ? inside : place < lent.before ? lent.before - place : inside - lent.size;
        dprintf(STDERR, "host: case %lu: byte %lu %s %s is 0x%02x after the step, and should be 0x%02x\n", number, byte, where,
                names[part], lent.room[place], should);
        exit(DIFFERS);
    }
}

// Holds the report to the recorded one, and then every byte that was lent.
static void compare(unsigned long number, const struct question *question, struct kjolvast_numbers told, const struct lent *lent,
                    const struct outcome *outcome) {
    const unsigned long came[4] = {told.number, told.count, told.element, told.address};
    const char *const numbers[4] = {"answer", "count", "element", "address"};
    for (int n = 0; n < 4; n++)
        if (came[n] != outcome->numbers[n]) {
            dprintf(STDERR, "host: case %lu: the %s is %lu, and should be %lu\n", number, numbers[n], came[n], outcome->numbers[n]);
            exit(DIFFERS);
        }
    for (int part = Z; part < PARTS; part++)
        hold(number, part, lent[part], part == Z ? outcome->z : part == X ? outcome->x : question->parts[part]);
}

// One case by the proved step. X is lent as numbers: a case has them lowest byte first, as x86-64 has them in memory.
static void step(unsigned long number, const struct question *question, const struct outcome *outcome) {
    struct lent lent[PARTS];
    for (int part = Z; part < PARTS; part++)
        lent[part] = lend(question->parts[part], part, number);
    struct kjolvast_numbers told = kjolvast_step(
        lent[Z].bytes, lent[Z].size, (unsigned long *)lent[X].bytes, lent[X].size / 8, lent[RAM].bytes, lent[RAM].size,
        question->word, question->vl, question->flags & 1, (question->flags & 2) != 0, (question->flags & 4) != 0, lent[P].bytes, lent[P].size,
        question->flash_start, question->ram_start, lent[FLASH].bytes, lent[FLASH].size, lent[FLASH_RIGHTS].bytes,
        lent[FLASH_RIGHTS].size, lent[RAM_RIGHTS].bytes, lent[RAM_RIGHTS].size);
    compare(number, question, told, lent, outcome);
    for (int part = Z; part < PARTS; part++)
        free(lent[part].room);
}

int main(int count, char **words) {
    if (count != 3) {
        dprintf(STDERR, "host: two files are wanted, cases and outcomes\n");
        return UNUSABLE;
    }
    struct stream cases = stream_of(words[1]), outcomes = stream_of(words[2]);
    unsigned long number = 0, steps = 0;
    for (; cases.at < cases.size; number++) {
        struct question question = take_case(&cases, number);
        struct outcome outcome = take_outcome(&outcomes, &question, number);
        if (question.kind != 0)
            continue;
        step(number, &question, &outcome);
        steps++;
    }
    if (outcomes.at < outcomes.size)
        unusable(&outcomes, "it goes on behind the last outcome");
    if (steps == 0)
        unusable(&cases, "no case to step");
    if (dprintf(STDOUT, "%lu steps through kjolvast_step as recorded, %lu cases of other kinds left out\n", steps, number - steps) < 0) {
        dprintf(STDERR, "host: standard output cannot be written\n");
        return UNUSABLE;
    }
    return 0;
}
