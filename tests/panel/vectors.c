/* Runs a script of vectors against the functions of ttg.h and prints what they answer; run.sh compares that with stored results.
 * The scripts and their results are the parts vectors/NN-name.txt and .expected.
 *
 * Standard input is the script, one command a line: a letter, then decimal numbers from 0 to 65535, each after one space. The
 * commands work on one timetable file and four areas of numbers, which are 0 notices, 1 graph, 2 work and 3 journey. On the file:
 *   f S C    a fresh file of S stops and C connections, each connection a trip of its own to the next stop
 *   j        the file of example J
 *   l L      the file's length becomes L
 *   b P V    the byte at P becomes V % 256
 *   w P V    the number whose low byte is at P becomes V
 *   t s V    the minimum transfer time of stop s becomes V
 *   k c trip from to departure arrival    the five numbers of connection c
 *   c        checks the file
 * The operations, by the file and by what is lent of the areas:
 *   B        builds
 *   P n r d  posts notice n of connection r with delay d
 *   N a e    posts notices a to e up to the first that is refused, each of connection n % C with delay n % 1440 + 1, and prints how many
 *   W n      withdraws notice n
 *   Q a b t  enquires from stop a to stop b at time t
 *   M c d    the margin of the change from connection c to connection d
 *   D c      why connection c is late: its own delay and the notice that gives it
 * On area i, whole:
 *   A i L    its first L numbers are lent from now on
 *   S i k v  number k becomes v
 *   F i v    each number becomes v
 *   X i k    prints number k
 *   Y i a e  prints numbers a to e - 1
 * A line that starts with # is a heading and is printed as it is. A line that cannot be read, or that names a place out of range,
 * changes nothing and prints a question mark.
 */
#define _DEFAULT_SOURCE
#include "ttg.h"

#include <inttypes.h>
#include <stdbool.h>
#include <stdio.h>
#include <stdlib.h>
#include <string.h>

#define LENGTH_OF(array) (sizeof(array) / sizeof *(array))

enum { HEADER = 9, CONNECTION = 10, MOST_NUMBERS = 8 };
enum { NOTICES, GRAPH, WORK, JOURNEY, AREAS };

static uint8_t file[21100], notices[2 * 700], graph[2 * 8600], work[2 * 2100], journey[2 * 2100];
static size_t file_len;

/* An area's bytes, and how many numbers it has and lends. */
static struct area { uint8_t *bytes; unsigned room, lent; } areas[AREAS] = {
    {notices, 700, 700}, {graph, 8600, 8600}, {work, 2100, 2100}, {journey, 2100, 2100}};

static unsigned get(const uint8_t *p) { return p[0] | (unsigned)p[1] << 8; }
static void put(uint8_t *p, unsigned n) { p[0] = n & 255, p[1] = n >> 8 & 255; }

/* ---- The file ---- */

static void put_byte(size_t at, unsigned v)
{
    if (at < sizeof file)
        file[at] = v & 255;
}

/* A number of the file, as far as it has room. */
static void put_number(size_t at, unsigned v) { put_byte(at, v), put_byte(at + 1, v >> 8); }

static void put_connection(size_t at, const uint16_t numbers[5])
{
    for (size_t k = 0; k < 5; k++)
        put_number(at + 2 * k, numbers[k]);
}

static size_t place(size_t stops, size_t c) { return HEADER + 2 * stops + CONNECTION * c; }

static bool fresh(const uint16_t *x)
{
    unsigned stops = x[0], connections = x[1], round = stops > 0 ? stops : 1;
    memset(file, 0, sizeof file);
    memcpy(file, "TTG\1\0", 5);
    put_number(5, stops);
    put_number(7, connections);
    for (unsigned s = 0; s < stops; s++)
        put_number(HEADER + 2 * s, 5);
    for (unsigned c = 0; c < connections; c++)
        put_connection(place(stops, c), (const uint16_t[5]){(uint16_t)c, (uint16_t)(c % round), (uint16_t)((c + 1) % round),
                                                            (uint16_t)(300 + c), (uint16_t)(310 + c)});
    file_len = place(stops, connections);
    if (file_len > sizeof file)
        file_len = sizeof file;
    return true;
}

static bool example_j(const uint16_t *x)
{
    static const uint16_t times[] = {4, 5, 3}, connections[][5] = {
        {0, 0, 1, 600, 620}, {0, 1, 2, 625, 640}, {1, 1, 2, 622, 650}, {1, 2, 0, 655, 690}, {2, 1, 2, 630, 642}};
    (void)x;
    fresh((const uint16_t[]){LENGTH_OF(times), LENGTH_OF(connections)});
    for (size_t s = 0; s < LENGTH_OF(times); s++)
        put_number(HEADER + 2 * s, times[s]);
    for (size_t c = 0; c < LENGTH_OF(connections); c++)
        put_connection(place(LENGTH_OF(times), c), connections[c]);
    return true;
}

static bool cut(const uint16_t *x)
{
    if (x[0] > sizeof file)
        return false;
    file_len = x[0];
    return true;
}

static bool set_byte(const uint16_t *x)
{
    if (x[0] >= sizeof file)
        return false;
    file[x[0]] = x[1] & 255;
    return true;
}

static bool change(size_t at, unsigned v)
{
    if (at + 2 > sizeof file)
        return false;
    put_number(at, v);
    return true;
}

static bool set_number(const uint16_t *x) { return change(x[0], x[1]); }
static bool set_transfer_time(const uint16_t *x) { return change(HEADER + 2 * (size_t)x[0], x[1]); }

static bool set_connection(const uint16_t *x)
{
    size_t at = place(get(file + 5), x[0]);
    if (at + CONNECTION > sizeof file)
        return false;
    put_connection(at, x + 1);
    return true;
}

/* ---- The operations ---- */

static uint64_t value(uint64_t answer) { return answer / 65536; }
static uint64_t low(uint64_t answer) { return value(answer) % 65536; }
static uint64_t high(uint64_t answer) { return value(answer) / 65536; }

/* Whether an answer is a refusal, which is printed then. */
static bool refused(uint64_t answer)
{
    if (answer % 65536 == 0)
        return false;
    printf("no %" PRIu64 " at %" PRIu64 "\n", answer % 65536, value(answer));
    return true;
}

/* Prints numbers, a space between, and ends the line. */
static void say_numbers(const uint8_t *bytes, size_t n)
{
    for (size_t i = 0; i < n; i++)
        printf("%s%u", i > 0 ? " " : "", get(bytes + 2 * i));
    putchar('\n');
}

#define FILE_BYTES file, file_len
#define LENT(i) areas[i].bytes, 2 * (size_t)areas[i].lent

static bool check(const uint16_t *x)
{
    uint64_t a = ttg_check(FILE_BYTES);
    (void)x;
    if (!refused(a))
        printf("stops %" PRIu64 " connections %" PRIu64 "\n", low(a), high(a));
    return true;
}

static bool build(const uint16_t *x)
{
    uint64_t a = ttg_build(FILE_BYTES, LENT(NOTICES), LENT(GRAPH));
    (void)x;
    if (!refused(a))
        printf("built %" PRIu64 " %" PRIu64 "\n", low(a), high(a));
    return true;
}

static bool post(const uint16_t *x)
{
    uint64_t a = ttg_post(FILE_BYTES, LENT(NOTICES), LENT(GRAPH), x[0], x[1], x[2]);
    if (!refused(a))
        printf("posted %" PRIu64 "\n", value(a));
    return true;
}

static bool post_many(const uint16_t *x)
{
    unsigned n = x[0], connections = get(file + 7);
    uint64_t a = 0;
    for (; connections > 0 && n <= x[1] && a % 65536 == 0; n += a % 65536 == 0)
        a = ttg_post(FILE_BYTES, LENT(NOTICES), LENT(GRAPH), (uint16_t)n, (uint16_t)(n % connections), (uint16_t)(n % 1440 + 1));
    printf("posted %u notices\n", n - x[0]);
    return true;
}

static bool withdraw(const uint16_t *x)
{
    uint64_t a = ttg_withdraw(FILE_BYTES, LENT(NOTICES), LENT(GRAPH), x[0]);
    if (!refused(a))
        printf("withdrawn %" PRIu64 "\n", value(a));
    return true;
}

static bool enquire(const uint16_t *x)
{
    uint64_t a = ttg_enquire(FILE_BYTES, LENT(NOTICES), LENT(GRAPH), LENT(WORK), LENT(JOURNEY), x[0], x[1], x[2]);
    if (refused(a))
        return true;
    printf("arrives %" PRIu64 " by%s", low(a), high(a) > 0 ? " " : "");
    say_numbers(journey, high(a) < areas[JOURNEY].lent ? high(a) : areas[JOURNEY].lent);
    return true;
}

static bool margin(const uint16_t *x)
{
    int64_t a = ttg_margin(FILE_BYTES, LENT(NOTICES), LENT(GRAPH), x[0], x[1]);
    if (!refused((uint64_t)a))
        printf("margin %" PRId64 "\n", a / 65536);
    return true;
}

static bool why(const uint16_t *x)
{
    uint64_t a = ttg_why(FILE_BYTES, LENT(NOTICES), x[0]);
    if (!refused(a))
        printf("delay %" PRIu64 " notice %" PRIu64 "\n", low(a), high(a));
    return true;
}

/* ---- The areas ---- */

static bool lend(const uint16_t *x)
{
    if (x[0] >= AREAS || x[1] > areas[x[0]].room)
        return false;
    areas[x[0]].lent = x[1];
    return true;
}

/* Numbers `start` to `end` - 1 of an area, or a null pointer where it has no such numbers. */
static uint8_t *part(unsigned area, unsigned start, unsigned end)
{
    return area < AREAS && start <= end && end <= areas[area].room ? areas[area].bytes + 2 * start : NULL;
}

static bool set(const uint16_t *x)
{
    uint8_t *number = part(x[0], x[1], x[1] + 1u);
    if (number != NULL)
        put(number, x[2]);
    return number != NULL;
}

static bool fill(const uint16_t *x)
{
    if (x[0] >= AREAS)
        return false;
    for (unsigned i = 0; i < areas[x[0]].room; i++)
        put(areas[x[0]].bytes + 2 * i, x[1]);
    return true;
}

static bool show_part(const uint16_t *x)
{
    const uint8_t *numbers = part(x[0], x[1], x[2]);
    if (numbers != NULL)
        say_numbers(numbers, x[2] - x[1]);
    return numbers != NULL;
}

static bool show(const uint16_t *x)
{
    const uint8_t *number = part(x[0], x[1], x[1] + 1u);
    if (number != NULL)
        say_numbers(number, 1);
    return number != NULL;
}

/* ---- The script ---- */

/* Letter, how many numbers follow it, and what obeys it; false where a number is out of range. */
static const struct command { char letter; int numbers; bool (*obey)(const uint16_t *); } commands[] = {
    {'f', 2, fresh}, {'j', 0, example_j}, {'l', 1, cut}, {'b', 2, set_byte}, {'w', 2, set_number}, {'t', 2, set_transfer_time},
    {'k', 6, set_connection}, {'c', 0, check}, {'B', 0, build}, {'P', 3, post}, {'N', 2, post_many}, {'W', 1, withdraw},
    {'Q', 3, enquire}, {'M', 2, margin}, {'D', 1, why}, {'A', 2, lend}, {'S', 3, set}, {'F', 2, fill}, {'X', 2, show},
    {'Y', 3, show_part},
};

static bool is_digit(char c) { return c >= '0' && c <= '9'; }

/* How many numbers, each after one space, the text is; -1 where it cannot be read. */
static int read_numbers(const char *text, uint16_t *numbers)
{
    int n = 0;
    for (; *text != '\0'; n++) {
        unsigned v = 0;
        if (n == MOST_NUMBERS || text[0] != ' ' || !is_digit(text[1]))
            return -1;
        for (text++; is_digit(*text) && v <= 65535; text++)
            v = 10 * v + (unsigned)(*text - '0');
        if (v > 65535)
            return -1;
        numbers[n] = (uint16_t)v;
    }
    return n;
}

static bool obey(const char *line)
{
    uint16_t numbers[MOST_NUMBERS];
    int n = line[0] != '\0' ? read_numbers(line + 1, numbers) : -1;
    for (size_t i = 0; i < LENGTH_OF(commands); i++)
        if (line[0] == commands[i].letter)
            return n == commands[i].numbers && commands[i].obey(numbers);
    return false;
}

int main(void)
{
    char *line = NULL;
    size_t room = 0;
    setvbuf(stdout, NULL, _IOLBF, BUFSIZ);
    while (getline(&line, &room, stdin) >= 0) {
        line[strcspn(line, "\n")] = '\0';
        if (line[0] == '#')
            puts(line);
        else if (!obey(line))
            puts("?");
    }
    free(line);
    return 0;
}
