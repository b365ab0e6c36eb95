/* routine: the command for VTIL routine files. It finds the subcommand; each has its own file. */
#define _XOPEN_SOURCE 700

#include <ctype.h>
#include <errno.h>
#include <fcntl.h>
#include <inttypes.h>
#include <limits.h>
#include <signal.h>
#include <stdbool.h>
#include <stdio.h>
#include <string.h>
#include <unistd.h>

#include "commands.h"
#include "printed.h"
#include "words.h"

struct command {
    const char *name;
    const char *operands;
    const char *does;
    const char *more;    /* the rest of its help; "" where `does` says it all */
    const char *options; /* which it takes: j for --json, o for -o, r for --rates, s for -s, v for --verbose */
    const char *needed;  /* which of them it can't do without */
    int least, most;     /* how many files */
    enum status (*run)(const struct request *request);
};

static const struct command commands[] = {
    {"check", "FILE..", "say of each file whether it is a well-formed routine",
     "Exit status: 0 every file was accepted; 1 some file was refused.\n", "", "", 1, INT_MAX, check_command},
    {"show", "[--json] FILE", "print what the routine holds: conventions, blocks, instructions",
     "Registers are shown by their numbers. The last line is `end`; a text without it is not whole.\n"
     "  --json  print it as JSON, for programs. Numbers of 64 bits are strings there.\n"
     "Exit status: 0 it was shown; 1 the file was refused.\n",
     "j", "", 1, 1, show_command},
    {"normalize", "FILE -o OUT", "write the routine in its written form: pad 0, flags 0 or 1, nothing after it",
     "  -o OUT  the file to write; it may be FILE. It is replaced whole, or left as it was.\n"
     "Exit status: 0 it was written; 1 the file was refused, and nothing was written.\n",
     "o", "o", 1, 1, normalize_command},
    {"same", "A B", "say whether two files hold one routine, and where their written forms first differ",
     "Bytes are counted from 0.\n"
     "Exit status: 0 one routine; 1 two routines; 2 a file was refused or could not be read.\n", "", "", 2, 2, same_command},
    {"edit", "FILE -s SCRIPT [--rates R0,R1,R2,R3,R4,R5] [-o OUT]",
     "run the lines of a script on the routine, and say what each gives",
     "A line of SCRIPT is one of:\n"
     "  create VIP      an empty block after the last one\n"
     "  remove VIP      the last block takes its place\n"
     "  append VIP HEX  an instruction, its bytes in hexadecimal, after the block's last\n"
     "  undo            take back the last edit that stands\n"
     "VIP is decimal, or hexadecimal after 0x. What follows a # at the beginning of a word is a\n"
     "comment; lines without words are passed over.\n"
     "A refused line leaves the routine as it was, and the next line follows.\n"
     "  -s SCRIPT  the script. A line that is none of these stops it before the first call.\n"
     "  --rates    also say what the routine is charged, in whole cents, when it is opened and\n"
     "             after each line. The rates are those of routine charge, whose help says more.\n"
     "  -o OUT     after the last line, write the routine there; it may be FILE. It is\n"
     "             replaced whole, or left as it was. Without -o nothing is written.\n"
     "Exit status: 0 every line was accepted; 1 the file or some line was refused.\n",
     "ors", "s", 1, 1, edit_command},
    {"charge", "FILE --rates R0,R1,R2,R3,R4,R5 [--verbose | --json]", "print what the routine is charged, in whole cents",
     "Each instruction costs the rate of its operation's group. The sum over all instructions is\n"
     "rounded up once to whole cents.\n"
     "  --rates    the rates in hundredths of a cent, six decimal numbers up to 4294967295:\n"
     "             R0 of the operations 0 to 3 (mov to ldd), R1 of 4 to 14 (neg to irem),\n"
     "             R2 of 15 to 25 (popcnt to rol), R3 of 26 to 36 (tg to ifs),\n"
     "             R4 of 37 to 40 (js to vxcall), R5 of 41 to 48 (nop to vpinwm)\n"
     "  --verbose  print the instructions and the hundredths of a cent of each group, their sum,\n"
     "             and the cents last\n"
     "  --json     print the same as JSON, for programs\n"
     "Exit status: 0 the charge was printed; 1 the file was refused.\n",
     "jrv", "r", 1, 1, charge_command},
    {"send", "FILE DIR", "write each block of the routine, one after the other, to a file of its own in the folder DIR",
     "Each file has the bytes of one block in written form, and is named by the place of the block,\n"
     "counted from 0, and its vip, such as 000003-0x40.block. How many were sent is said at the end.\n"
     "DIR is there already, and no file in it has a name that ends in .block: none is overwritten.\n"
     "Where a file can't be written, those before it stay, and no more are sent.\n"
     "Exit status: 0 every block was sent; 1 FILE was refused, and nothing was written.\n",
     "", "", 2, 2, send_command},
    {"outside", "FILE -o OUT", "write a copy for outside reviewers, in which every immediate has the value 0",
     "Each immediate keeps its width, and nothing else is hidden: operations, registers, vips, links and\n"
     "stack offsets are in the copy as they are in FILE. It is a routine file like any other.\n"
     "  -o OUT  the file to write. It is replaced whole, or left as it was. It can't be FILE itself,\n"
     "          by whatever path or link: the values would be lost.\n"
     "Exit status: 0 it was written; 1 the file was refused, and nothing was written.\n",
     "o", "o", 1, 1, outside_command},
};

#define COMMANDS (sizeof commands / sizeof commands[0])

void print_name(FILE *to, const char *name)
{
    for (const char *at = name; *at != '\0'; at++) {
        unsigned char byte = (unsigned char)*at;
        if (iscntrl(byte))
            fprintf(to, "\\x%02x", byte);
        else
            putc(byte, to);
    }
}

/* Both streams may lead to one place: keep the order. A failure here is noticed at the end. */
static void begin_complaint(const char *name)
{
    printed_whole();
    fprintf(stderr, "routine: ");
    print_name(stderr, name);
}

void say_unread(const char *name, const char *problem)
{
    begin_complaint(name);
    fprintf(stderr, ": not read: %s\n", problem);
}

void say_bad_line(const char *name, size_t number, const char *problem)
{
    begin_complaint(name);
    fprintf(stderr, ": line %zu: %s\n", number, problem);
}

void say_unwritten(const char *name, const char *problem)
{
    begin_complaint(name);
    fprintf(stderr, ": not written: %s\n", problem);
}

void say_unsafe(const char *name, const char *problem)
{
    begin_complaint(name);
    fprintf(stderr, ": written, but a crash may undo it, since its folder could not be synced: %s\n", problem);
}

void say_refused(const char *name, uint64_t refusal)
{
    begin_complaint(name);
    fprintf(stderr, ": refused %" PRIu64 ": %s\n", refusal, refusal_words((int64_t)refusal));
}

void say_bad_rate(const char *rates, int place, const char *problem)
{
    begin_complaint("--rates ");
    print_name(stderr, rates);
    fprintf(stderr, ": R%d %s\n", place, problem);
}

static const char dash_help[] =
    "A FILE of - is standard input, an OUT of - standard output. After -- nothing is an option.\n";

static void print_help(FILE *to)
{
    fprintf(to, "usage: routine COMMAND ARGUMENTS\n\n");
    for (size_t i = 0; i < COMMANDS; i++)
        fprintf(to, "  routine %s %s\n      %s\n", commands[i].name, commands[i].operands, commands[i].does);
    fprintf(to,
            "  routine COMMAND --help\n"
            "      say more about one of them\n"
            "  routine --help\n"
            "      print this text\n"
            "\n"
            "%s"
            "Exit status: 0 all was accepted; 1 something was refused, or two routines differ;\n"
            "2 something could not be read or written, the usage is wrong, or a file of same was refused.\n"
            "Where both 1 and 2 apply it is 2.\n",
            dash_help);
}

static void print_command_help(const struct command *command)
{
    printf("usage: routine %s %s\n\n%s.\n%s\n%s", command->name, command->operands, command->does, command->more, dash_help);
    printf("Exit status 2, also where 1 applies: something could not be read or written, or the usage is wrong.\n");
}

/* `command` is the one whose help says more; NULL where none was found. */
static enum status bad_usage(const struct command *command, const char *problem, const char *word)
{
    fprintf(stderr, "routine: %s", problem);
    print_name(stderr, word);
    fprintf(stderr, "\nroutine: try routine %s%s--help\n", command == NULL ? "" : command->name, command == NULL ? "" : " ");
    return TROUBLE;
}

static const struct command *find_command(const char *name)
{
    for (size_t i = 0; i < COMMANDS; i++)
        if (strcmp(commands[i].name, name) == 0)
            return &commands[i];
    return NULL;
}

static bool is_help(const char *word)
{
    return strcmp(word, "--help") == 0 || strcmp(word, "-h") == 0;
}

/* A single - is standard input, not an option. */
static bool is_option(const char *word)
{
    return word[0] == '-' && word[1] != '\0';
}

/* The letter of an option; 0 where it is none. */
static char option_letter(const char *word)
{
    if (strcmp(word, "--json") == 0)
        return 'j';
    if (strcmp(word, "-o") == 0)
        return 'o';
    if (strcmp(word, "--rates") == 0)
        return 'r';
    if (strcmp(word, "-s") == 0)
        return 's';
    if (strcmp(word, "--verbose") == 0)
        return 'v';
    return 0;
}

/* Where an option without a value is kept; NULL of one that has a value. */
static bool *option_switch(struct request *request, char letter)
{
    switch (letter) {
    case 'j': return &request->json;
    case 'v': return &request->verbose;
    default: return NULL;
    }
}

static const char **option_value(struct request *request, char letter)
{
    switch (letter) {
    case 'o': return &request->out;
    case 'r': return &request->rates;
    default: return &request->script;
    }
}

/*
 * Takes the option at words[*at] and the word after it, where it has a value, and
 * leaves *at at the last word that it took. False when it was none: then it was said.
 */
static bool take_option(const struct command *command, int count, char **words, int *at, struct request *request)
{
    const char *word = words[*at];
    char letter = option_letter(word);
    if (letter == 0 || strchr(command->options, letter) == NULL) {
        bad_usage(command, "unknown option (for a file of that name write ./ before it): ", word);
        return false;
    }
    bool *given = option_switch(request, letter);
    if (given != NULL) {
        *given = true;
        return true;
    }
    const char **value = option_value(request, letter);
    if (*value != NULL) {
        bad_usage(command, "given twice: ", word);
        return false;
    }
    if (*at + 1 == count) {
        bad_usage(command, letter == 'r' ? "no rates given after " : "no file given after ", word);
        return false;
    }
    *at += 1;
    *value = words[*at];
    return true;
}

static enum status run_request(const struct command *command, const struct request *request)
{
    if (request->count == 0)
        return bad_usage(command, "no file given to ", command->name);
    if (request->count < command->least && command->run == send_command)
        return bad_usage(command, "no folder given to ", command->name);
    if (request->count < command->least)
        return bad_usage(command, "too few files given to ", command->name);
    if (request->count > command->most)
        return bad_usage(command, "too many files given to ", command->name);
    if (strchr(command->needed, 'o') != NULL && request->out == NULL)
        return bad_usage(command, "-o OUT is missing for ", command->name);
    if (strchr(command->needed, 's') != NULL && request->script == NULL)
        return bad_usage(command, "-s SCRIPT is missing for ", command->name);
    if (strchr(command->needed, 'r') != NULL && request->rates == NULL)
        return bad_usage(command, "--rates R0,R1,R2,R3,R4,R5 is missing for ", command->name);
    if (request->json && request->verbose)
        return bad_usage(command, "--json and --verbose can't both be given to ", command->name);
    if (request->script != NULL && strcmp(request->script, "-") == 0 && strcmp(request->files[0], "-") == 0)
        return bad_usage(command, "FILE and SCRIPT can't both be standard input (-) for ", command->name);
    if (command->run == send_command && strcmp(request->files[1], "-") == 0)
        return bad_usage(command, "DIR can't be standard output (-) for ", command->name);
    return command->run(request);
}

/* Runs `command` on the words after its name. The files are gathered at the front of `words`. */
static enum status run_command(const struct command *command, int count, char **words)
{
    struct request request = {.files = words};
    bool options = true;
    for (int i = 0; i < count; i++) {
        if (options && strcmp(words[i], "--") == 0) {
            options = false;
            continue;
        }
        if (options && is_help(words[i])) {
            print_command_help(command);
            return ALL_ACCEPTED;
        }
        if (options && is_option(words[i])) {
            if (!take_option(command, count, words, &i, &request))
                return TROUBLE;
            continue;
        }
        words[request.count++] = words[i];
    }
    return run_request(command, &request);
}

static enum status run(int argc, char **argv)
{
    if (argc < 2)
        return bad_usage(NULL, "no command given", "");
    if (is_help(argv[1])) {
        print_help(stdout);
        return ALL_ACCEPTED;
    }
    const struct command *command = find_command(argv[1]);
    if (command == NULL)
        return bad_usage(NULL, "unknown command: ", argv[1]);
    return run_command(command, argc - 2, argv + 2);
}

static enum status finish_output(void)
{
    if (printed_whole())
        return ALL_ACCEPTED;
    fprintf(stderr, "routine: standard output could not be written: %s\n", printed_problem());
    return TROUBLE;
}

/*
 * A standard stream that is closed at the start would be given to the next file that is opened,
 * and what is printed would land in that file. So its place is taken, by something on which
 * reading or writing fails as on a closed stream.
 */
static bool guard_streams(void)
{
    for (int fd = 0; fd <= 2; fd++) {
        if (fcntl(fd, F_GETFD) != -1 || errno != EBADF)
            continue;
        if (open("/dev/null", fd == 0 ? O_WRONLY : O_RDONLY) != fd)
            return false;
    }
    return true;
}

int main(int argc, char **argv)
{
    if (!guard_streams())
        return TROUBLE;
    /* A closed pipe or a file over the user's limit then fails the write, which is reported, instead of ending the process. */
    signal(SIGPIPE, SIG_IGN);
    signal(SIGXFSZ, SIG_IGN);
    enum status status = run(argc, argv);
    return (int)worse(status, finish_output());
}
