#include "script.h"

#include <stdbool.h>
#include <stdlib.h>
#include <string.h>

#include "file.h"

/* A part of the script's text: a line, a word. */
struct span {
    const char *at, *end;
};

static bool is_blank(char c)
{
    return c == ' ' || c == '\t' || c == '\r';
}

/* Takes the next word from the front of `line`; it is empty at the line's end, and where a comment begins. */
static struct span next_word(struct span *line)
{
    while (line->at < line->end && is_blank(*line->at))
        line->at++;
    if (line->at < line->end && *line->at == '#')
        line->at = line->end;
    struct span word = {line->at, line->at};
    while (word.end < line->end && !is_blank(*word.end))
        word.end++;
    line->at = word.end;
    return word;
}

static bool is_empty(struct span span)
{
    return span.at == span.end;
}

static bool is_word(struct span span, const char *word)
{
    size_t len = strlen(word);
    return (size_t)(span.end - span.at) == len && memcmp(span.at, word, len) == 0;
}

/* The value of a digit, 16 where it is none. */
static unsigned digit_value(char c)
{
    if (c >= '0' && c <= '9')
        return (unsigned)(c - '0');
    if (c >= 'a' && c <= 'f')
        return (unsigned)(c - 'a') + 10;
    if (c >= 'A' && c <= 'F')
        return (unsigned)(c - 'A') + 10;
    return 16;
}

/* Decimal, or hexadecimal after 0x, of at most 64 bits. */
static bool read_number(struct span word, uint64_t *value)
{
    unsigned base = 10;
    if (word.end - word.at > 2 && word.at[0] == '0' && (word.at[1] == 'x' || word.at[1] == 'X')) {
        base = 16;
        word.at += 2;
    }
    *value = 0;
    for (const char *at = word.at; at < word.end; at++) {
        unsigned digit = digit_value(*at);
        if (digit >= base || *value > (UINT64_MAX - digit) / base)
            return false;
        *value = *value * base + digit;
    }
    return !is_empty(word);
}

/* Pairs of hexadecimal digits, onto the end of the line's bytes. */
static bool read_bytes(struct span word, struct line *line)
{
    if ((word.end - word.at) % 2 != 0)
        return false;
    for (const char *at = word.at; at < word.end; at += 2) {
        unsigned high = digit_value(at[0]), low = digit_value(at[1]);
        if (high == 16 || low == 16)
            return false;
        line->bytes[line->len++] = (uint8_t)(16 * high + low);
    }
    return true;
}

/* What is wrong with the words after `append VIP`; NULL when nothing is. */
static const char *read_instruction(struct span rest, struct line *line)
{
    struct span word = next_word(&rest);
    if (is_empty(word))
        return "append wants the instruction's bytes";
    for (; !is_empty(word); word = next_word(&rest))
        if (!read_bytes(word, line))
            return "bytes are pairs of hexadecimal digits";
    return NULL;
}

static bool find_call(struct span word, enum vtil_call *call)
{
    static const char *const words[] = {[VTIL_CREATE] = "create", [VTIL_REMOVE] = "remove", [VTIL_APPEND] = "append", [VTIL_UNDO] = "undo"};
    for (int i = VTIL_CREATE; i <= VTIL_UNDO; i++) {
        *call = (enum vtil_call)i;
        if (is_word(word, words[i]))
            return true;
    }
    return false;
}

/* What is wrong with a line that has words; NULL when nothing is. */
static const char *read_line(struct span rest, struct line *line)
{
    if (!find_call(next_word(&rest), &line->call))
        return "a line begins with create, remove, append or undo";
    if (line->call != VTIL_UNDO && !read_number(next_word(&rest), &line->vip))
        return "a vip is a number of at most 64 bits, decimal, or hexadecimal after 0x";
    if (line->call == VTIL_APPEND)
        return read_instruction(rest, line);
    return is_empty(next_word(&rest)) ? NULL : "there are words after its end";
}

static bool has_words(struct span line)
{
    return !is_empty(next_word(&line));
}

static size_t count_lines(const struct file *file)
{
    size_t count = 1;
    for (size_t i = 0; i < file->len; i++)
        count += file->bytes[i] == '\n';
    return count;
}

/* Room for as many lines as there can be, and for their bytes, which two digits each stand for. */
static bool make_room(const struct file *file, struct script *out)
{
    size_t lines = count_lines(file);
    out->count = 0;
    out->lines = lines > SIZE_MAX / sizeof *out->lines ? NULL : malloc(lines * sizeof *out->lines);
    out->bytes = malloc(file->len / 2 + 1);
    return out->lines != NULL && out->bytes != NULL;
}

/* Some editors put a byte order mark before a text in UTF-8. */
static size_t mark_len(const struct file *file)
{
    static const uint8_t mark[] = {0xef, 0xbb, 0xbf};
    return file->len >= sizeof mark && memcmp(file->bytes, mark, sizeof mark) == 0 ? sizeof mark : 0;
}

static enum status read_lines(const char *name, const struct file *file, struct script *out)
{
    const char *at = (const char *)file->bytes + mark_len(file), *end = (const char *)file->bytes + file->len;
    uint8_t *room = out->bytes;
    for (size_t number = 1; at < end; number++) {
        const char *feed = memchr(at, '\n', (size_t)(end - at));
        struct span rest = {at, feed == NULL ? end : feed};
        at = feed == NULL ? end : feed + 1;
        if (!has_words(rest))
            continue;
        struct line *line = &out->lines[out->count++];
        *line = (struct line){.number = number, .bytes = room};
        const char *problem = read_line(rest, line);
        if (problem != NULL) {
            say_bad_line(name, number, problem);
            return TROUBLE;
        }
        room += line->len;
    }
    return ALL_ACCEPTED;
}

enum status script_read(const char *name, struct script *out)
{
    struct file file;
    const char *problem = file_read(name, SIZE_MAX, &file);
    if (problem != NULL) {
        say_unread(name, problem);
        return TROUBLE;
    }
    enum status status = TROUBLE;
    if (make_room(&file, out))
        status = read_lines(name, &file, out);
    else
        say_unread(name, "too large for memory");
    file_free(&file);
    if (status != ALL_ACCEPTED)
        script_free(out);
    return status;
}

void script_free(struct script *script)
{
    free(script->lines);
    free(script->bytes);
    script->lines = NULL;
    script->bytes = NULL;
}
