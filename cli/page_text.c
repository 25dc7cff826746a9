/*
 * page_text.c - the text that stands on the report's page: what comes from outside (file names, serial, date, names) made safe between
 * tags and in attributes alike, and the words of nets and cells.
 */
#include "page.h"

enum { SURROGATES = 0xD800, SURROGATES_END = 0xDFFF, LAST_POINT = 0x10FFFF, IN_A_GROUP = 8 };

/* ---------------------------------------------------------------- from outside */

struct character {
    unsigned long point;
    unsigned bytes;   /* 0 where no character of UTF-8 begins here */
};

/* So many bytes follow a first byte; none of what begins no longer character. */
static unsigned following(unsigned char first)
{
    return first >= 0xF0 && first < 0xF8 ? 3 : first >= 0xE0 && first < 0xF0 ? 2 : first >= 0xC0 && first < 0xE0 ? 1 : 0;
}

/* The character that begins here: the shortest form and no surrogate, as UTF-8 demands. */
static struct character next_character(const unsigned char *at)
{
    static const unsigned long least[] = {0, 0x80, 0x800, 0x10000};
    unsigned more = following(*at);
    struct character found = {*at, more + 1};
    if (*at < 0x80)
        return found;
    found.point = *at & (0x3Fu >> more);
    for (unsigned i = 1; i <= more; i++) {
        if ((at[i] & 0xC0) != 0x80)
            return (struct character){0, 0};
        found.point = found.point << 6 | (at[i] & 0x3Fu);
    }
    bool surrogate = found.point >= SURROGATES && found.point <= SURROGATES_END;
    if (more == 0 || found.point < least[more] || surrogate || found.point > LAST_POINT)
        found.bytes = 0;
    return found;
}

/* HTML lets no control character stand but white space, of which a name needs only the blank, and no noncharacter. */
static bool may_stand(unsigned long point)
{
    bool control = point < 0x20 || (point >= 0x7F && point < 0xA0);
    bool noncharacter = (point & 0xFFFE) == 0xFFFE || (point >= 0xFDD0 && point <= 0xFDEF);
    return !control && !noncharacter;
}

static const char *escape(unsigned long point)
{
    switch (point) {
    case '&':
        return "&amp;";
    case '<':
        return "&lt;";
    case '>':
        return "&gt;";
    case '"':
        return "&quot;";
    case '\'':
        return "&#39;";
    default:
        return NULL;
    }
}

void put_text(FILE *out, const char *text)
{
    const unsigned char *at = (const unsigned char *)text;
    while (*at != 0) {
        struct character one = next_character(at);
        if (one.bytes == 0 || !may_stand(one.point))
            fputs("&#xFFFD;", out);
        else if (escape(one.point) != NULL)
            fputs(escape(one.point), out);
        else
            fwrite(at, 1, one.bytes, out);
        at += one.bytes != 0 ? one.bytes : 1;
    }
}

void put_apart(FILE *out, const char *text)
{
    fputs("<bdi>", out);
    put_text(out, text);
    fputs("</bdi>", out);
}

/* ---------------------------------------------------------------- numbers and words */

void put_named(FILE *out, unsigned number, const char *name)
{
    fprintf(out, "%u", number);
    if (name == NULL)
        return;
    fputs(" <span class=\"name\">", out);
    put_apart(out, name);
    fputs("</span>", out);
}

void put_word(FILE *out, const char *word, const char *own, unsigned from, unsigned to)
{
    bool standing_out = false;
    for (unsigned number = from; number < to; number++) {
        bool differs = own != NULL && word[number] != own[number];
        bool group = number != from && number % IN_A_GROUP == 0;
        if (standing_out && (group || !differs))
            fputs("</b>", out);
        if (group)
            fputc(' ', out);
        if (differs && (group || !standing_out))
            fputs("<b>", out);
        fputc(word[number], out);
        standing_out = differs;
    }
    if (standing_out)
        fputs("</b>", out);
}
