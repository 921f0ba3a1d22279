/* Rows in the form of rows.py: see harness.h. They are read without a request for memory. */
#include "harness.h"
#include <stdlib.h>

enum { MOST_NAMES = 512, MOST_STATIONS = 64 };

/* What has a name: bytes, or a station. */
static struct named {
    const char *name;
    size_t length;
    struct bytes bytes;
    struct nbt_station station;
} names[MOST_NAMES], stations[MOST_STATIONS];
static size_t name_count, station_count;

/* The names, and what is kept, that stand before the first `line`. */
static size_t first_names, first_kept;

/* The length of a name, or of a number, at the front of a text. */
static size_t word_length(const char *text) { return strcspn(text, " \n"); }

/* What a text's first word names: the last that has this name. */
static struct named *find(struct named *list, size_t count, const char *text) {
    size_t length = word_length(text);
    while (count > 0 && (list[count - 1].length != length || memcmp(list[count - 1].name, text, length) != 0))
        count--;
    return count > 0 ? &list[count - 1] : NULL;
}

/* The bytes of a word with which a text begins, and which is passed over: those of a name, or digits. */
static struct bytes bytes_at(const char **text) {
    struct named *named = find(names, name_count, *text);
    struct bytes found = named != NULL ? named->bytes : bytes_of(*text);
    size_t length = word_length(*text);
    expect(named != NULL || 2 * found.length == length || strncmp(*text, "empty", length) == 0, "a name or digits of a row");
    *text += length;
    return found;
}

static void name_bytes(const char *text) {
    struct named *made = &names[name_count++];
    expect(name_count < MOST_NAMES, "room for names");
    *made = (struct named){.name = text, .length = word_length(text)};
    text += made->length + strlen(" = ");
    made->bytes = bytes_at(&text);
    hold(kept_mark());
}

/* The station of a name. One that is made stands in the place of one that was. */
static struct nbt_station *station_at(const char **text, int is_made) {
    struct named *found = find(stations, station_count, *text);
    if (found == NULL) {
        found = &stations[station_count++];
        expect(station_count < MOST_STATIONS, "room for stations");
        *found = (struct named){.name = *text, .length = word_length(*text)};
    }
    *text += found->length;
    if (is_made) {
        nbt_station_free(found->station);
        found->station.at = NULL;
    }
    return &found->station;
}

void free_stations(void) {
    while (station_count > 0)
        nbt_station_free(stations[--station_count].station);
}

static enum call call_at(const char **text) {
    size_t of = 0, length = word_length(*text);
    while (of < CALLS && (strlen(rows[of].name) != length || strncmp(rows[of].name, *text, length) != 0))
        of++;
    expect(of < CALLS, "a call of calls.def");
    *text += length;
    return (enum call)of;
}

/* What a call is given, by the words of its row in calls.def. */
static struct asked asked_at(enum call of, const char **text) {
    struct asked made = {.station = NULL};
    const char *word = rows[of].words + 1;
    for (; *word != '\0'; word += strcspn(word, ", "), word += strspn(word, ", ")) {
        *text += strchr("INLBSM", *word) != NULL;
        if (*word == 'I')
            made.in[word[3] - '0'] = bytes_at(text);
        else if (*word == 'N' || *word == 'L' || *word == 'B')
            made.n[word[2] - '0'] = strtoull(*text, (char **)text, 0);
        else if (*word == 'S' || *word == 'M')
            made.station = station_at(text, *word == 'M');
    }
    return made;
}

static struct sample sample_at(const char *text) {
    struct sample made = {.of = call_at(&text)};
    made.asked = asked_at(made.of, &text);
    if (*text != ' ')
        return made;
    made.mark = text[1];
    text += strlen(" :") + (text[2] == ' ');
    expect(strchr("=~:!", made.mark) != NULL, "an answer");
    made.answer = made.mark == '=' || made.mark == '~' ? bytes_at(&text) : (struct bytes){(const uint8_t *)text, strcspn(text, "\n")};
    return made;
}

int next_row(const char **text, struct sample *made) {
    for (;;) {
        const char *at = *text;
        if (*at == '\0')
            return 0;
        *text += strcspn(at, "\n");
        *text += **text == '\n';
        if (strncmp(at, "let ", 4) == 0) {
            name_bytes(at + 4);
        } else if (strncmp(at, "line\n", 5) == 0) {
            if (line_number++ == 0) {
                first_names = name_count;
                first_kept = kept_mark();
            }
            name_count = first_names;
            hold(first_kept);
            release(0);
        } else if (*at != '#' && *at != '\n') {
            doing = at;
            *made = sample_at(at);
            return 1;
        }
    }
}
