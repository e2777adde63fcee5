/* Settings by their names: `settings TEXT` reads the file TEXT at level 2 and prints its speed, an Integer, its site, a Text, and whether it
   is armed, a Boolean that may be absent and is then FALSE. Says on standard error where and why TEXT or a value is refused, where it has a
   setting that is unknown, or which one is absent or repeated, and exits with 1; exits with 2 if TEXT cannot be read. settings.muon is such
   a file. */
#include "muon.h"
#include "whole_file.h"

#include <stdio.h>
#include <string.h>

/* One byte more than a text may have, so that one that is too long is seen to be. */
static uint8_t text[MUON_TEXT_MAX + 1], site[MUON_TEXT_MAX];
static uint32_t table[MUON_TABLE_MAX];
static size_t text_len;
static const char *path;

/* Every setting that such a file may have, also those that are not read here. */
static const char *const known[] = {"site", "speed", "armed", "limits", "stops", NULL};

/* FILE:line:column of a place, as compilers tell it. */
static void tell(size_t place) {
    size_t line, column;
    muon_line_column(text, text_len, place, &line, &column);
    fprintf(stderr, "%s:%zu:%zu: ", path, line, column);
}

static int refused(uint32_t number, size_t place) {
    tell(place);
    fprintf(stderr, "refused (%u): %s\n", (unsigned)number, muon_refusal_message(number));
    return 0;
}

/* Whether the text was read, is a Tuple, and has no setting but the known ones. */
static int read_it(void) {
    size_t place, count;
    uint32_t node, kind, number = muon_read(2, text, text_len, table, MUON_TABLE_MAX, &place, &count);
    if (number != MUON_ACCEPTED) return refused(number, place);
    node = muon_unknown(text, table, 0, known);
    if (node == MUON_NONE) return 1;
    tell(muon_node_word(table, node, MUON_NODE_FIRST));
    kind = muon_node_word(table, 0, MUON_NODE_KIND);
    if (kind == MUON_KIND_TUPLE)
        fputs("an unknown setting\n", stderr);
    else
        fprintf(stderr, "the settings are no Tuple, but of the kind %s\n", muon_kind_name(kind));
    return 0;
}

/* How often the text has the setting; says so if that is neither once nor, for one that may be absent, never. */
static uint32_t find(const char *name, int optional, uint32_t *node) {
    uint32_t times = muon_attribute(text, table, 0, name, strlen(name), node);
    if (times > 1 || (times == 0 && !optional))
        fprintf(stderr, "%s: the setting %s is %s\n", path, name, times == 0 ? "absent" : "repeated");
    return times;
}

static int get_speed(int64_t *speed) {
    size_t place, count;
    uint32_t node, number;
    if (find("speed", 0, &node) != 1) return 0;
    number = muon_integer(muon_piece(text, table, node), muon_piece_len(table, node), speed, &place, &count);
    return number == MUON_ACCEPTED || refused(number, muon_node_word(table, node, MUON_NODE_FIRST) + place);
}

static int get_site(size_t *count) {
    size_t place;
    uint32_t node, number;
    if (find("site", 0, &node) != 1) return 0;
    number = muon_text(muon_piece(text, table, node), muon_piece_len(table, node), site, sizeof site, &place, count);
    return number == MUON_ACCEPTED || refused(number, muon_node_word(table, node, MUON_NODE_FIRST) + place);
}

static int get_armed(int *armed) {
    uint32_t node, number, times = find("armed", 1, &node);
    *armed = 0;
    if (times != 1) return times == 0;
    number = muon_boolean(table, node, armed);
    return number == MUON_ACCEPTED || refused(number, muon_node_word(table, node, MUON_NODE_FIRST));
}

int main(int argc, char **argv) {
    size_t site_len;
    int64_t speed;
    int armed;
    if (argc != 2) {
        fputs("settings TEXT\n", stderr);
        return 2;
    }
    path = argv[1];
    if (!get(path, text, sizeof text, &text_len)) return failed(path);
    if (!read_it() || !get_speed(&speed) || !get_site(&site_len) || !get_armed(&armed)) return 1;
    printf("speed %lld\nsite ", (long long)speed);
    fwrite(site, 1, site_len, stdout);
    printf("\narmed %s\n", armed ? "TRUE" : "FALSE");
    return fflush(stdout) == 0 ? 0 : failed("standard output");
}
