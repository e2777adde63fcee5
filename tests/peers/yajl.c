/* Its tree; and its calls back, which make none: without them for the reading alone, and with a call for each name and value. */
#include "peer.h"

#include <string.h>
#include <yajl/yajl_parse.h>
#include <yajl/yajl_tree.h>
#include <yajl/yajl_version.h>

static yajl_val tree;
static struct found all;

static int read_tree(const char *text, size_t len, int decoded) {
    (void)len;
    (void)decoded;
    tree = yajl_tree_parse(text, 0, 0);
    return tree != 0;
}

static void add(yajl_val value) {
    size_t at;
    all.nodes++;
    if (YAJL_IS_INTEGER(value)) all.sum += YAJL_GET_INTEGER(value);
    if (YAJL_IS_STRING(value)) all.bytes += strlen(value->u.string);
    if (YAJL_IS_ARRAY(value)) {
        for (at = 0; at < YAJL_GET_ARRAY(value)->len; at++) add(YAJL_GET_ARRAY(value)->values[at]);
    }
    if (YAJL_IS_OBJECT(value)) {
        for (at = 0; at < YAJL_GET_OBJECT(value)->len; at++) {
            all.nodes++;
            all.bytes += strlen(YAJL_GET_OBJECT(value)->keys[at]);
            add(YAJL_GET_OBJECT(value)->values[at]);
        }
    }
}

static struct found found_tree(void) {
    memset(&all, 0, sizeof all);
    add(tree);
    return all;
}

static void give_back(void) { yajl_tree_free(tree); }

static int on_boolean(void *to, int value) {
    (void)value;
    ((struct found *)to)->nodes++;
    return 1;
}

static int on_integer(void *to, long long value) {
    ((struct found *)to)->nodes++;
    ((struct found *)to)->sum += value;
    return 1;
}

static int on_text(void *to, const unsigned char *text, size_t len) {
    (void)text;
    ((struct found *)to)->nodes++;
    ((struct found *)to)->bytes += len;
    return 1;
}

static int on_begin(void *to) {
    ((struct found *)to)->nodes++;
    return 1;
}

static const yajl_callbacks calls = {0, on_boolean, on_integer, 0, 0, on_text, on_begin, on_text, 0, on_begin, 0};

static int read_calls(const char *text, size_t len, int decoded) {
    int accepted;
    yajl_handle handle = yajl_alloc(decoded ? &calls : 0, 0, &all);
    memset(&all, 0, sizeof all);
    accepted = yajl_parse(handle, (const unsigned char *)text, len) == yajl_status_ok;
    accepted = yajl_complete_parse(handle) == yajl_status_ok && accepted;
    yajl_free(handle);
    return accepted;
}

static struct found found_calls(void) { return all; }

#define QUOTED(number) #number
#define JOINED(major, minor, patch) QUOTED(major) "." QUOTED(minor) "." QUOTED(patch)
const char *const reader = "yajl";
const char *const version = JOINED(YAJL_MAJOR, YAJL_MINOR, YAJL_MICRO);
const struct way ways[] = {
    {"tree", 0, read_tree, found_tree, give_back}, {"calls", 0, read_calls, found_calls, 0}, {0, 0, 0, 0, 0}};
