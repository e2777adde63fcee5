#include "peer.h"

#include <json-c/json.h>
#include <string.h>

static struct json_object *tree;

static int read_tree(const char *text, size_t len, int decoded) {
    struct json_tokener *tokener = json_tokener_new();
    (void)decoded;
    tree = json_tokener_parse_ex(tokener, text, (int)len);
    json_tokener_free(tokener);
    return tree != 0;
}

static void add(struct json_object *value, struct found *all) {
    size_t at;
    all->nodes++;
    switch (json_object_get_type(value)) {
    case json_type_int:
        all->sum += json_object_get_int64(value);
        break;
    case json_type_string:
        all->bytes += (size_t)json_object_get_string_len(value);
        break;
    case json_type_array:
        for (at = 0; at < json_object_array_length(value); at++) add(json_object_array_get_idx(value, at), all);
        break;
    case json_type_object: {
        json_object_object_foreach(value, name, inner) {
            all->nodes++;
            all->bytes += strlen(name);
            add(inner, all);
        }
        break;
    }
    default:
        break;
    }
}

static struct found found(void) {
    struct found all = {0, 0, 0};
    add(tree, &all);
    return all;
}

static void give_back(void) { json_object_put(tree); }

const char *const reader = "json-c";
const char *const version = JSON_C_VERSION;
const struct way ways[] = {{"tree", 0, read_tree, found, give_back}, {0, 0, 0, 0, 0}};
