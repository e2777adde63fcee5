#include "peer.h"

#include <cjson/cJSON.h>
#include <string.h>

static cJSON *tree;

static int read_tree(const char *text, size_t len, int decoded) {
    (void)decoded;
    tree = cJSON_ParseWithLength(text, len);
    return tree != 0;
}

static void add(const cJSON *value, struct found *all) {
    const cJSON *inner;
    all->nodes++;
    if (value->string) {
        all->nodes++;
        all->bytes += strlen(value->string);
    }
    if (cJSON_IsNumber(value)) all->sum += value->valueint;
    if (cJSON_IsString(value)) all->bytes += strlen(value->valuestring);
    cJSON_ArrayForEach(inner, value) add(inner, all);
}

static struct found found(void) {
    struct found all = {0, 0, 0};
    add(tree, &all);
    return all;
}

static void give_back(void) { cJSON_Delete(tree); }

#define QUOTED(number) #number
#define JOINED(major, minor, patch) QUOTED(major) "." QUOTED(minor) "." QUOTED(patch)
const char *const reader = "cJSON";
const char *const version = JOINED(CJSON_VERSION_MAJOR, CJSON_VERSION_MINOR, CJSON_VERSION_PATCH);
const struct way ways[] = {{"tree", 0, read_tree, found, give_back}, {0, 0, 0, 0, 0}};
