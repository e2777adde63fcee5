/* The proved library: a table, and the value calls for every Integer and Text in it. */
#include "peer.h"

#include <muon.h>

static uint32_t table[MUON_TABLE_MAX];
static uint8_t buffer[MUON_TEXT_MAX];
static struct found all;

static int decode(const uint8_t *text, const uint32_t *node) {
    const uint8_t *piece = text + node[MUON_NODE_FIRST];
    size_t piece_len = node[MUON_NODE_END] - node[MUON_NODE_FIRST];
    size_t place, count;
    int64_t value;
    switch (node[MUON_NODE_KIND]) {
    case MUON_KIND_INTEGER:
        if (muon_integer(piece, piece_len, &value, &place, &count) != MUON_ACCEPTED) return 0;
        all.sum += value;
        return 1;
    case MUON_KIND_TEXT:
        if (muon_text(piece, piece_len, buffer, sizeof buffer, &place, &count) != MUON_ACCEPTED) return 0;
        all.bytes += count;
        return 1;
    default:
        return 1;
    }
}

static int read_table(const char *text, size_t len, int decoded) {
    const uint8_t *bytes = (const uint8_t *)text;
    size_t place, count, node;
    if (muon_read(2, bytes, len, table, MUON_TABLE_MAX, &place, &count) != MUON_ACCEPTED) return 0;
    if (!decoded) return 1;
    all.nodes = count;
    all.sum = 0;
    all.bytes = 0;
    for (node = 0; node < count; node++) {
        if (!decode(bytes, table + MUON_NODE_WORDS * node)) return 0;
    }
    return 1;
}

static struct found found(void) { return all; }

const char *const reader = "muon";
const char *const version = "-";
const struct way ways[] = {{"table", 0, read_table, found, 0}, {0, 0, 0, 0, 0}};
