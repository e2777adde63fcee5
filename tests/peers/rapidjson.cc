/* Its tree; the same in place, where Texts stay in the text, which is overwritten; and its calls back, which make none. */
#include "peer.h"

#include <rapidjson/document.h>
#include <rapidjson/rapidjson.h>
#include <rapidjson/reader.h>
#include <string.h>

using rapidjson::Document;
using rapidjson::SizeType;
using rapidjson::Value;

static Document *tree;
static char copy[65537];
static struct found all;

static int read_tree(const char *text, size_t, int) {
    tree = new Document;
    return !tree->Parse(text).HasParseError();
}

static void copied(const char *text, size_t len) { memcpy(copy, text, len + 1); }

static int read_in_place(const char *, size_t, int) {
    tree = new Document;
    return !tree->ParseInsitu(copy).HasParseError();
}

static void add(const Value &value) {
    all.nodes++;
    if (value.IsInt64()) all.sum += value.GetInt64();
    if (value.IsString()) all.bytes += value.GetStringLength();
    if (value.IsArray()) {
        for (Value::ConstValueIterator at = value.Begin(); at != value.End(); ++at) add(*at);
    }
    if (value.IsObject()) {
        for (Value::ConstMemberIterator at = value.MemberBegin(); at != value.MemberEnd(); ++at) {
            all.nodes++;
            all.bytes += at->name.GetStringLength();
            add(at->value);
        }
    }
}

static struct found found_tree(void) {
    memset(&all, 0, sizeof all);
    add(*tree);
    return all;
}

static void give_back(void) { delete tree; }

struct Calls : rapidjson::BaseReaderHandler<rapidjson::UTF8<>, Calls> {
    bool integer(long long value) {
        all.nodes++;
        all.sum += value;
        return true;
    }
    bool text(SizeType len) {
        all.nodes++;
        all.bytes += len;
        return true;
    }
    bool node() {
        all.nodes++;
        return true;
    }
    bool Int(int value) { return integer(value); }
    bool Uint(unsigned value) { return integer(value); }
    bool Int64(int64_t value) { return integer(value); }
    bool Uint64(uint64_t value) { return integer((long long)value); }
    bool Bool(bool) { return node(); }
    bool StartObject() { return node(); }
    bool StartArray() { return node(); }
    bool String(const char *, SizeType len, bool) { return text(len); }
    bool Key(const char *, SizeType len, bool) { return text(len); }
};

template <class Handler> static int read_with(const char *text) {
    Handler handler;
    rapidjson::Reader one;
    rapidjson::StringStream stream(text);
    return !one.Parse(stream, handler).IsError();
}

static int read_calls(const char *text, size_t, int decoded) {
    memset(&all, 0, sizeof all);
    return decoded ? read_with<Calls>(text) : read_with<rapidjson::BaseReaderHandler<> >(text);
}

static struct found found_calls(void) { return all; }

extern "C" {
const char *const reader = "rapidjson";
const char *const version = RAPIDJSON_VERSION_STRING;
const struct way ways[] = {{"tree", 0, read_tree, found_tree, give_back},
                           {"in-place", copied, read_in_place, found_tree, give_back},
                           {"calls", 0, read_calls, found_calls, 0},
                           {0, 0, 0, 0, 0}};
}
