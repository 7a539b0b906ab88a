// Facets: how often each value of a field stands among the documents that have a word, written by hand over a hash map, or as
// a spy on the matches of Xapian's in-memory database counts them. Usage: facets floor | xapian < LINES
//
// `doc WORD_VALUE WORD_VALUE NUMBER NUMBER WORD..` adds a document with a value in each of four fields. `facets FIELD SIZE WORD`
// is answered by a line with the number of matches, and a line for each of the first `SIZE` values.
#include <xapian.h>
#include <algorithm>
#include <charconv>
#include <cstdint>
#include <cstdio>
#include <string>
#include <string_view>
#include <unistd.h>
#include <unordered_map>
#include <vector>

using std::string;
using std::string_view;
using std::vector;
using Values = vector<string>; // one for each field; empty where there is none

static const size_t FIELDS = 4, FIRST_NUMBER = 2;

// Numbers are kept as eight bytes, the highest first, so that bytes are ordered as numbers are.

static string bytes_of(uint64_t number)
{
    string bytes(8, '\0');
    for (size_t i = 8; i-- > 0; number >>= 8)
        bytes[i] = number & 255;
    return bytes;
}

static uint64_t number_of(const string &bytes)
{
    uint64_t number = 0;
    for (unsigned char byte : bytes)
        number = number << 8 | byte;
    return number;
}

// Answers

static string out;

static void put(const char *text, uint64_t number)
{
    char digits[20];
    out += text;
    out.append(digits, std::to_chars(digits, digits + 20, number).ptr);
}

static void put_matches(uint64_t matches)
{
    put("facets matches=", matches);
    out += '\n';
}

static void put_value(size_t field, const string &value, uint64_t count)
{
    put("facet count=", count);
    if (field >= FIRST_NUMBER)
        put(" value=", number_of(value));
    else
        (out += " value=\"").append(value) += '"';
    out += '\n';
}

static void put_out()
{
    for (size_t at = 0; at < out.size();) {
        const ssize_t some = write(1, out.data() + at, out.size() - at);
        if (some <= 0)
            _exit(4);
        at += some;
    }
    out.clear();
}

// The two that count

struct Floor {
    std::unordered_map<string, vector<uint32_t>> lists;
    vector<string> values[FIELDS];

    void add(Values given, const vector<string_view> &words)
    {
        const uint32_t id = values[0].size();
        for (size_t field = 0; field < FIELDS; ++field)
            values[field].push_back(std::move(given[field]));
        for (string_view word : words)
            lists[string(word)].push_back(id);
    }

    void facets(size_t field, size_t size, const string &word)
    {
        using Entry = std::pair<const string, uint32_t>;
        const vector<uint32_t> &list = lists[word];
        std::unordered_map<string, uint32_t> counts;
        for (uint32_t id : list) {
            const string &value = values[field][id];
            if (!value.empty())
                ++counts[value];
        }
        vector<const Entry *> entries;
        entries.reserve(counts.size());
        for (const Entry &entry : counts)
            entries.push_back(&entry);
        const auto end = entries.begin() + std::min(size, entries.size());
        std::partial_sort(entries.begin(), end, entries.end(), [](const Entry *a, const Entry *b) {
            return a->second != b->second ? a->second > b->second : a->first < b->first;
        });
        put_matches(list.size());
        for (auto at = entries.begin(); at != end; ++at)
            put_value(field, (*at)->first, (*at)->second);
    }
};

struct Peer {
    Xapian::WritableDatabase db{"", Xapian::DB_BACKEND_INMEMORY};

    void add(Values given, const vector<string_view> &words)
    {
        Xapian::Document document;
        for (size_t field = 0; field < FIELDS; ++field)
            document.add_value(field, given[field]);
        for (string_view word : words)
            document.add_term(string(word));
        db.add_document(document);
    }

    void facets(size_t field, size_t size, const string &word)
    {
        Xapian::Enquire enquire(db);
        enquire.set_weighting_scheme(Xapian::BoolWeight());
        enquire.set_query(Xapian::Query(word));
        Xapian::ValueCountMatchSpy spy(field);
        enquire.add_matchspy(&spy);
        enquire.get_mset(0, 0, db.get_doccount());
        put_matches(spy.get_total());
        for (auto value = spy.top_values_begin(size); value != spy.top_values_end(size); ++value)
            put_value(field, *value, value.get_termfreq());
    }
};

// Lines

struct Words {
    string_view left;

    string_view next()
    {
        const size_t space = std::min(left.find(' '), left.size());
        const string_view word = left.substr(0, space);
        left.remove_prefix(std::min(space + 1, left.size()));
        return word;
    }

    uint64_t number()
    {
        uint64_t value = 0;
        const string_view word = next();
        std::from_chars(word.data(), word.data() + word.size(), value);
        return value;
    }
};

template <class Any> static void answer(Any &any, Words words)
{
    if (words.next() == "doc") {
        Values values;
        for (size_t field = 0; field < FIELDS; ++field)
            values.push_back(field >= FIRST_NUMBER ? bytes_of(words.number()) : string(words.next()));
        vector<string_view> rest;
        while (!words.left.empty())
            rest.push_back(words.next());
        any.add(std::move(values), rest);
        return;
    }
    const size_t field = words.number(), size = words.number();
    any.facets(field, size, string(words.next()));
}

template <class Any> static void run()
{
    Any any;
    string left;
    vector<char> piece(1 << 16);
    for (;;) {
        put_out();
        const ssize_t some = read(0, piece.data(), piece.size());
        if (some <= 0)
            _exit(some < 0 ? 3 : 0);
        left.append(piece.data(), some);
        size_t from = 0;
        for (size_t to; (to = left.find('\n', from)) != string::npos; from = to + 1) {
            answer(any, Words{string_view(left).substr(from, to - from)});
            if (out.size() >= 1 << 16)
                put_out();
        }
        left.erase(0, from);
    }
}

int main(int argc, char **argv)
{
    if (argc == 2 && string_view(argv[1]) == "floor")
        run<Floor>();
    if (argc == 2 && string_view(argv[1]) == "xapian")
        run<Peer>();
    fprintf(stderr, "usage: facets floor | xapian < LINES\n");
    return 1;
}
