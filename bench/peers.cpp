// The lines that bench/peers.py makes, over Xapian's in-memory database, over a table of SQLite's FTS5 in memory, or over a
// floor: what any engine must keep to answer one-word finds, written by hand. Usage: peers xapian | fts5 | floor < LINES
#include <sqlite3.h>
#include <xapian.h>
#include <algorithm>
#include <cstdint>
#include <cstdio>
#include <iostream>
#include <unistd.h>
#include <string>
#include <unordered_map>
#include <vector>

using std::string;

// What stands in quotes behind a name; these lines have no escapes.
static string text_behind(const string &line, const char *name)
{
    size_t at = line.find(name);
    if (at == string::npos)
        return "";
    size_t from = line.find('"', line.find(':', at)) + 1;
    return line.substr(from, line.find('"', from) - from);
}

static unsigned number_behind(const string &line, const char *name)
{
    return std::stoul(line.substr(line.find(':', line.find(name)) + 1));
}

struct Xapian_peer {
    Xapian::WritableDatabase db{"", Xapian::DB_BACKEND_INMEMORY};

    static Xapian::Document made(const string &body)
    {
        Xapian::Document document;
        Xapian::TermGenerator terms;
        terms.set_document(document);
        terms.index_text(body);
        return document;
    }

    void add(const string &body) { printf("id %u\n", db.add_document(made(body))); }

    void replace(unsigned id, const string &body)
    {
        db.replace_document(id, made(body));
        printf("id %u\n", id);
    }

    void remove(unsigned id)
    {
        db.delete_document(id);
        printf("ok\n");
    }

    void find(const string &text)
    {
        Xapian::QueryParser parser;
        Xapian::Enquire enquire(db);
        enquire.set_weighting_scheme(Xapian::TfIdfWeight("nnn"));
        enquire.set_query(parser.parse_query(text));
        Xapian::MSet page = enquire.get_mset(0, 10);
        printf("found %u\n", page.get_matches_estimated());
        for (auto hit = page.begin(); hit != page.end(); ++hit)
            printf("hit %u %.0f\n", *hit, hit.get_weight());
    }
};

// One transaction over one table, whose statements are prepared once. The best hits are those of its own BM25.
struct Fts5_peer {
    sqlite3 *db = nullptr;
    sqlite3_stmt *adds, *replaces, *removes, *finds;

    static void check(bool is_well)
    {
        if (!is_well)
            exit(3);
    }

    sqlite3_stmt *prepared(const char *text)
    {
        sqlite3_stmt *statement;
        check(sqlite3_prepare_v2(db, text, -1, &statement, nullptr) == SQLITE_OK);
        return statement;
    }

    Fts5_peer()
    {
        check(sqlite3_open(":memory:", &db) == SQLITE_OK);
        check(sqlite3_exec(db, "CREATE VIRTUAL TABLE pages USING fts5(body); BEGIN", nullptr, nullptr, nullptr) == SQLITE_OK);
        adds = prepared("INSERT INTO pages (body) VALUES (?1)");
        replaces = prepared("UPDATE pages SET body = ?1 WHERE rowid = ?2");
        removes = prepared("DELETE FROM pages WHERE rowid = ?2");
        finds = prepared("SELECT rowid, rank FROM pages WHERE pages MATCH ?1 ORDER BY rank LIMIT 10");
    }

    static void bind(sqlite3_stmt *statement, const string &text)
    {
        check(sqlite3_bind_text(statement, 1, text.data(), int(text.size()), SQLITE_STATIC) == SQLITE_OK);
    }

    static void done(sqlite3_stmt *statement)
    {
        check(sqlite3_step(statement) == SQLITE_DONE);
        sqlite3_reset(statement);
    }

    void add(const string &body)
    {
        bind(adds, body);
        done(adds);
        printf("id %lld\n", sqlite3_last_insert_rowid(db));
    }

    void replace(unsigned id, const string &body)
    {
        bind(replaces, body);
        sqlite3_bind_int64(replaces, 2, id);
        done(replaces);
        printf("id %u\n", id);
    }

    void remove(unsigned id)
    {
        sqlite3_bind_int64(removes, 2, id);
        done(removes);
        printf("ok\n");
    }

    void find(const string &text)
    {
        bind(finds, text);
        printf("found\n");
        while (sqlite3_step(finds) == SQLITE_ROW)
            printf("hit %lld %f\n", sqlite3_column_int64(finds, 0), sqlite3_column_double(finds, 1));
        sqlite3_reset(finds);
    }
};

struct Floor {
    std::unordered_map<string, std::vector<std::pair<uint32_t, uint32_t>>> lists;
    uint32_t last = 0;

    void add(const string &body)
    {
        ++last;
        for (size_t from = 0; from < body.size();) {
            size_t to = std::min(body.find(' ', from), body.size());
            auto &list = lists[body.substr(from, to - from)];
            if (!list.empty() && list.back().first == last)
                ++list.back().second;
            else
                list.push_back({last, 1});
            from = to + 1;
        }
        printf("id %u\n", last);
    }

    void replace(unsigned, const string &) { exit(2); }

    void remove(unsigned) { exit(2); }

    void find(const string &text)
    {
        auto list = lists[text];
        size_t many = std::min<size_t>(10, list.size());
        std::partial_sort(list.begin(), list.begin() + many, list.end(), [](auto a, auto b) {
            return a.second != b.second ? a.second > b.second : a.first < b.first;
        });
        printf("found %zu\n", list.size());
        for (size_t i = 0; i < many; ++i)
            printf("hit %u %u\n", list[i].first, list[i].second);
    }
};

template <class Peer> static int run()
{
    Peer peer;
    string line;
    std::ios::sync_with_stdio(false);
    while (std::getline(std::cin, line)) {
        if (line.rfind("{\"add\"", 0) == 0)
            peer.add(text_behind(line, "\"body\""));
        else if (line.rfind("{\"replace\"", 0) == 0)
            peer.replace(number_behind(line, "\"replace\""), text_behind(line, "\"body\""));
        else if (line.rfind("{\"delete\"", 0) == 0)
            peer.remove(number_behind(line, "\"delete\""));
        else if (line.rfind("{\"find\"", 0) == 0)
            peer.find(text_behind(line, "\"find\""));
    }
    fflush(stdout);
    _exit(0);
}

int main(int argc, char **argv)
{
    if (argc == 2 && string(argv[1]) == "xapian")
        return run<Xapian_peer>();
    if (argc == 2 && string(argv[1]) == "fts5")
        return run<Fts5_peer>();
    if (argc == 2 && string(argv[1]) == "floor")
        return run<Floor>();
    fprintf(stderr, "usage: peers xapian | fts5 | floor < LINES\n");
    return 1;
}
