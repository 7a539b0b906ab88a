// The lines that bench/xapian_finds.py makes, over Xapian's in-memory database: documents with a body and perhaps a year,
// finds whose texts its own query parser reads, also in the order of the year, and synonyms. A term weighs its wdf.
// Usage: xapian_finds < LINES
#include <xapian.h>
#include <charconv>
#include <cstdio>
#include <string>
#include <unistd.h>
#include <vector>

using std::string;
using std::vector;

static const Xapian::valueno YEAR = 0;
static const unsigned FLAGS = Xapian::QueryParser::FLAG_BOOLEAN | Xapian::QueryParser::FLAG_LOVEHATE
                              | Xapian::QueryParser::FLAG_PHRASE | Xapian::QueryParser::FLAG_WILDCARD;

// Lines

static bool begins(const string &line, const char *text)
{
    return line.rfind(text, 0) == 0;
}

// The string whose quote is the next one from here on; here goes behind it. No sign but a quote is escaped in these lines.
static string next_string(const string &line, size_t &here)
{
    string text;
    for (here = line.find('"', here) + 1; line[here] != '"'; ++here) {
        if (line[here] == '\\')
            ++here;
        text += line[here];
    }
    ++here;
    return text;
}

// Where the value of a member begins, or the end of the line where there is none.
static size_t value_of(const string &line, const string &name)
{
    const size_t at = line.find('"' + name + "\":");
    return at == string::npos ? line.size() : at + name.size() + 3;
}

// Answers

static string out;

template <class Number> static void put(const char *text, Number number)
{
    char digits[40];
    out += text;
    out.append(digits, std::to_chars(digits, digits + 40, number).ptr);
}

static void put_weight(double weight)
{
    char digits[400];
    out += " weight=";
    out.append(digits, std::to_chars(digits, digits + 400, weight, std::chars_format::fixed).ptr);
}

static void put_page(const Xapian::MSet &page)
{
    put("found hits=", page.size());
    put(" lower=", page.get_matches_lower_bound());
    put(" estimate=", page.get_matches_estimated());
    put(" upper=", page.get_matches_upper_bound());
    out += '\n';
    for (auto hit = page.begin(); hit != page.end(); ++hit) {
        put("hit rank=", hit.get_rank());
        put(" id=", *hit);
        put_weight(hit.get_weight());
        out += " data=\"\"\n";
    }
}

static void put_out()
{
    for (size_t at = 0; at < out.size();) {
        const ssize_t some = write(1, out.data() + at, out.size() - at);
        if (some <= 0)
            _exit(4);
        at += some;
    }
    out.clear();
}

// The database

struct Finds {
    Xapian::WritableDatabase db{"", Xapian::DB_BACKEND_INMEMORY};
    Xapian::NumberRangeProcessor years{YEAR, "year:"};
    Xapian::TermGenerator terms;
    Xapian::QueryParser parser;

    Finds()
    {
        parser.set_database(db);
        parser.add_rangeprocessor(&years);
    }

    void add(const string &line)
    {
        Xapian::Document document;
        const size_t year = value_of(line, "year");
        size_t body = value_of(line, "body");
        if (year < line.size())
            document.add_value(YEAR, Xapian::sortable_serialise(std::stoul(line.substr(year))));
        terms.set_document(document);
        terms.set_termpos(0);
        terms.index_text(next_string(line, body));
        put("ok id ", db.add_document(document));
        out += '\n';
    }

    void find(const Xapian::Query &query, const string &line)
    {
        Xapian::Enquire enquire(db);
        enquire.set_weighting_scheme(Xapian::TfIdfWeight("nnn"));
        const size_t reverse = value_of(line, "reverse");
        if (reverse < line.size())
            enquire.set_sort_by_value(YEAR, line[reverse + 1] == 't');
        enquire.set_query(query);
        put_page(enquire.get_mset(0, 10));
    }

    void answer(const string &line)
    {
        size_t here = line.find(':');
        if (begins(line, "{\"add\""))
            add(line);
        else if (begins(line, "{\"find\""))
            find(parser.parse_query(next_string(line, here), FLAGS), line);
        else if (begins(line, "{\"tree\": {\"synonym\"")) {
            vector<string> words;
            for (here = line.find('['); line.find('"', here) != string::npos;)
                words.push_back(next_string(line, here));
            find(Xapian::Query(Xapian::Query::OP_SYNONYM, words.begin(), words.end()), line);
        } else if (begins(line, "{\"schema\""))
            out += "ok schema\n";
        else
            _exit(2);
    }
};

int main()
{
    Finds finds;
    string left;
    vector<char> piece(1 << 16);
    for (;;) {
        put_out();
        const ssize_t some = read(0, piece.data(), piece.size());
        if (some <= 0)
            _exit(some < 0 ? 3 : 0);
        left.append(piece.data(), some);
        size_t from = 0;
        for (size_t to; (to = left.find('\n', from)) != string::npos; from = to + 1) {
            finds.answer(left.substr(from, to - from));
            if (out.size() >= 1 << 16)
                put_out();
        }
        left.erase(0, from);
    }
}
