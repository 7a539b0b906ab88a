// Finds of some classes, each written by hand for its class alone, over lists in memory; and an or of many parts in three
// forms. Usage: floors < LINES
//
// `doc YEAR SITE WORD..` adds a document. `FORM SIZE WORD..` finds so many of the best documents, `FORM` being one of those in
// `find`; it is answered as the engine answers, by a line with the number of hits and a line for each.
#include <algorithm>
#include <charconv>
#include <cstdint>
#include <cstdio>
#include <cstdlib>
#include <cstring>
#include <memory>
#include <string>
#include <string_view>
#include <unistd.h>
#include <unordered_map>
#include <utility>
#include <vector>

using std::string_view;
using std::vector;
using Id = uint32_t;
using Weight = uint64_t;

static const size_t BLOCK = 128;
static const Id END = UINT32_MAX;

// Lists

struct Posting {
    Id id;
    uint32_t wdf;
};

// Of a block: its last id, and its greatest wdf.
struct Head {
    Id last;
    uint32_t most;
};

struct List {
    vector<Posting> postings;
    vector<Head> heads;
    // The positions of all postings, and where those of each begin.
    vector<uint32_t> places, starts;
    uint32_t most = 0;

    void add(Id id, uint32_t place)
    {
        if (postings.empty() || postings.back().id != id) {
            if (postings.size() % BLOCK == 0)
                heads.push_back({id, 0});
            postings.push_back({id, 0});
            starts.push_back(places.size());
        }
        places.push_back(place);
        uint32_t wdf = ++postings.back().wdf;
        heads.back() = {id, std::max(heads.back().most, wdf)};
        most = std::max(most, wdf);
    }

    size_t size() const { return postings.size(); }

    // The first block from this one on that reaches an id.
    size_t block_reaching(size_t block, Id id) const
    {
        size_t step = 1;
        while (block + step < heads.size() && heads[block + step].last < id)
            step *= 2;
        auto from = heads.begin() + block, to = heads.begin() + std::min(block + step + 1, heads.size());
        return std::partition_point(from, to, [id](Head head) { return head.last < id; }) - heads.begin();
    }

    // The first posting from this one on with an id that is no lower. The block of that one reaches it.
    size_t posting_in_block(size_t at, Id id) const
    {
        while (postings[at].id < id)
            ++at;
        return at;
    }

    // The same, in whatever block it stands; the number of postings where there is none.
    size_t posting_reaching(size_t at, Id id) const
    {
        if (at == size())
            return at;
        size_t block = at / BLOCK;
        if (heads[block].last < id) {
            block = block_reaching(block + 1, id);
            if (block >= heads.size())
                return size();
            at = block * BLOCK;
        }
        return posting_in_block(at, id);
    }
};

// The documents

static std::unordered_map<std::string, List> lists;
static vector<string_view> terms; // in byte order, once a find wants them
static vector<uint64_t> years{0};
static vector<uint32_t> sites{0};
static std::unordered_map<std::string, uint32_t> numbers_of_sites;

static const List &list_of(string_view term)
{
    static const List none;
    auto found = lists.find(std::string(term));
    return found == lists.end() ? none : found->second;
}

// Pages

struct Hit {
    Id id;
    Weight weight;
};

// The best hits, of those that are offered by rising id.
struct Page {
    size_t size;
    vector<Hit> hits;
    // What a later hit must weigh at the least to enter.
    Weight need = 0;

    void offer(Id id, Weight weight)
    {
        if (weight < need)
            return;
        if (hits.size() == size)
            hits.pop_back();
        auto at = hits.end();
        while (at != hits.begin() && at[-1].weight < weight)
            --at;
        hits.insert(at, {id, weight});
        if (hits.size() == size)
            need = hits.back().weight + 1;
    }
};

// The same, of each site the best alone.
struct CollapsedPage : Page {
    void offer(Id id, Weight weight)
    {
        if (weight < need)
            return;
        auto same = std::find_if(hits.begin(), hits.end(), [id](Hit hit) { return sites[hit.id] == sites[id]; });
        if (same != hits.end()) {
            if (weight <= same->weight)
                return;
            hits.erase(same);
        }
        Page::offer(id, weight);
    }
};

// One list, and two

// A list's postings that pass a test.
template <class Test> static void one(const List &list, Page &page, Test passes)
{
    for (size_t block = 0; block < list.heads.size() && page.need <= list.most; ++block) {
        if (list.heads[block].most < page.need)
            continue;
        const Posting *at = &list.postings[block * BLOCK];
        const Posting *end = &list.postings[0] + std::min((block + 1) * BLOCK, list.size());
        for (; at < end; ++at)
            if (at->wdf >= page.need && passes(at->id))
                page.offer(at->id, at->wdf);
    }
}

// What both lists have, where the test is passed. It goes by pairs of blocks that overlap, by what these can weigh.
template <class Test> static void both(const List &a, const List &b, Page &page, Test passes)
{
    size_t i = 0, j = 0, block = 0;
    while (i < a.size() && page.need <= Weight(a.most) + b.most) {
        if (b.heads[block].last < a.postings[i].id) {
            block = b.block_reaching(block + 1, a.postings[i].id);
            if (block >= b.heads.size())
                return;
            j = block * BLOCK;
        }
        const Head one = a.heads[i / BLOCK], other = b.heads[block];
        const Id end = std::min(one.last, other.last);
        if (Weight(one.most) + other.most < page.need) {
            i = end == one.last ? (i / BLOCK + 1) * BLOCK : a.posting_in_block(i, end + 1);
            continue;
        }
        for (; i < a.size() && a.postings[i].id <= end; ++i) {
            const Posting here = a.postings[i];
            if (Weight(here.wdf) + other.most < page.need)
                continue;
            j = b.posting_in_block(j, here.id);
            const Weight weight = Weight(here.wdf) + b.postings[j].wdf;
            if (b.postings[j].id == here.id && weight >= page.need && passes(i, j))
                page.offer(here.id, weight);
        }
    }
}

// What the first list has, with what the second adds.
static void maybe(const List &a, const List &b, Page &page)
{
    size_t i = 0, j = 0, block = 0;
    while (i < a.size() && page.need <= Weight(a.most) + b.most) {
        if (block < b.heads.size() && b.heads[block].last < a.postings[i].id) {
            block = b.block_reaching(block + 1, a.postings[i].id);
            j = block * BLOCK;
        }
        const Head one = a.heads[i / BLOCK], other = block < b.heads.size() ? b.heads[block] : Head{END, 0};
        const Id end = std::min(one.last, other.last);
        if (Weight(one.most) + other.most < page.need) {
            i = end == one.last ? (i / BLOCK + 1) * BLOCK : a.posting_in_block(i, end + 1);
            continue;
        }
        for (; i < a.size() && a.postings[i].id <= end; ++i) {
            const Posting here = a.postings[i];
            if (Weight(here.wdf) + other.most < page.need)
                continue;
            Weight weight = here.wdf;
            if (other.most > 0) {
                j = b.posting_in_block(j, here.id);
                weight += b.postings[j].id == here.id ? b.postings[j].wdf : 0;
            }
            page.offer(here.id, weight);
        }
    }
}

static void without(const List &a, const List &b, Page &page)
{
    size_t j = 0;
    one(a, page, [&b, &j](Id id) {
        j = b.posting_reaching(j, id);
        return j == b.size() || b.postings[j].id != id;
    });
}

// The second word stands directly behind the first.
static void phrase(const List &a, const List &b, Page &page)
{
    auto follows = [&a, &b](size_t i, size_t j) {
        const uint32_t *x = &a.places[a.starts[i]], *x_end = x + a.postings[i].wdf;
        const uint32_t *y = &b.places[b.starts[j]], *y_end = y + b.postings[j].wdf;
        while (x < x_end && y < y_end) {
            if (*y == *x + 1)
                return true;
            *y <= *x ? ++y : ++x;
        }
        return false;
    };
    if (a.size() <= b.size())
        both(a, b, page, follows);
    else
        both(b, a, page, [&follows](size_t j, size_t i) { return follows(i, j); });
}

// A list, and how far it was gone through.
struct Side {
    const List *list;
    size_t at = 0, block = 0;

    // Whether anything is left from an id on; it goes to the block that reaches it.
    bool reaches(Id id)
    {
        while (block < list->heads.size() && list->heads[block].last < id)
            ++block;
        at = std::max(at, block * BLOCK);
        return block < list->heads.size();
    }

    // What it weighs at the most in the blocks up to an id.
    Weight most_up_to(Id id) const
    {
        if (list->postings[at].id > id)
            return 0;
        uint32_t most = list->heads[block].most;
        for (size_t more = block + 1; more < list->heads.size() && list->heads[more - 1].last < id; ++more)
            most = std::max(most, list->heads[more].most);
        return most;
    }

    // Adds its weights up to an id to sums that begin with another.
    void add_to(uint32_t *sums, Id from, Id to)
    {
        const Posting *begin = list->postings.data(), *here = begin + at, *end = begin + list->size();
        while (here < end && here->id < from)
            ++here;
        for (; here < end && here->id <= to; ++here)
            sums[here->id - from] += here->wdf;
        at = here - begin;
    }
};

static vector<Side> sides_of(const vector<string_view> &words)
{
    vector<Side> sides;
    for (string_view word : words)
        if (list_of(word).size() > 0)
            sides.push_back({&list_of(word)});
    return sides;
}

// The first of so many sums that is no less than another, from a place on; the number of sums where there is none. Eight are
// tried at once, so eight more may be read.
static const Id BESIDE = 8;

static Id place_of(const uint32_t *sums, Id place, Id count, uint32_t least)
{
    for (; place < count && sums[place] < least; ++place) {
        uint32_t any = 0;
        for (Id i = 0; i < BESIDE; ++i)
            any |= sums[place + i] >= least;
        place += any ? 0 : BESIDE - 1;
    }
    return std::min(place, count);
}

// A sum for each document of all terms that begin so.
static void wildcard(string_view prefix, Page &page)
{
    static vector<uint32_t> weights;
    if (terms.empty()) {
        for (auto &[term, list] : lists)
            terms.push_back(term);
        std::sort(terms.begin(), terms.end());
    }
    weights.assign(years.size() + BESIDE, 0);
    auto at = std::lower_bound(terms.begin(), terms.end(), prefix);
    for (; at != terms.end() && at->substr(0, prefix.size()) == prefix; ++at)
        for (Posting posting : list_of(*at).postings)
            weights[posting.id] += posting.wdf;
    auto next = [&page](Id id) { return place_of(weights.data(), id, years.size(), std::max<Weight>(page.need, 1)); };
    for (Id id = next(1); id < years.size(); id = next(id + 1))
        page.offer(id, weights[id]);
}

// Years

static bool is_between(Id id, uint64_t lo, uint64_t hi) { return lo <= years[id] && years[id] <= hi; }

static void range(uint64_t lo, uint64_t hi, Page &page)
{
    for (Id id = 1; id < years.size() && page.need == 0; ++id)
        if (is_between(id, lo, hi))
            page.offer(id, 0);
}

// Those in the range in the order of the year, the greatest first where it is reversed.
static void by_year(uint64_t lo, uint64_t hi, bool reversed, Page &page)
{
    for (Id id = 1; id < years.size(); ++id) {
        const Weight rank = reversed ? years[id] : UINT64_MAX - 1 - years[id];
        if (rank >= page.need && is_between(id, lo, hi))
            page.offer(id, rank);
    }
    for (Hit &hit : page.hits)
        hit.weight = 0;
}

// An or as a tree of nodes, as one node, and as one node by windows

struct Node {
    Id head = END;
    Weight weight = 0, greatest = 0;

    virtual ~Node() = default;

    // Moves on to the first match from the target on that may weigh what is needed, and answers what stands for it then.
    virtual Node *seek(Id target, Weight need) = 0;

    Node *end()
    {
        head = END;
        weight = greatest = 0;
        return this;
    }
};

static inline void reach(std::unique_ptr<Node> &node, Id target, Weight need)
{
    if (target <= node->head)
        return;
    if (node->greatest < need) {
        node->end();
        return;
    }
    Node *next = node->seek(target, need);
    if (next != node.get())
        node.reset(next);
}

// A place in a list that passes over blocks by their heads.
struct Cursor {
    const List *list;
    size_t at = 0;
    Id head = END;
    Weight weight = 0;

    explicit Cursor(const List &of) : list(&of) { show(); }

    void show()
    {
        head = at < list->size() ? list->postings[at].id : END;
        weight = at < list->size() ? list->postings[at].wdf : 0;
    }

    void seek(Id target, Weight need)
    {
        size_t block = at / BLOCK;
        if (list->heads[block].last < target || list->heads[block].most < need) {
            block = list->block_reaching(block + 1, target);
            while (block < list->heads.size() && list->heads[block].most < need)
                ++block;
            if (block >= list->heads.size()) {
                at = list->size();
                return show();
            }
            at = block * BLOCK;
        }
        at = list->posting_in_block(at, target);
        head = list->postings[at].id;
        weight = list->postings[at].wdf;
    }
};

struct Leaf : Node {
    Cursor cursor;

    explicit Leaf(const List &list) : cursor(list)
    {
        greatest = list.most;
        show();
    }

    void show()
    {
        head = cursor.head;
        weight = cursor.weight;
        if (head == END)
            greatest = 0;
    }

    Node *seek(Id target, Weight need) override
    {
        cursor.seek(target, need);
        show();
        return this;
    }
};

static Weight less(Weight need, Weight other) { return need > other ? need - other : 0; }

// Two sides, of which under a need the first leads, or both must match, or one is left.
struct Pair : Node {
    enum Form { EITHER, MAYBE, BOTH } form = EITHER;
    std::unique_ptr<Node> a, b;

    Pair(std::unique_ptr<Node> one, std::unique_ptr<Node> other) : a(std::move(one)), b(std::move(other))
    {
        greatest = a->greatest + b->greatest;
        seek(0, 0);
    }

    Node *seek(Id target, Weight need) override
    {
        if (form == EITHER && a->head == END)
            std::swap(a, b);
        if (a->head == END || (form == BOTH && b->head == END) || a->greatest + b->greatest < need)
            return end();
        if (b->head == END) {
            reach(a, target, need);
            return a.release();
        }
        if (form == EITHER && a->greatest < need)
            std::swap(a, b);
        if (b->greatest < need)
            form = a->greatest < need ? BOTH : std::max(form, MAYBE);
        switch (form) {
        case EITHER:
            reach(a, target, less(need, b->greatest));
            reach(b, target, less(need, a->greatest));
            head = std::min(a->head, b->head);
            weight = (a->head == head ? a->weight : 0) + (b->head == head ? b->weight : 0);
            break;
        case MAYBE:
            reach(a, target, less(need, b->greatest));
            reach(b, a->head, less(need, a->greatest));
            head = a->head;
            weight = a->weight + (b->head == head ? b->weight : 0);
            break;
        case BOTH:
            do {
                reach(a, target, less(need, b->greatest));
                reach(b, a->head, less(need, a->greatest));
                target = b->head;
            } while (a->head != b->head);
            head = a->head;
            weight = a->weight + b->weight;
        }
        greatest = a->greatest + b->greatest;
        return head == END ? end() : this;
    }
};

static std::unique_ptr<Node> nest(const vector<Side> &sides, size_t from, size_t to)
{
    if (to - from == 1)
        return std::make_unique<Leaf>(*sides[from].list);
    const size_t middle = from + (to - from) / 2;
    return std::make_unique<Pair>(nest(sides, from, middle), nest(sides, middle, to));
}

// All sides in one node, the heaviest first. Those lead that with all behind them can weigh what is needed; the others are
// sought where one that leads stands, until what is left cannot make up the need.
struct Many : Node {
    struct Part {
        Cursor cursor;
        Weight rest; // what it and all parts behind it weigh at the most
    };
    vector<Part> parts;
    size_t leading;

    explicit Many(vector<Side> sides)
    {
        std::sort(sides.begin(), sides.end(), [](const Side &x, const Side &y) { return x.list->most > y.list->most; });
        for (const Side &side : sides)
            parts.push_back({Cursor(*side.list), 0});
        leading = parts.size();
        add_up();
        seek(0, 0);
    }

    void add_up()
    {
        greatest = 0;
        for (size_t i = parts.size(); i-- > 0;)
            parts[i].rest = greatest += parts[i].cursor.list->most;
    }

    void drop(size_t i)
    {
        parts.erase(parts.begin() + i);
        leading -= i < leading;
        add_up();
    }

    // The first id from the target on that one that leads has. A part that ends goes.
    Id lead(Id target, Weight need)
    {
        Id next = END;
        for (size_t i = 0; i < leading;) {
            Cursor &cursor = parts[i].cursor;
            if (cursor.head < target)
                cursor.seek(target, less(need, greatest - cursor.list->most));
            if (cursor.head == END) {
                drop(i);
                continue;
            }
            next = std::min(next, cursor.head);
            ++i;
        }
        return next;
    }

    // Whether the parts at an id weigh what is needed; their weight is kept.
    bool weighs(Id id, Weight need)
    {
        weight = 0;
        for (size_t i = 0; i < leading; ++i)
            weight += parts[i].cursor.head == id ? parts[i].cursor.weight : 0;
        for (size_t i = leading; i < parts.size();) {
            if (weight + parts[i].rest < need)
                return false;
            Cursor &cursor = parts[i].cursor;
            if (cursor.head < id)
                cursor.seek(id, 0);
            if (cursor.head == END) {
                drop(i);
                continue;
            }
            weight += cursor.head == id ? cursor.weight : 0;
            ++i;
        }
        return weight >= need;
    }

    Node *seek(Id target, Weight need) override
    {
        for (;; target = head + 1) {
            while (leading > 0 && parts[leading - 1].rest < need)
                --leading;
            head = lead(target, need);
            if (head == END)
                return end();
            if (weighs(head, need))
                return this;
        }
    }
};

// All sides in one node, which adds up all weights in a window of ids where what the blocks there can weigh is enough. A window
// of one or two lists is one in which no block ends.
struct Windows : Node {
    static const Id WIDTH = 1024;

    vector<Side> sides;
    uint32_t sums[WIDTH + BESIDE] = {};
    Id from = 1, next = 1; // the window, and the id behind it

    explicit Windows(vector<Side> some) : sides(std::move(some))
    {
        head = 0;
        for (const Side &side : sides)
            greatest += side.list->most;
        seek(1, 0);
    }

    // Goes to the first window from the target on whose blocks can weigh what is needed; not where there is none.
    bool open(Id target, Weight need)
    {
        memset(sums, 0, (next - from) * sizeof(sums[0]));
        for (next = target;;) {
            auto ends = [this](Side &side) { return !side.reaches(next); };
            sides.erase(std::remove_if(sides.begin(), sides.end(), ends), sides.end());
            Id first = END, first_last = END;
            greatest = 0;
            for (const Side &side : sides) {
                first = std::min(first, side.list->postings[side.at].id);
                first_last = std::min(first_last, side.list->heads[side.block].last);
                greatest += side.list->most;
            }
            from = next;
            if (sides.empty() || greatest < need)
                return false;
            from = std::max(from, first);
            const Id last = std::min(from + WIDTH - 1, sides.size() > 2 ? END : first_last);
            next = last + 1;
            Weight most = 0;
            for (const Side &side : sides)
                most += side.most_up_to(last);
            if (most < need)
                continue;
            for (Side &side : sides)
                side.add_to(sums, from, last);
            return true;
        }
    }

    Node *seek(Id target, Weight need) override
    {
        const uint32_t least = std::max<Weight>(need, 1);
        while (target < next || open(target, need)) {
            const Id count = next - from, place = place_of(sums, std::max(target, from) - from, count, least);
            if (place < count) {
                head = from + place;
                weight = sums[place];
                return this;
            }
            target = next;
        }
        return end();
    }
};

template <class Any> static void walk(std::unique_ptr<Node> node, Any &page, const Weight &need)
{
    while (node->head != END) {
        page.offer(node->head, node->weight);
        reach(node, node->head + 1, need);
    }
}

// Lines

struct Words {
    string_view left;

    string_view next()
    {
        const size_t space = std::min(left.find(' '), left.size());
        const string_view word = left.substr(0, space);
        left.remove_prefix(std::min(space + 1, left.size()));
        return word;
    }

    uint64_t number()
    {
        uint64_t value = 0;
        const string_view word = next();
        std::from_chars(word.data(), word.data() + word.size(), value);
        return value;
    }

    vector<string_view> rest()
    {
        vector<string_view> words;
        while (!left.empty())
            words.push_back(next());
        return words;
    }
};

static void add(Words words)
{
    const Id id = years.size();
    years.push_back(words.number());
    sites.push_back(numbers_of_sites.try_emplace(std::string(words.next()), numbers_of_sites.size()).first->second);
    uint32_t place = 0;
    while (!words.left.empty())
        lists[std::string(words.next())].add(id, ++place);
}

static std::string out;

static void put(const char *text, uint64_t number)
{
    char digits[20];
    out += text;
    out.append(digits, std::to_chars(digits, digits + 20, number).ptr);
}

static void put_page(const Page &page)
{
    put("found hits=", page.hits.size());
    out += '\n';
    for (size_t rank = 0; rank < page.hits.size(); ++rank) {
        put("hit rank=", rank);
        put(" id=", page.hits[rank].id);
        put(" weight=", page.hits[rank].weight);
        out += " collapsed=0 data=\"\"\n";
    }
}

static void find(string_view form, Words words)
{
    CollapsedPage page;
    page.size = words.number();
    page.hits.reserve(page.size);
    Page &plain = page;
    const Weight nothing = 0;
    auto always = [](auto...) { return true; };
    auto open = [&words] { return sides_of(words.rest()); };
    if (form == "term")
        one(list_of(words.next()), plain, always);
    else if (form == "or" || form == "or_all")
        walk(std::make_unique<Windows>(open()), plain, form == "or" ? plain.need : nothing);
    else if (form == "or_collapsed")
        walk(std::make_unique<Windows>(open()), page, page.need);
    else if (form == "nested" || form == "nested_all") {
        const vector<Side> sides = open();
        walk(nest(sides, 0, sides.size()), plain, form == "nested" ? plain.need : nothing);
    } else if (form == "many" || form == "many_all")
        walk(std::make_unique<Many>(open()), plain, form == "many" ? plain.need : nothing);
    else if (form == "wildcard")
        wildcard(words.next(), plain);
    else if (form == "range" || form == "by_year" || form == "term_range") {
        const uint64_t lo = words.number(), hi = words.number();
        if (form == "range")
            range(lo, hi, plain);
        else if (form == "by_year")
            by_year(lo, hi, words.next() == "reversed", plain);
        else
            one(list_of(words.next()), plain, [lo, hi](Id id) { return is_between(id, lo, hi); });
    } else {
        const List &a = list_of(words.next()), &b = list_of(words.next());
        if (form == "and")
            a.size() <= b.size() ? both(a, b, plain, always) : both(b, a, plain, always);
        else if (form == "phrase")
            phrase(a, b, plain);
        else if (form == "and_not")
            without(a, b, plain);
        else if (form == "and_maybe")
            maybe(a, b, plain);
        else
            exit(2);
    }
    put_page(page);
}

static void put_out()
{
    for (size_t at = 0; at < out.size();) {
        const ssize_t some = write(1, out.data() + at, out.size() - at);
        if (some <= 0)
            _exit(4);
        at += some;
    }
    out.clear();
}

int main()
{
    std::string left;
    vector<char> piece(1 << 16);
    for (;;) {
        put_out();
        const ssize_t some = read(0, piece.data(), piece.size());
        if (some <= 0)
            _exit(some < 0 ? 3 : 0);
        left.append(piece.data(), some);
        size_t from = 0;
        for (size_t to; (to = left.find('\n', from)) != std::string::npos; from = to + 1) {
            Words words{string_view(left).substr(from, to - from)};
            const string_view form = words.next();
            if (form == "doc")
                add(words);
            else
                find(form, words);
            if (out.size() >= 1 << 16)
                put_out();
        }
        left.erase(0, from);
    }
}
