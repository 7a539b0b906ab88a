// A floor for the tree of nodes: the same two lists, walked by nodes with a virtual seek.
// nodes DOCUMENTS ROUNDS or|and|max|xor|not|maybe|term
#include <cstdint>
#include <cstdio>
#include <cstdlib>
#include <cstring>
#include <memory>
#include <utility>
#include <vector>

using List = std::vector<std::pair<uint32_t, uint32_t>>;
static const uint64_t END = uint64_t(1) << 32;

struct Node {
  uint64_t head = 0, weight = 0;
  virtual ~Node() = default;
  virtual void seek(uint64_t target) = 0;
};

struct Leaf : Node {
  const List &list;
  size_t at = 0;
  explicit Leaf(const List &l) : list(l) { show(); }
  void show() {
    if (at < list.size()) { head = list[at].first; weight = list[at].second; } else { head = END; weight = 0; }
  }
  void seek(uint64_t target) override {
    while (at < list.size() && list[at].first < target) ++at;
    show();
  }
};

enum Form { OR, AND, MAX, XOR, NOT, MAYBE };

template <Form form> struct Pair : Node {
  std::unique_ptr<Node> a, b;
  Pair(std::unique_ptr<Node> x, std::unique_ptr<Node> y) : a(std::move(x)), b(std::move(y)) { seek(0); }
  void at(uint64_t h, uint64_t w) { head = h; weight = w; }
  void seek(uint64_t target) override {
    for (;;) {
      if (a->head < target) a->seek(target);
      if (form == AND || form == NOT || form == MAYBE) {
        if (a->head >= END) return at(END, 0);
        if (b->head < a->head) b->seek(a->head);
      } else if (b->head < target) b->seek(target);
      const uint64_t h = a->head, k = b->head;
      switch (form) {
        case OR: return h < k ? at(h, a->weight) : k < h ? at(k, b->weight) : at(h, a->weight + b->weight);
        case MAX: return h < k ? at(h, a->weight) : k < h ? at(k, b->weight)
                                                          : at(h, a->weight > b->weight ? a->weight : b->weight);
        case XOR:
          if (h < k) return at(h, a->weight);
          if (k < h) return at(k, b->weight);
          if (h >= END) return at(END, 0);
          target = h + 1;
          break;
        case AND:
          if (h == k) return at(h, a->weight + b->weight);
          if (k >= END) return at(END, 0);
          target = k;
          break;
        case NOT:
          if (h != k) return at(h, a->weight);
          target = h + 1;
          break;
        case MAYBE: return at(h, a->weight + (h == k ? b->weight : 0));
      }
    }
  }
};

template <Form form> static std::unique_ptr<Node> pair(const List &a, const List &b) {
  return std::make_unique<Pair<form>>(std::make_unique<Leaf>(a), std::make_unique<Leaf>(b));
}

static std::unique_ptr<Node> open(const char *form, const List &a, const List &b) {
  if (!strcmp(form, "or")) return pair<OR>(a, b);
  if (!strcmp(form, "and")) return pair<AND>(a, b);
  if (!strcmp(form, "max")) return pair<MAX>(a, b);
  if (!strcmp(form, "xor")) return pair<XOR>(a, b);
  if (!strcmp(form, "not")) return pair<NOT>(a, b);
  if (!strcmp(form, "maybe")) return pair<MAYBE>(a, b);
  return std::make_unique<Leaf>(a);
}

int main(int argc, char **argv) {
  const uint32_t n = argc > 1 ? atoi(argv[1]) : 300000, rounds = argc > 2 ? atoi(argv[2]) : 1;
  const char *form = argc > 3 ? argv[3] : "or";
  List a, b;
  for (uint32_t i = 0; i < n; ++i) {
    uint64_t x = i * 0x9E3779B97F4A7C15ull;
    x ^= x >> 32;
    x *= 0xD6E8FEB86659FD93ull;
    const unsigned k = (x >> 33) & 3;
    if (k & 1) a.push_back({i + 1, 1});
    if (k & 2) b.push_back({i + 1, 1});
  }
  uint64_t sum = 0;
  for (uint32_t r = 0; r < rounds; ++r)
    for (auto tree = open(form, a, b); tree->head < END; tree->seek(tree->head + 1)) sum += tree->weight;
  printf("%llu %zu\n", (unsigned long long)sum, a.size() + b.size());
}
