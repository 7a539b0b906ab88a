// The stems of words by Snowball's stemmer `porter`. Usage: stems UTF_8 | ISO_8859_1 ROUNDS < WORDS
//
// Each line has a word. With no round, each is told with its stem; else all of them are stemmed so many times.
#include <libstemmer.h>
#include <cstdint>
#include <cstdio>
#include <cstdlib>
#include <iostream>
#include <string>
#include <vector>

static const sb_symbol *bytes_of(const std::string &word) { return reinterpret_cast<const sb_symbol *>(word.data()); }

int main(int argc, char **argv)
{
    sb_stemmer *stemmer = argc == 3 ? sb_stemmer_new("porter", argv[1]) : nullptr;
    const long rounds = argc == 3 ? atol(argv[2]) : 0;
    if (!stemmer) {
        fprintf(stderr, "usage: stems UTF_8 | ISO_8859_1 ROUNDS < WORDS\n");
        return 1;
    }
    std::ios::sync_with_stdio(false);
    std::vector<std::string> words;
    for (std::string word; std::getline(std::cin, word);)
        words.push_back(word);
    uint64_t letters = 0;
    for (long round = 0; round < rounds; ++round)
        for (const std::string &word : words) {
            letters += sb_stemmer_stem(stemmer, bytes_of(word), word.size())[0];
            letters += sb_stemmer_length(stemmer);
        }
    if (rounds > 0) {
        printf("%llu\n", (unsigned long long)letters);
        return 0;
    }
    for (const std::string &word : words) {
        const sb_symbol *stem = sb_stemmer_stem(stemmer, bytes_of(word), word.size());
        printf("%s %.*s\n", word.c_str(), sb_stemmer_length(stemmer), reinterpret_cast<const char *>(stem));
    }
}
