// Answers `tbenc BITS OUTLEN`, and `near D STREAMS OUTLEN` with the answer behind it that it is compared with, by IT++: the three generators
// are those of its own table of codes of rate 1/3.
#include <cstdio>
#include <cstdlib>
#include <iostream>
#include <string>

#include <itpp/itcomm.h>

static itpp::Convolutional_Code code;
static int places[3];
static long larger;

// Where IT++'s code has a generator.
static int place(const itpp::ivec &generators, int generator) {
    for (int i = 0; i < generators.size(); i++)
        if (generators(i) == generator)
            return i;
    std::cerr << "itpp: its table has no such generator\n";
    exit(1);
}

// The three streams of a word, one after the other.
static std::string coded(const std::string &word) {
    const int d = word.size();
    itpp::bvec bits(d);
    for (int k = 0; k < d; k++)
        bits(k) = word[k] - '0';
    const itpp::bvec theirs = code.encode_tailbite(bits);

    std::string streams;
    for (int stream : places)
        for (int k = 0; k < d; k++)
            streams += int(theirs(3 * k + stream)) + '0';
    return streams;
}

// The word of the least distance: IT++ tries all start states. A bit 0 is heard as 1 and a bit 1 as -1, so that distances count places.
static std::string decoded(int d, const std::string &streams) {
    itpp::vec heard(3 * d);
    for (int i = 0; i < 3; i++)
        for (int k = 0; k < d; k++)
            heard(3 * k + places[i]) = streams[i * d + k] == '1' ? -1 : 1;
    const itpp::bvec bits = code.decode_tailbite(heard);

    std::string word;
    for (int k = 0; k < d; k++)
        word += int(bits(k)) + '0';
    return word;
}

static int differences(const std::string &word, const std::string &streams) {
    const std::string own = coded(word);
    int count = 0;
    for (size_t k = 0; k < streams.size(); k++)
        count += own[k] != streams[k];
    return count;
}

static std::string unpacked(int count, const std::string &packed) {
    std::string bits;
    for (int k = 0; k < count; k++)
        bits += (std::stoi(packed.substr(k / 4, 1), nullptr, 16) >> (3 - k % 4) & 1) + '0';
    return bits;
}

static void print(std::string bits) {
    printf("0 %zu ", bits.size());
    bits.resize((bits.size() + 7) / 8 * 8, '0');
    for (size_t i = 0; i < bits.size(); i += 8)
        printf("%02x", std::stoi(bits.substr(i, 8), nullptr, 2));
}

// Of words that are as near document 02 asks for the smallest, and IT++ answers any. So ours is printed in place of its own where ours is the
// smaller one and is as near as its own, both counted with IT++'s streams. Where only one word is that near, it has to be both.
static void print_nearest(int d, const std::string &streams, const std::string &ours) {
    std::string word = decoded(d, streams);
    if (ours < word && differences(ours, streams) == differences(word, streams)) {
        word = ours;
        larger++;
    }
    print(word);
    printf(" %d\n", differences(word, streams));
}

int main() {
    code.set_code(itpp::ODS, 3, 7);
    const itpp::ivec theirs = code.get_generator_polynomials();
    const int generators[] = { 0133, 0171, 0165 };
    for (int i = 0; i < 3; i++)
        places[i] = place(theirs, generators[i]);

    std::string kind, first, streams, length, number, ours, count;
    int d;
    while (std::cin >> kind >> first) {
        if (kind == "tbenc") {
            std::cin >> length;
            print(coded(first));
            putchar('\n');
        } else {
            std::cin >> streams >> length >> number >> d >> ours >> count;
            print_nearest(d, streams, unpacked(d, ours));
        }
    }
    if (larger)
        std::cerr << "itpp: " << larger << " times it found a larger word that is as near\n";
}
