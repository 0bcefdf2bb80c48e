// agree FILE [--forget-predicates | --forget-directions | --forget-names]: FILE holds pairs of graphs. For each pair a line, `isomorphic` or
// `not isomorphic`, with `refused N` before it where the library refuses a graph, and a line for everything in which somebody disagrees; then the
// status is 1.
//
// The library, plain C with and without pruning, and the three canonisers on both encodings are asked. The library's form must be that of plain C,
// number for number, and what it tells of two graphs must be what the forms tell, with a mapping that is an isomorphism. Where it refuses a graph,
// only the canonisers can tell, and they must agree among themselves. By an option both encodings forget something, to see that it is noticed;
// then only the canonisers are checked.
#include "canonisers.h"
#include "forget.h"
#include "library.h"

#include <algorithm>
#include <cstdio>
#include <exception>
#include <optional>

namespace {

int disagreements = 0;

void disagree(size_t pair, const char *who) {
    std::printf("DISAGREEMENT in pair %zu: %s\n", pair, who);
    disagreements++;
}

Answer plain_answer_of(const Numbers &graph, bool prune) {
    static plain_answer answer;
    plain_form(graph.data(), graph.size(), prune, &answer);
    if (answer.refusal != 0) return {static_cast<uint64_t>(answer.refusal), answer.place, {}};
    return {0, 0, Numbers(answer.form, answer.form + answer.length)};
}

Answer answer_of(const Numbers &graph, size_t pair) {
    const Answer answer = library_form(graph);
    if (!(plain_answer_of(graph, false) == answer)) disagree(pair, "plain C has another form or refusal than the library");
    if (!(plain_answer_of(graph, true) == answer)) disagree(pair, "plain C with pruning has another form or refusal than the library");
    return answer;
}

bool is_isomorphism(const Numbers &first, const Numbers &second, const std::vector<uint64_t> &mapping) {
    std::vector<uint64_t> sorted = mapping;
    std::sort(sorted.begin(), sorted.end());
    for (size_t i = 0; i < sorted.size(); i++)
        if (sorted[i] != i) return false;
    if (first[0] != second[0] || mapping.size() != first[0]) return false;
    std::vector<Triple> mapped, wanted;
    read_triples(first, mapped);
    read_triples(second, wanted);
    for (Triple &t : mapped)
        for (Term *term : {&t.subject, &t.object})
            if (term->is_blank) term->number = static_cast<uint32_t>(mapping[term->number]);
    std::sort(mapped.begin(), mapped.end());
    return mapped == wanted;
}

bool tells_what_forms_tell(const Comparison &told, const Answer &first, const Answer &second) {
    if (first.refusal) return told.kind == COLLWYFA_FIRST_REFUSED && told.refusal == first.refusal && told.place == first.place;
    if (second.refusal) return told.kind == COLLWYFA_SECOND_REFUSED && told.refusal == second.refusal && told.place == second.place;
    return told.kind == (first.form == second.form ? COLLWYFA_ISOMORPHIC : COLLWYFA_NOT_ISOMORPHIC);
}

// Which canonisers, of six, find the two isomorphic; their order is that of `PEERS`.
struct Peer { const char *name; bool lean; Canoniser canoniser; };
const Peer PEERS[] = {{"densenauty, lean encoding", true, nauty_dense},  {"densenauty, plain encoding", false, nauty_dense},
                      {"sparsenauty, lean encoding", true, nauty_sparse}, {"sparsenauty, plain encoding", false, nauty_sparse},
                      {"bliss, lean encoding", true, bliss_digraph},      {"bliss, plain encoding", false, bliss_digraph}};

std::vector<uint32_t> peer_row(const Peer &peer, const Numbers &graph) {
    static LeanEncoder lean;
    static PlainEncoder plain;
    Encoding encoding;
    std::vector<int> place;
    if (peer.lean) lean.encode(graph, encoding);
    else plain.encode(graph, encoding);
    peer.canoniser(encoding, place);
    return canonical_row(encoding, place);
}

// Whether the two are isomorphic, as the library told, and where it refuses as the first of the canonisers finds; the others must find the same.
bool ask_peers(const Numbers &first, const Numbers &second, size_t pair, const Comparison &told) {
    bool wanted = told.kind == COLLWYFA_ISOMORPHIC, known = told.refusal == 0;
    for (const Peer &peer : PEERS) {
        const bool same = peer_row(peer, first) == peer_row(peer, second);
        if (!known) wanted = same;
        known = true;
        if (same != wanted) disagree(pair, peer.name);
    }
    return wanted;
}

void check_library(const Numbers &first, const Numbers &second, size_t pair, const Comparison &told) {
    const Answer one = answer_of(first, pair), other = answer_of(second, pair);
    if (!tells_what_forms_tell(told, one, other)) disagree(pair, "the library's comparison tells something else than its forms");
    if (told.kind == COLLWYFA_ISOMORPHIC && !is_isomorphism(first, second, told.mapping)) disagree(pair, "the library's mapping is no isomorphism");
}

void check_pair(const Numbers &first, const Numbers &second, size_t pair, Forgotten forgotten) {
    const Comparison told = library_compare(first, second);
    if (forgotten == Forgotten::NOTHING) check_library(first, second, pair, told);
    const bool isomorphic = ask_peers(forget(first, forgotten), forget(second, forgotten), pair, told);
    if (told.refusal) std::printf("refused %d ", static_cast<int>(told.refusal));
    std::puts(isomorphic ? "isomorphic" : "not isomorphic");
}

std::optional<Forgotten> forgotten_by(const std::string &option) {
    if (option == "") return Forgotten::NOTHING;
    if (option == "--forget-predicates") return Forgotten::PREDICATES;
    if (option == "--forget-directions") return Forgotten::DIRECTIONS;
    if (option == "--forget-names") return Forgotten::NAMES;
    return {};
}

}  // namespace

int main(int argc, char **argv) try {
    const auto forgotten = forgotten_by(argc == 3 ? argv[2] : "");
    if (argc < 2 || argc > 3 || !forgotten)
        return std::fputs("usage: agree FILE [--forget-predicates | --forget-directions | --forget-names]\n", stderr), 2;
    const auto graphs = read_graphs(argv[1]);
    for (size_t i = 0; i + 1 < graphs.size(); i += 2) check_pair(graphs[i], graphs[i + 1], i / 2, *forgotten);
    return disagreements > 0;
} catch (const std::exception &error) {
    return std::fprintf(stderr, "%s\n", error.what()), 2;
}
