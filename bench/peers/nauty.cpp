#include "canonisers.h"

#include <algorithm>

extern "C" {
#include <nauty/nausparse.h>
#include <nauty/nautinv.h>
#include <nauty/nauty.h>
}

namespace {

// nauty takes the vertices colour by colour, and a 0 behind the last of each colour.
struct Cells {
    std::vector<int> vertices, same_colour_follows, orbits, next;

    void fill(const Encoding &e) {
        const int count = e.vertices();
        next.assign(count + 2, 0);  // for colours up to `count`, and one more
        for (int colour : e.colour) next[colour + 1]++;
        for (int c = 0; c < count; c++) next[c + 1] += next[c];
        vertices.resize(count);
        same_colour_follows.resize(count);
        orbits.resize(count);
        for (int v = 0; v < count; v++) vertices[next[e.colour[v]]++] = v;
        for (int i = 0; i < count; i++) same_colour_follows[i] = i + 1 < count && e.colour[vertices[i]] == e.colour[vertices[i + 1]];
    }

    void read_places(std::vector<int> &place) const {
        place.resize(vertices.size());
        for (size_t i = 0; i < vertices.size(); i++) place[vertices[i]] = static_cast<int>(i);
    }
};

// Room that is kept from one call to the next, as nauty keeps its own.
Cells cells;
std::vector<graph> matrix, canonical_matrix;

struct SparseRoom {
    sparsegraph graph, canonical;
    SparseRoom() {
        SG_INIT(graph);
        SG_INIT(canonical);
    }
    ~SparseRoom() {
        SG_FREE(graph);
        SG_FREE(canonical);
    }

    void fill(const Encoding &e) {
        const size_t count = e.colour.size();
        SG_ALLOC(graph, count, e.arcs.size() + 1, "sparse graph");
        graph.nv = e.vertices();
        graph.nde = e.arcs.size();
        std::fill(graph.d, graph.d + count, 0);
        for (const auto &arc : e.arcs) graph.d[arc.first]++;
        size_t at = 0;
        for (size_t v = 0; v < count; v++) {
            graph.v[v] = at;
            at += static_cast<size_t>(graph.d[v]);
            graph.d[v] = 0;
        }
        for (const auto &[from, to] : e.arcs) graph.e[graph.v[from] + static_cast<size_t>(graph.d[from]++)] = to;
    }
};
SparseRoom sparse;

}  // namespace

void nauty_dense(const Encoding &e, std::vector<int> &place) {
    static DEFAULTOPTIONS_DIGRAPH(options);
    options.getcanon = TRUE;
    options.defaultptn = FALSE;
    cells.fill(e);
    const int count = e.vertices(), words = SETWORDSNEEDED(count);
    if (count > 0) {
        statsblk stats;
        matrix.assign(static_cast<size_t>(words) * count, 0);
        canonical_matrix.resize(matrix.size());
        for (const auto &[from, to] : e.arcs) ADDONEARC(matrix.data(), from, to, words);
        densenauty(matrix.data(), cells.vertices.data(), cells.same_colour_follows.data(), cells.orbits.data(), &options, &stats, words, count,
                   canonical_matrix.data());
    }
    cells.read_places(place);
}

void nauty_sparse(const Encoding &e, std::vector<int> &place) {
    static DEFAULTOPTIONS_SPARSEDIGRAPH(options);
    options.getcanon = TRUE;
    options.defaultptn = FALSE;
    cells.fill(e);
    if (e.vertices() > 0) {
        statsblk stats;
        sparse.fill(e);
        sparsenauty(&sparse.graph, cells.vertices.data(), cells.same_colour_follows.data(), cells.orbits.data(), &options, &stats, &sparse.canonical);
    }
    cells.read_places(place);
}
