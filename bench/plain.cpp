// What plexrun prints of a mesh file, written plainly: the yardstick of bench/run.
//
// It trusts its input: MSH 2.2 whose elements are cells of one dimension on different nodes, without
// physical groups or data, nodes numbered from 1. It checks nothing and proves nothing.
//
//   g++ -O2 -std=c++20 plain.cpp -o plain;  ./plain [--summary] FILE
#include <algorithm>
#include <array>
#include <charconv>
#include <cstdint>
#include <cstdio>
#include <cstdlib>
#include <cstring>
#include <string>
#include <string_view>
#include <type_traits>
#include <unordered_map>
#include <vector>

struct Shape {
    int dim, corners;
    std::vector<std::vector<int>> facets;
    std::vector<std::array<int, 2>> edges;
};

static const Shape TRIANGLE{2, 3, {{0, 1}, {1, 2}, {2, 0}}, {{0, 1}, {1, 2}, {2, 0}}};
static const Shape QUAD{2, 4, {{0, 1}, {1, 2}, {2, 3}, {3, 0}}, {{0, 1}, {1, 2}, {2, 3}, {3, 0}}};
static const Shape TET{3, 4, {{0, 2, 1}, {0, 1, 3}, {1, 2, 3}, {0, 3, 2}}, {{0, 1}, {1, 2}, {2, 0}, {0, 3}, {1, 3}, {2, 3}}};
static const Shape HEX{3, 8,
                       {{0, 3, 2, 1}, {4, 5, 6, 7}, {0, 1, 5, 4}, {1, 2, 6, 5}, {2, 3, 7, 6}, {3, 0, 4, 7}},
                       {{0, 1}, {1, 2}, {2, 3}, {3, 0}, {4, 5}, {5, 6}, {6, 7}, {7, 4}, {0, 4}, {1, 5}, {2, 6}, {3, 7}}};

static const Shape& shape_of(long type) {
    switch (type) {
        case 2: return TRIANGLE;
        case 3: return QUAD;
        case 4: return TET;
        default: return HEX;
    }
}

using Set = std::array<uint32_t, 4>;  // of up to four vertices, rising, with zeros behind them

struct HashOfSet {
    size_t operator()(const Set& s) const {
        uint64_t a = uint64_t(s[0]) << 32 | s[1], b = uint64_t(s[2]) << 32 | s[3];
        return (a * 0x9E3779B97F4A7C15u) ^ ((b + a) * 0xC2B2AE3D27D4EB4Fu >> 7);
    }
};

static Set set_of(const uint32_t* list, int n) {
    Set s{};
    std::copy(list, list + n, s.begin());
    std::sort(s.begin(), s.begin() + n);
    return s;
}

// A face or an edge as the first cell that has it sees it.
struct Seen {
    uint64_t key;
    int corners;
    std::array<uint32_t, 4> list;
};

struct Arrow {
    uint32_t point;
    int turn;
};

// The turn under which `own` becomes `list`.
static int turn(const Seen& own, const uint32_t* list) {
    int n = own.corners;
    if (n == 2) return own.list[0] == list[0] ? 0 : -1;
    int s = 0;
    while (own.list[s] != list[0]) ++s;
    return own.list[(s + 1) % n] == list[1] ? s : -(s + 1);
}

struct Points {
    std::vector<Seen> seen;
    std::unordered_map<Set, uint32_t, HashOfSet> places;
    uint32_t place(uint64_t key, const uint32_t* list, int n) {
        auto [found, fresh] = places.emplace(set_of(list, n), uint32_t(seen.size()));
        if (fresh) {
            seen.push_back({key, n, {}});
            std::copy(list, list + n, seen.back().list.begin());
        }
        return found->second;
    }
};

// Standard output in long pieces.
struct Text {
    char bytes[1 << 15];
    size_t used = 0;
    void flush() {
        fwrite(bytes, 1, used, stdout);
        used = 0;
    }
    ~Text() { flush(); }
    Text& put(std::string_view piece) {
        if (used + piece.size() > sizeof bytes) flush();
        memcpy(bytes + used, piece.data(), piece.size());
        used += piece.size();
        return *this;
    }
    template <class Number>
        requires std::is_integral_v<Number>
    Text& put(Number n) {
        if (used + 24 > sizeof bytes) flush();
        used = std::to_chars(bytes + used, bytes + sizeof bytes, n).ptr - bytes;
        return *this;
    }
    Text& put(Arrow a) { return put(" ").put(a.point).put(":").put(a.turn); }
};

static std::string read_file(const char* name) {
    FILE* file = fopen(name, "rb");
    if (!file) exit(6);
    std::string bytes;
    char piece[1 << 16];
    while (size_t n = fread(piece, 1, sizeof piece, file)) bytes.append(piece, n);
    fclose(file);
    return bytes;
}

// The next whole number, behind whatever stands before it.
static long number(const char*& at) {
    while (*at != '-' && (*at < '0' || *at > '9')) ++at;
    bool minus = *at == '-';
    if (minus) ++at;
    long n = 0;
    while (*at >= '0' && *at <= '9') n = 10 * n + (*at++ - '0');
    return minus ? -n : n;
}

static void section(const char*& at, const std::string& bytes, const char* name) {
    at = bytes.c_str() + bytes.find(name, at - bytes.c_str()) + std::string(name).size();
}

struct Cell {
    const Shape* shape;
    std::array<uint32_t, 8> corners;
};

int main(int argc, char** argv) {
    bool summary = argc == 3 && !strcmp(argv[1], "--summary");
    if (argc != 2 + summary) return 2;
    std::string bytes = read_file(argv[argc - 1]);
    const char* at = bytes.c_str();

    section(at, bytes, "$Nodes");
    std::vector<std::array<long, 3>> nodes(number(at));
    for (auto& node : nodes) {
        number(at);
        for (long& x : node) x = number(at);
    }
    section(at, bytes, "$Elements");
    std::vector<Cell> cells(number(at));
    for (auto& cell : cells) {
        number(at);
        cell.shape = &shape_of(number(at));
        for (long tags = number(at); tags > 0; --tags) number(at);
        for (int k = 0; k < cell.shape->corners; ++k) cell.corners[k] = uint32_t(number(at)) - 1;
    }

    std::vector<char> used(nodes.size());
    for (auto& cell : cells)
        for (int k = 0; k < cell.shape->corners; ++k) used[cell.corners[k]] = 1;
    std::vector<uint32_t> position(nodes.size());
    std::vector<std::array<long, 3>> vertices;
    for (size_t i = 0; i < nodes.size(); ++i) {
        position[i] = uint32_t(vertices.size());
        if (used[i]) vertices.push_back(nodes[i]);
    }

    bool solid = !cells.empty() && cells[0].shape->dim == 3;
    Points faces, edges;
    faces.places.reserve(solid ? 3 * cells.size() : 0);
    edges.places.reserve(solid ? 3 * cells.size() : 2 * cells.size());
    std::vector<Arrow> cones;
    for (size_t c = 0; c < cells.size(); ++c) {
        const Shape& shape = *cells[c].shape;
        for (int k = 0; k < shape.corners; ++k) cells[c].corners[k] = position[cells[c].corners[k]];
        uint32_t list[4];
        if (solid)
            for (size_t f = 0; f < shape.facets.size(); ++f) {
                int n = int(shape.facets[f].size());
                for (int k = 0; k < n; ++k) list[k] = cells[c].corners[shape.facets[f][k]];
                uint32_t p = faces.place(64 * c + 1 + f, list, n);
                cones.push_back({p, turn(faces.seen[p], list)});
            }
        for (size_t e = 0; e < shape.edges.size(); ++e) {
            for (int k = 0; k < 2; ++k) list[k] = cells[c].corners[shape.edges[e][k]];
            uint32_t p = edges.place(64 * c + 8 + e, list, 2);
            if (!solid) cones.push_back({p, turn(edges.seen[p], list)});
        }
    }

    size_t first_vertex = cells.size(), first_face = first_vertex + vertices.size();
    size_t first_edge = first_face + faces.seen.size(), points = first_edge + edges.seen.size();
    auto edge_of = [&](const Seen& face, int k) {
        uint32_t list[2] = {face.list[k], face.list[(k + 1) % face.corners]};
        uint32_t p = edges.places.find(set_of(list, 2))->second;
        return Arrow{uint32_t(first_edge) + p, turn(edges.seen[p], list)};
    };

    Text text;
    text.put("mesh dim ").put(solid ? 3 : 2).put(" cells ").put(cells.size()).put(" vertices ").put(vertices.size());
    text.put(" unused ").put(nodes.size() - vertices.size()).put(" loose 0 merged 0\nranks 1\nstep 0 part\n");
    if (summary) {
        size_t entries = cones.size() + 2 * edges.seen.size(), back = 0;
        for (Arrow a : cones) back += a.turn < 0;
        for (auto& face : faces.seen)
            for (int k = 0; k < face.corners; ++k, ++entries) back += edge_of(face, k).turn < 0;
        long sum = 0;
        for (auto& vertex : vertices)
            for (long x : vertex) sum += x;
        text.put("sum held ").put(points).put(" owned ").put(points).put(" entries ").put(entries);
        text.put(" back ").put(back).put(" at ").put(sum).put(" data 0 dofs 0\nend\n");
        return 0;
    }
    text.put("rank 0 cells ").put(cells.size()).put(" held ").put(points).put(" owned ").put(points).put(" base 0\n");
    text.put("total ").put(points).put(" cells ").put(cells.size()).put(" vertices ").put(vertices.size());
    text.put(" faces ").put(faces.seen.size()).put(" edges ").put(edges.seen.size()).put("\n");
    size_t p = 0, arrow = 0, facets = solid ? first_face : first_edge;
    for (size_t c = 0; c < cells.size(); ++c) {
        text.put("P ").put(p++).put(" c").put(c);
        for (size_t k = 0; k < cells[c].shape->facets.size(); ++k, ++arrow)
            text.put(Arrow{uint32_t(facets) + cones[arrow].point, cones[arrow].turn});
        text.put("\n");
    }
    for (size_t v = 0; v < vertices.size(); ++v) {
        text.put("P ").put(p++).put(" v").put(v).put(" @");
        for (long x : vertices[v]) text.put(" ").put(x);
        text.put("\n");
    }
    for (auto& face : faces.seen) {
        text.put("P ").put(p++).put(" f").put(face.key);
        for (int k = 0; k < face.corners; ++k) text.put(edge_of(face, k));
        text.put("\n");
    }
    for (auto& edge : edges.seen) {
        text.put("P ").put(p++).put(" e").put(edge.key);
        for (int k = 0; k < 2; ++k) text.put(Arrow{uint32_t(first_vertex) + edge.list[k], 0});
        text.put("\n");
    }
    text.put("end\n");
}
